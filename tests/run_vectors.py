#!/usr/bin/env python3
"""Makes the data of the program run_vectors: functions, and runs of them with what comes out.

    run_vectors.py > crates/run_vectors/stdin

The first part is computed by hand: a comment says where the steps go, and the interpreter of run_model.py has to agree.
The second part is random: small dense functions, run with the budgets 0, one below what is needed, just that and a large
one, with what the interpreter says.
"""
import random

from run_model import Run, Tree

LARGEST = 1000000000
LOOPS = (5, 6, 7, 8, 9)


def file(identifiers, scopes, body):
    counters, table, infos = [10, 1, 1], [0, 0, 0, 0, 0, 0] * identifiers, [0, 0] * scopes
    words, at = [], 8
    for section in (counters, table, infos, body):
        words += [at, len(section)]
        at += len(section)
    return words + counters + table + infos + body


# ---- words for parts of a function; ids, spans and effects play no part in a run


def place(i):
    return [i, 0, 0, 0]


def optional(words):
    return [0] if words is None else [1] + words


def listed(items):
    return [len(items)] + sum(items, [])


def block(*statements):
    return listed(statements)


def op(kind, payload=0, written=(), operands=()):
    return [0, kind, payload] + listed([place(p) for p in written]) + listed([place(p) for p in operands]) + [0]


def load(i):
    return op(0, 0, (), (i,))


def ask(payload=0, *operands):
    return op(9, payload, (), operands)


def instruction(lvalue, value):
    return [0] + optional(None if lvalue is None else place(lvalue)) + value + [0]


def put(lvalue, value):
    return [0] + instruction(lvalue, value)


def logical(operator, left, right):
    return [1, operator] + left + right


def conditional(test, yes, no):
    return [2] + test + yes + no


def sequence(instructions, value):
    return [3] + listed(instructions) + [0] + value


def chained(value):
    return [4] + value + [1]


def scope(x, inner):
    return [2, x] + inner


def pruned(x, inner):
    return [3, x] + inner


def terminal(words, label=None, implicit=0):
    return [1] + words + (optional(None if label is None else [label, implicit]))


def jump(case, kind, target=0, **label):
    return terminal([case, target, 0, {"implicit": 0, "labeled": 1, "unlabeled": 2}[kind]], **label)


def break_(kind, target=0, **label):
    return jump(0, kind, target, **label)


def continue_(kind, target=0, **label):
    return jump(1, kind, target, **label)


def return_(p, **label):
    return terminal([2] + place(p) + [0], **label)


def throw(p, **label):
    return terminal([3] + place(p) + [0], **label)


def switch(p, *cases, **label):
    return terminal([4] + place(p) + listed([optional(None if t is None else place(t)) + optional(b) for t, b in cases]) + [0], **label)


def do_while(inner, value, **label):
    return terminal([5] + inner + value + [0], **label)


def while_(value, inner, **label):
    return terminal([6] + value + inner + [0], **label)


def for_(init, test, update, inner, **label):
    return terminal([7] + init + test + optional(update) + inner + [0], **label)


def for_of(init, test, inner, **label):
    return terminal([8] + init + test + inner + [0, 0], **label)


def for_in(value, inner, **label):
    return terminal([9] + value + inner + [0, 0], **label)


def if_(p, yes, no=None, **label):
    return terminal([10] + place(p) + yes + optional(no) + [0], **label)


def labeled(inner, **label):
    return terminal([11] + inner + [0], **label)


def try_(inner, binding, handler, **label):
    return terminal([12] + inner + optional(None if binding is None else place(binding)) + handler + [0], **label)


# ---- by hand: what it is, identifiers, scopes, body, and runs (host, budget, store, answers, result)


def gives(outcome, steps, store, unused=0):
    return f"{outcome}; steps {steps}; entries 0; record 0; store {store}; unused {unused}"


def by_hand():
    one = put(0, load(1))
    yield "nothing: no step", 0, 0, block(), [
        ("number", 0, "", "", gives("ended", 0, "")),
        ("list", 0, "", "7 8", gives("ended", 0, "", 2)),
        ("list", LARGEST, "4 5", "", gives("ended", 0, "4 5")),
        ("number", LARGEST + 1, "", "", "refused 13")]
    yield "return 0: one step; places past the table stay", 1, 0, block(return_(0)), [
        ("number", 0, "5", "", gives("spent", 0, "5")),
        ("number", 1, "5", "", gives("returned 5", 1, "5")),
        ("list", 1, "4294967295 6 7", "1", gives("returned 4294967295", 1, "4294967295 6 7", 1)),
        ("list", 1, "", "1", "refused 12"),
        ("list", LARGEST + 1, "", "1", "refused 12"),
        ("list", LARGEST + 1, "5", "1", "refused 13"),
        ("list", LARGEST, "5", "", gives("returned 5", 1, "5"))]
    yield "scope { return 0 }: the scope and the return, 2 steps", 1, 1, block(scope(0, block(return_(0)))), [
        ("number", 1, "5", "", gives("spent", 1, "5")),
        ("number", 2, "5", "", gives("returned 5", 2, "5"))]
    yield "scope { 1 := 0 } pruned { 2 := 1 }: 4 steps", 3, 1, block(scope(0, block(put(1, load(0)))), pruned(0, block(put(2, load(1))))), [
        ("number", 3, "5 0 0", "", gives("spent", 3, "5 5 0")),
        ("number", 4, "5 0 0", "", gives("ended", 4, "5 5 5"))]
    yield "throw 0, then a return that is not reached: 1 step", 1, 0, block(throw(0), return_(0)), [
        ("number", 9, "5", "", gives("thrown 5", 1, "5")),
        ("list", 0, "5", "", gives("spent", 0, "5"))]
    yield "if (0) { 1 := 0 } else { 2 := 0 }: the if and one instruction, 2 steps; on a list the test takes an answer, or throws 0", 3, 0, \
        block(if_(0, block(put(1, load(0))), block(put(2, load(0))))), [
            ("number", 2, "5 0 0", "", gives("ended", 2, "5 5 0")),
            ("number", 2, "0 7 7", "", gives("ended", 2, "0 7 0")),
            ("list", 2, "5 0 0", "0", gives("ended", 2, "5 0 5")),
            ("list", 2, "5 0 0", "9 8", gives("ended", 2, "5 5 0", 1)),
            ("list", 1, "5 0 0", "9", gives("spent", 1, "5 0 0")),
            ("list", 2, "5 0 0", "", gives("thrown 0", 1, "5 0 0"))]
    yield "if (0) { 1 := 0 } without else: 2 steps, or 1", 2, 0, block(if_(0, block(put(1, load(0))))), [
        ("list", 9, "5 0", "1", gives("ended", 2, "5 5")),
        ("list", 9, "5 0", "0", gives("ended", 1, "5 0"))]
    middle = switch(0, (1, block(put(3, load(0)))), (None, block(put(4, load(0)))), (2, block(put(5, load(0)), break_("unlabeled"), put(3, load(2)))))
    yield "switch (0) { case 1: 3 := 0; default: 4 := 0; case 2: 5 := 0; break; 3 := 2 }: the switch, then each instruction and the break", 6, 0, \
        block(middle), [
            ("list", 9, "9 1 2 0 0 0", "0 0", gives("ended", 4, "9 1 2 0 9 9")),
            ("list", 9, "9 1 2 0 0 0", "1", gives("ended", 5, "9 1 2 9 9 9")),
            ("list", 9, "9 1 2 0 0 0", "0 7 7", gives("ended", 3, "9 1 2 0 0 9", 1)),
            ("list", 2, "9 1 2 0 0 0", "0 7 7", gives("spent", 2, "9 1 2 0 0 9", 1)),
            ("list", 9, "9 1 2 0 0 0", "0", gives("thrown 0", 1, "9 1 2 0 0 0")),
            ("number", 9, "0 0 0 0 0 0", "", gives("ended", 4, "0 0 0 0 0 0"))]
    yield "switch (0) { case 1: (no block) case 2: 3 := 0 } without default: with no yes the switch alone, 1 step", 4, 0, \
        block(switch(0, (1, None), (2, block(put(3, load(0)))))), [
            ("list", 9, "9 1 2 0", "0 0 5", gives("ended", 1, "9 1 2 0", 1)),
            ("list", 9, "9 1 2 0", "5 5", gives("ended", 2, "9 1 2 9", 1))]
    yield "switch (0) { default: default: 1 := 0 }: the first default, nothing is asked; 2 steps", 2, 0, \
        block(switch(0, (None, None), (None, block(put(1, load(0)))))), [("list", 9, "9 0", "7", gives("ended", 2, "9 9", 1))]
    yield "switch (0) {}: 1 step", 1, 0, block(switch(0)), [("list", 1, "9", "7", gives("ended", 1, "9", 1))]
    yield "while (ask) { 0 := 1 }: the statement, a round (8, yes), the instruction, a round (9, no): 4 steps", 2, 0, block(while_(ask(), block(one))), [
        ("list", 4, "0 6", "8 1 9 0", gives("ended", 4, "6 6")),
        ("list", 3, "0 6", "8 1 9 0", gives("spent", 3, "6 6", 2)),
        ("list", 2, "0 6", "8 1 9 0", gives("spent", 2, "0 6", 2)),
        ("list", 1, "0 6", "8 1 9 0", gives("spent", 1, "0 6", 4)),
        ("list", 9, "0 6", "8 1 9", gives("thrown 0", 4, "6 6")),
        ("list", 9, "0 6", "8 1", gives("thrown 0", 4, "6 6"))]
    yield "do { 0 := 1 } while (ask): the statement, a round, the instruction (8, yes), a round, the instruction (9, no): 5 steps", 2, 0, \
        block(do_while(block(one), ask())), [
            ("list", 5, "0 6", "8 1 9 0", gives("ended", 5, "6 6")),
            ("list", 4, "0 6", "8 1 9 0", gives("spent", 4, "6 6", 2)),
            ("list", 9, "0 6", "", gives("thrown 0", 3, "6 6"))]
    yield "do { continue; 0 := 1 } while (ask): continue goes to the test; the statement, a round, the continue: 3 steps", 2, 0, \
        block(do_while(block(continue_("unlabeled"), one), ask())), [
            ("list", 9, "0 6", "8 0", gives("ended", 3, "0 6")),
            ("list", 9, "0 6", "8 1 8 0", gives("ended", 5, "0 6"))]
    yield "for (ask; ask; ask) { 0 := 1 }: the statement (init 7), a round (8, yes), the instruction (update 5), a round (9, no): 4 steps", 2, 0, \
        block(for_(ask(), ask(), ask(), block(one))), [
            ("list", 4, "0 6", "7 8 1 5 9 0", gives("ended", 4, "6 6")),
            ("list", 3, "0 6", "7 8 1 5 9 0", gives("spent", 3, "6 6", 2)),
            ("list", 9, "0 6", "", gives("thrown 0", 1, "0 6")),
            ("list", 9, "0 6", "7", gives("thrown 0", 2, "0 6")),
            ("list", 9, "0 6", "7 8", gives("thrown 0", 2, "0 6")),
            ("list", 9, "0 6", "7 8 1", gives("thrown 0", 3, "6 6"))]
    yield "for (ask; ask; 0 := 1) { continue; 2 := 1 }: continue still runs the update; statement, round, continue, round: 4 steps", 3, 0, \
        block(for_(ask(), ask(), op(4, 0, (0,), (1,)), block(continue_("unlabeled"), put(2, load(1))))), [
            ("list", 9, "0 6 0", "7 8 1 9 0", gives("ended", 4, "6 6 0"))]
    yield "for (ask; ask;) { break } without update: the statement, a round, the break: 3 steps", 1, 0, \
        block(for_(ask(), ask(), None, block(break_("unlabeled")))), [
            ("list", 9, "0", "7 8 1 9", gives("ended", 3, "0", 1)),
            ("list", 2, "0", "7 8 1 9", gives("spent", 2, "0", 1))]
    yield "for (ask of ask) { 0 := 1 }: the statement (init 7), a round (8, yes), the instruction, a round (9, no): 4 steps", 2, 0, \
        block(for_of(ask(), ask(), block(one))), [
            ("list", 4, "0 6", "7 8 1 9 0", gives("ended", 4, "6 6")),
            ("list", 9, "0 6", "7", gives("thrown 0", 2, "0 6")),
            ("list", 9, "0 6", "", gives("thrown 0", 1, "0 6"))]
    yield "for (ask in) { 0 := 1 }: the init is the test of each round; the statement, a round (8, yes), the instruction, a round (9, no): 4 steps", 2, 0, \
        block(for_in(ask(), block(one))), [
            ("list", 4, "0 6", "8 1 9 0", gives("ended", 4, "6 6")),
            ("list", 3, "0 6", "8 1 9 0", gives("spent", 3, "6 6", 2))]
    yield "while (0) {} on the number host never ends: the statement and a round for each other step", 1, 0, block(while_(load(0), block())), [
        ("number", 1, "5", "", gives("spent", 1, "5")),
        ("number", 1000, "5", "", gives("spent", 1000, "5")),
        ("number", 1000, "0", "", gives("ended", 2, "0"))]
    yield "7: { 0 := 1; break 7; 2 := 1 }: the label, the instruction and the break, 3 steps", 3, 0, \
        block(labeled(block(one, break_("labeled", 7), put(2, load(1))), label=7)), [
            ("number", 3, "0 6 0", "", gives("ended", 3, "6 6 0")),
            ("number", 2, "0 6 0", "", gives("spent", 2, "6 6 0"))]
    yield "try { throw 0; 2 := 0 } catch 1 { 2 := 1 }: the try, the throw and the instruction, 3 steps; the binding is stored before the handler's step", 3, 0, \
        block(try_(block(throw(0), put(2, load(0))), 1, block(put(2, load(1))))), [
            ("number", 3, "5 0 0", "", gives("ended", 3, "5 5 5")),
            ("number", 2, "5 0 0", "", gives("spent", 2, "5 5 0")),
            ("number", 1, "5 0 0", "", gives("spent", 1, "5 0 0"))]
    yield "try { ask } catch { ask }: what the host throws is caught once, a throw in the handler is not; try, instruction, instruction: 3 steps", 1, 0, \
        block(try_(block(put(0, ask())), None, block(put(0, ask())))), [
            ("list", 9, "5", "", gives("thrown 0", 3, "5")),
            ("list", 9, "5", "6", gives("ended", 2, "6")),
            ("number", 9, "5", "", gives("ended", 2, "0"))]
    yield "try { try { throw 0 } catch { throw 1 } } catch 2 {}: the outer handler takes the inner handler's throw; 4 steps", 3, 0, \
        block(try_(block(try_(block(throw(0)), None, block(throw(1)))), 2, block())), [("number", 9, "5 6 0", "", gives("ended", 4, "5 6 6"))]
    yield "try { return 0 } catch 1 { }: a return is not caught; 2 steps", 2, 0, block(try_(block(return_(0)), 1, block())), [
        ("number", 9, "5 0", "", gives("returned 5", 2, "5 0"))]
    yield "while (ask) { try { break } catch { 0 := 1 } }: a break leaves the try; statement, round, try, break: 4 steps", 2, 0, \
        block(while_(ask(), block(try_(block(break_("unlabeled")), None, block(one))))), [("list", 9, "0 6", "8 1 9", gives("ended", 4, "0 6", 1))]
    yield "while (ask) { try { throw 1 } catch 0 { continue } }: statement, round, try, throw, continue, round: 6 steps", 2, 0, \
        block(while_(ask(), block(try_(block(throw(1)), 0, block(continue_("unlabeled")))))), [("list", 9, "0 6", "8 1 9 0", gives("ended", 6, "6 6"))]
    yield "try { for (ask; ask; ask) { } } catch 0 { }: throws of init, test and update are caught; the for, and its rounds", 1, 0, \
        block(try_(block(for_(ask(), ask(), ask(), block())), 0, block())), [
            ("list", 9, "5", "", gives("ended", 2, "0")),
            ("list", 9, "5", "7", gives("ended", 3, "0")),
            ("list", 9, "5", "7 8 1", gives("ended", 3, "0")),
            ("list", 9, "5", "7 8 1 9 8 0", gives("ended", 4, "5"))]
    yield "implicit jumps do nothing: break, continue and an instruction, 3 steps", 2, 0, \
        block(break_("implicit", 3), continue_("implicit", 4), one), [("number", 9, "0 6", "", gives("ended", 3, "6 6"))]
    yield "while (ask) { continue (implicit); 0 := 1; break (implicit) }: statement, round, three statements, round: 6 steps", 2, 0, \
        block(while_(ask(), block(continue_("implicit"), one, break_("implicit")))), [("list", 9, "0 6", "8 1 9 0", gives("ended", 6, "6 6"))]
    yield "while (ask) { switch (0) { default: break }; 0 := 1 }: the break ends the switch; statement, round, switch, break, instruction, round: 6 steps", 2, 0, \
        block(while_(ask(), block(switch(0, (None, block(break_("unlabeled")))), one))), [("list", 9, "0 6", "8 1 9 0", gives("ended", 6, "6 6"))]
    yield "while (ask) { switch (0) { default: continue }; 0 := 1 }: the continue leaves the switch; statement, round, switch, continue, round: 5 steps", 2, 0, \
        block(while_(ask(), block(switch(0, (None, block(continue_("unlabeled")))), one))), [("list", 9, "0 6", "8 1 9 0", gives("ended", 5, "0 6"))]
    yield "7: while (0) { while (0) { break 7 } }: two statements, a round of each, the break: 5 steps", 1, 0, \
        block(while_(load(0), block(while_(load(0), block(break_("labeled", 7)))), label=7)), [
            ("number", 5, "5", "", gives("ended", 5, "5")),
            ("number", 4, "5", "", gives("spent", 4, "5"))]
    yield "7: while (ask) { while (ask) { continue 7 } 0 := 1 }: statement, round, statement, round, continue, round: 6 steps", 2, 0, \
        block(while_(ask(), block(while_(ask(), block(continue_("labeled", 7))), one), label=7)), [
            ("list", 9, "0 6", "8 1 8 1 9 0", gives("ended", 6, "0 6"))]
    yield "7: for (ask; ask; 0 := 1) { while (ask) { continue 7 } }: the outer update runs; statement, round, statement, round, continue, round: 6 steps", 2, 0, \
        block(for_(ask(), ask(), op(4, 0, (0,), (1,)), block(while_(ask(), block(continue_("labeled", 7)))), label=7)), [
            ("list", 9, "0 6", "3 8 1 8 1 9 0", gives("ended", 6, "6 6"))]
    yield "7: while (ask) { 7: { continue 7 } 0 := 1 }: a continue passes over what is no loop; statement, round, label, continue, round: 5 steps", 2, 0, \
        block(while_(ask(), block(labeled(block(continue_("labeled", 7)), label=7), one), label=7)), [("list", 9, "0 6", "8 1 9 0", gives("ended", 5, "0 6"))]
    yield "7: while (ask) { 7: { break 7 } 0 := 1 }: a break means the innermost; statement, round, label, break, instruction, round: 6 steps", 2, 0, \
        block(while_(ask(), block(labeled(block(break_("labeled", 7)), label=7), one), label=7)), [("list", 9, "0 6", "8 1 9 0", gives("ended", 6, "6 6"))]
    yield "7: { 7 (implicit): { break 7 } 0 := 1 } 2 := 1: an implicit label is no target; label, label, break, instruction: 4 steps", 3, 0, \
        block(labeled(block(labeled(block(break_("labeled", 7)), label=7, implicit=1), one), label=7), put(2, load(1))), [
            ("number", 9, "0 6 0", "", gives("ended", 4, "0 6 6"))]
    yield "7: { 7: break 7; 0 := 1 }: a jump's own label is no target of it; label, break: 2 steps", 2, 0, \
        block(labeled(block(break_("labeled", 7, label=7), one), label=7)), [("number", 9, "0 6", "", gives("ended", 2, "0 6"))]
    yield "7: if (1) { scope { break 7 } 0 := 1 }: if, scope, break: 3 steps", 2, 1, \
        block(if_(1, block(scope(0, block(break_("labeled", 7))), one), label=7)), [("number", 9, "0 6", "", gives("ended", 3, "0 6"))]
    yield "7: try { 0 := 1; throw 1 } catch { break 7; 0 := 2 }: both blocks are inside; try, instruction, throw, break: 4 steps", 3, 0, \
        block(try_(block(one, throw(1)), None, block(break_("labeled", 7), put(0, load(2))), label=7)), [("number", 9, "0 6 9", "", gives("ended", 4, "6 6 9"))]
    yield "7: switch (0) { default: while (1) { break 7 } 0 := 1 }: switch, while, round, break: 4 steps", 2, 0, \
        block(switch(0, (None, block(while_(load(1), block(break_("labeled", 7))), one)), label=7)), [("number", 9, "0 6", "", gives("ended", 4, "0 6"))]
    yield "7: do { while (1) { continue 7 } } while (ask): statement, round, statement, round, continue (8, no): 5 steps", 2, 0, \
        block(do_while(block(while_(load(1), block(continue_("labeled", 7)))), ask(), label=7)), [("list", 9, "0 6", "1 8 0", gives("ended", 5, "0 6"))]
    yield "an unlabeled jump's number is not compared: while (1) { break (unlabeled, 9) }, 3 steps", 2, 0, \
        block(while_(load(1), block(break_("unlabeled", 9)), label=7)), [("number", 9, "0 6", "", gives("ended", 3, "0 6"))]
    yield "kinds that do not ask: 0 LoadLocal, 1 LoadContext, 2 DeclareLocal, 3 DeclareContext, 4 StoreLocal, 5 StoreContext, one step each", 8, 0, \
        block(put(0, op(0, 7, (), (7,))), put(1, op(1, 7, (), (7,))), put(2, op(2, 7, (3,), ())), put(3, op(3, 7, (2,), ())),
              put(4, op(4, 7, (5,), (7,))), put(5, op(5, 7, (6,), (4, 0)))), [
                  ("list", 6, "1 1 1 1 1 1 1 9", "", gives("ended", 6, "9 9 0 0 9 9 9 9")),
                  ("list", 5, "1 1 1 1 1 1 1 9", "", gives("spent", 5, "9 9 0 0 9 9 1 9"))]
    yield "4 := Destructure of 0 into 1, 2, 3: asked at positions 0 to 3, the lvalue gets the first answer; 1 step", 5, 0, \
        block(put(4, op(6, 0, (1, 2, 3), (0,)))), [
            ("list", 1, "5 0 0 0 0", "10 11 12 13", gives("ended", 1, "5 11 12 13 10")),
            ("list", 1, "5 0 0 0 0", "10 11 12", gives("thrown 0", 1, "5 11 12 0 0")),
            ("list", 1, "5 0 0 0 0", "", gives("thrown 0", 1, "5 0 0 0 0")),
            ("number", 1, "5 0 0 0 0", "", gives("ended", 1, "5 5 5 5 5"))]
    yield "1 := Destructure of 0 into 0, 1: the operand is read once, the lvalue is stored last; 1 step", 2, 0, \
        block(put(1, op(6, 2, (0, 1), (0,)))), [
            ("number", 1, "5 0", "", gives("ended", 1, "7 7")),
            ("list", 1, "5 0", "10 11 12", gives("ended", 1, "11 10"))]
    yield "1 := ++0, 1 := 0++ (37, 38): the answer at position 1 is stored; 2 steps", 2, 0, \
        block(put(1, op(37, 1, (0,), (0,))), put(1, op(38, 1, (0,), (0,)))), [
            ("number", 2, "5 0", "", gives("ended", 2, "7 7")),
            ("list", 2, "5 0", "1 2 3 4", gives("ended", 2, "4 3")),
            ("list", 2, "5 0", "1 2 3", gives("thrown 0", 2, "2 1"))]
    yield "the four fixed questions take no answer: 0 := Symbol; 1 := 0.for; 2 := text; 3 := 0.1(2): 4 steps", 4, 0, \
        block(put(0, op(28, 1)), put(1, op(23, 2, (), (0,))), put(2, op(7, 3)), put(3, op(12, 0, (), (0, 1, 2)))), [
            ("list", 9, "0 0 0 0", "8", gives("ended", 4, "2 3 4 1", 1)),
            ("number", 9, "0 0 0 0", "", gives("ended", 4, "2 3 4 1"))]
    yield "near the fixed questions: another payload, another value, one value more; 4 steps", 4, 0, \
        block(put(0, op(28, 2)), put(1, op(23, 2, (), (1,))), put(2, op(7, 3, (), (1,))), put(3, op(12, 0, (), (1, 1, 1)))), [
            ("list", 9, "0 9 0 0", "5 6 7 8", gives("ended", 4, "5 6 7 8")),
            ("number", 9, "0 9 0 0", "", gives("ended", 4, "2 11 14 33"))]
    yield "0 := ask(4294967295; 1) on the number host: wrapped to 32 bits", 2, 0, block(put(0, ask(4294967295, 1, 1))), [
        ("number", 1, "0 3", "", gives("ended", 1, "5 3"))]
    for operator, name in enumerate(("or", "and", "coalesce")):
        left = 2 ** 32 - 1 - operator
        yield f"0 := 1 {name} 2: the number host adds {1 + operator}; yes gives the right value, no (at {left}) the left; 1 step", 3, 0, \
            block(put(0, logical(operator, load(1), load(2)))), [
                ("number", 1, "0 6 7", "", gives("ended", 1, "7 6 7")),
                ("number", 1, f"0 {left} 7", "", gives("ended", 1, f"{left} {left} 7")),
                ("list", 1, "0 6 7", "0", gives("ended", 1, "6 6 7")),
                ("list", 1, "0 6 7", "", gives("thrown 0", 1, "0 6 7"))]
    yield "0 := ask or ask: the right value is asked for only after a yes; 1 step", 1, 0, block(put(0, logical(0, ask(), ask()))), [
        ("list", 1, "9", "5 0 7", gives("ended", 1, "5", 1)),
        ("list", 1, "9", "5 1 7", gives("ended", 1, "7")),
        ("list", 1, "9", "5 1", gives("thrown 0", 1, "9"))]
    yield "0 := 1 ? 2 : 3: 1 step", 4, 0, block(put(0, conditional(load(1), load(2), load(3)))), [
        ("number", 1, "0 1 6 7", "", gives("ended", 1, "6 1 6 7")),
        ("number", 1, "0 0 6 7", "", gives("ended", 1, "7 0 6 7")),
        ("list", 1, "0 0 6 7", "", gives("thrown 0", 1, "0 0 6 7"))]
    yield "0 := (1 := ask, 2 := 1, 2): the instruction and the two inside, 3 steps", 3, 0, \
        block(put(0, sequence([instruction(1, ask()), instruction(2, load(1))], load(2)))), [
            ("list", 3, "0 0 0", "5", gives("ended", 3, "5 5 5")),
            ("list", 2, "0 0 0", "5", gives("spent", 2, "0 5 0")),
            ("list", 9, "0 0 0", "", gives("thrown 0", 2, "0 0 0"))]
    yield "0 := (, 1)?: an empty sequence in an optional value; 1 step", 2, 0, block(put(0, chained(sequence([], load(1))))), [
        ("number", 1, "0 6", "", gives("ended", 1, "6 6"))]
    yield "while ((0 := ask, 0)) { }: an instruction in the test is a step of each round; statement, round, 0 := 8 (yes), round, 0 := 9 (no): 5 steps", 1, 0, \
        block(while_(sequence([instruction(0, ask())], load(0)), block())), [
            ("list", 5, "0", "8 1 9 0", gives("ended", 5, "9")),
            ("list", 4, "0", "8 1 9 0", gives("spent", 4, "8", 2)),
            ("list", 3, "0", "8 1 9 0", gives("spent", 3, "8", 2))]
    yield "if (0) { 1 := ask } else { return 0 } in a scope in a label, a list for each way: label, scope, if, and one more: 4 steps", 2, 1, \
        block(labeled(block(scope(0, block(if_(0, block(put(1, ask())), block(return_(0))))))), throw(1)), [
            ("list", 9, "5 0", "1 6", gives("thrown 6", 5, "5 6")),
            ("list", 9, "5 0", "0 6", gives("returned 5", 4, "5 0", 1)),
            ("list", 4, "5 0", "1 6", gives("spent", 4, "5 6"))]
    deep = block(return_(0))
    for _ in range(63):
        deep = block(labeled(deep))
    yield "a return in 63 labels: 64 steps", 1, 0, deep, [
        ("number", 64, "5", "", gives("returned 5", 64, "5")),
        ("number", 63, "5", "", gives("spent", 63, "5"))]
    deep = block(continue_("labeled", 7))
    for _ in range(61):
        deep = block(while_(load(0), deep))
    yield "7: while (ask) { 61 loops around continue 7 }: 62 statements and rounds, the continue, a round: 126 steps", 1, 0, \
        block(while_(ask(), deep, label=7)), [("list", 200, "5", "8 1 " + "1 " * 61 + "8 0", gives("ended", 126, "5"))]
    value = load(0)
    for _ in range(63):
        value = chained(value)
    yield "1 := a value of depth 64: 1 step", 2, 0, block(put(1, value)), [("number", 1, "5 0", "", gives("ended", 1, "5 5"))]


# ---- at random


class Dense:
    """A small function with many kinds of statements and values; every jump has its target."""

    def __init__(self, rng):
        self.rng = rng
        self.identifiers = rng.choice((1, 2, 3, 4))
        self.left = rng.randint(2, 13)
        self.scopes = 0
        self.deepest = rng.choice((3, 4, 5, 6))

    def place(self):
        return self.rng.randrange(self.identifiers)

    def places(self, n):
        return [self.place() for _ in range(n)]

    def optional_place(self, chance=0.5):
        return self.place() if self.rng.random() < chance else None

    def operation(self):
        kind = self.rng.choice((0, 1, 2, 3, 4, 5, 6, 37, 38, 7, 9, 12, 23, 28, self.rng.randrange(42)))
        payload = self.rng.choice((0, 1, 2, 3, 4, 4294967295)) if kind != 4 else self.rng.randrange(8)
        written = 1 if kind in (2, 3, 4, 5, 37, 38) else self.rng.randrange(4) if kind == 6 else 0
        operands = 1 if kind in (0, 1, 4, 37, 38) else 2 if kind == 5 else 0 if kind in (2, 3) else self.rng.randrange(4)
        return op(kind, payload, self.places(written), self.places(operands))

    def value(self, depth=1):
        case = self.rng.randint(1, 4) if depth < 4 and self.rng.random() < 0.4 else 0
        if case == 0:
            return self.operation()
        if case == 1:
            return logical(self.rng.randrange(3), self.value(depth + 1), self.value(depth + 1))
        if case == 2:
            return conditional(self.value(depth + 1), self.value(depth + 1), self.value(depth + 1))
        if case == 3:
            return sequence([instruction(self.optional_place(), self.value(depth + 1)) for _ in range(self.rng.randrange(3))], self.value(depth + 1))
        return chained(self.value(depth + 1))

    def block(self, depth, around, more=0.6):
        statements = []
        while self.left > 0 and self.rng.random() < more:
            statements.append(self.statement(depth, around))
        return block(*statements)

    def optional_block(self, depth, around):
        return self.block(depth, around) if self.rng.random() < 0.75 else None

    def statement(self, depth, around):
        self.left -= 1
        case = self.rng.random()
        if case < 0.25:
            return put(self.optional_place(), self.value())
        if case < 0.35 and depth < self.deepest:
            self.scopes += 1
            return scope(self.scopes - 1, self.block(depth + 1, around))
        if case < 0.4 and depth < self.deepest and self.scopes:
            return pruned(self.rng.randrange(self.scopes), self.block(depth + 1, around))
        return self.terminal(depth, around)

    def jump(self, case, around, label):
        targets = [("implicit", self.rng.randrange(3))]
        for at, (kind, given) in enumerate(around):
            if given is not None and not given[1] and (case == 0 or kind in LOOPS):
                targets += [("labeled", given[0])] * 2
            if kind in LOOPS or case == 0 and kind == 4:
                targets += [("unlabeled", self.rng.randrange(3))]
        return jump(case, *self.rng.choice(targets), **label)

    def terminal(self, depth, around):
        kinds = (0, 0, 1, 1, 2, 3) if depth >= self.deepest else (0, 1, 0, 1, 2, 3, 4, 4, 5, 6, 7, 7, 8, 9, 10, 11, 12, 12)
        kind = self.rng.choice(kinds)
        given = (self.rng.randrange(3), int(self.rng.random() < 0.15)) if self.rng.random() < 0.5 else None
        label = {} if given is None else {"label": given[0], "implicit": given[1]}
        inside = around + [(kind, given)]
        inner = lambda: self.block(depth + 1, inside)
        if kind in (0, 1):
            return self.jump(kind, around, label)
        if kind in (2, 3):
            return (return_, throw)[kind - 2](self.place(), **label)
        if kind == 4:
            return switch(self.place(), *[(self.optional_place(0.65), self.optional_block(depth + 1, inside)) for _ in range(self.rng.randrange(5))], **label)
        if kind == 5:
            return do_while(inner(), self.value(), **label)
        if kind == 6:
            return while_(self.value(), inner(), **label)
        if kind == 7:
            return for_(self.value(), self.value(), self.value() if self.rng.random() < 0.7 else None, inner(), **label)
        if kind == 8:
            return for_of(self.value(), self.value(), inner(), **label)
        if kind == 9:
            return for_in(self.value(), inner(), **label)
        if kind == 10:
            return if_(self.place(), inner(), self.optional_block(depth + 1, inside), **label)
        if kind == 11:
            return labeled(inner(), **label)
        return try_(inner(), self.optional_place(), inner(), **label)

    def words(self):
        body = self.block(1, [], 0.85)
        return file(self.identifiers, self.scopes, body)


def result(tree, host, budget, store, answers):
    said = Run(tree, store, budget, None if host == "number" else answers).result()
    said[4] = "store " + " ".join(map(str, store_of(said[4])))
    return "; ".join(said)


def store_of(line):
    return [int(v) for v in line.split()[1:]]


def at_random(rng, count):
    for _ in range(count):
        words = Dense(rng).words()
        tree = Tree(words)
        cases = []
        for host in ("number", "list"):
            store = [rng.choice((0, 1, 2, 3, rng.randrange(2 ** 32))) for _ in range(tree.ids + rng.choice((0, 0, 1)))]
            answers = [] if host == "number" else [rng.choice((0, 0, 1, 1, 2, 7, rng.randrange(2 ** 32))) for _ in range(rng.choice((0, 3, 9, 20)))]
            steps = int(Run(tree, store, 300, None if host == "number" else answers).result()[1].split()[1])
            for budget in sorted({0, max(0, steps - 1), steps, 300})[-3:]:
                cases.append((host, budget, store, answers, result(tree, host, budget, store, answers)))
        yield words, cases


def line(host, budget, store, answers, said):
    return f"{host} {budget} | {store} | {answers} | {said}"


def main():
    for title, identifiers, scopes, body, cases in by_hand():
        words = file(identifiers, scopes, body)
        tree = Tree(words)
        print("#", title)
        print("function", *words)
        for host, budget, store, answers, said in cases:
            numbers, given = [int(v) for v in store.split()], [int(v) for v in answers.split()]
            if len(numbers) >= identifiers and budget <= LARGEST:
                assert result(tree, host, budget, numbers, given) == said, (title, host, budget, result(tree, host, budget, numbers, given), said)
            print(line(host, budget, store, answers.strip(), said))
    print("# at random")
    for words, cases in at_random(random.Random(1), 150):
        print("function", *words)
        for host, budget, store, answers, said in cases:
            print(line(host, budget, " ".join(map(str, store)), " ".join(map(str, answers)), said))


if __name__ == "__main__":
    main()
