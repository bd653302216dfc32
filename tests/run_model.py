#!/usr/bin/env python3
"""A second interpreter of function files, written from docs/RUN.md and docs/FORMAT.md, to compare the run with.

    run_model.py SEED COUNT < FILES     takes files (decimal words, one per line) with random stores, answers and budgets and
                                        prints `words | number or list | budget | store | answers | result` per line
The result is outcome (and value), steps, entries, record, store and how many answers are left.
"""
import random
import sys

MASK = 2 ** 32 - 1
LOOPS = ("DoWhile", "While", "For", "ForOf", "ForIn")


class Tree:
    """The words of a good file as nested tuples."""

    def __init__(self, words):
        self.w = words
        self.at = words[2]
        ids = 0
        end = words[2] + words[3]
        while self.at < end:
            self.word(); self.option(lambda: (self.word(), self.word())); self.word(); self.option(self.word); self.word(); self.word()
            ids += 1
        self.ids = ids
        self.records = []
        end = words[4] + words[5]
        while self.at < end:
            early = self.option(lambda: (self.word(), self.word(), self.word()))
            for _ in range(self.word()):
                self.word(); self.word(); self.word()
            self.records.append(early[0] if early else None)
        self.body = self.block()

    def word(self):
        self.at += 1
        return self.w[self.at - 1]

    def option(self, read):
        return read() if self.word() else None

    def place(self):
        i = self.word()
        self.at += 3
        return i

    def places(self):
        return [self.place() for _ in range(self.word())]

    def value(self):
        case = self.word()
        if case == 0:
            kind, payload = self.word(), self.word()
            written, operands = self.places(), self.places()
            self.word()
            return ("op", kind, payload, written, operands)
        if case == 1:
            return ("logical", self.word(), self.value(), self.value())
        if case == 2:
            return ("conditional", self.value(), self.value(), self.value())
        if case == 3:
            instructions = [self.instruction() for _ in range(self.word())]
            self.word()
            return ("sequence", instructions, self.value())
        v = self.value()
        self.word()
        return v

    def instruction(self):
        self.word()
        lvalue = self.option(self.place)
        v = self.value()
        self.word()
        return (lvalue, v)

    def block(self):
        return [self.statement() for _ in range(self.word())]

    def statement(self):
        case = self.word()
        if case == 0:
            return ("Instruction", self.instruction())
        if case == 2:
            return ("Scope", self.word(), self.block())
        if case == 3:
            return ("PrunedScope", self.word(), self.block())
        t = self.terminal()
        label = self.option(lambda: (self.word(), self.word()))
        return ("Terminal", t, label[0] if label and not label[1] else None)

    def terminal(self):
        case = self.word()
        if case in (0, 1):
            target = self.word()
            self.word()
            return (("Break", "Continue")[case], target, self.word())
        if case in (2, 3):
            p = self.place()
            self.word()
            return (("Return", "Throw")[case - 2], p)
        if case == 4:
            p = self.place()
            cases = [(self.option(self.place), self.option(self.block)) for _ in range(self.word())]
            self.word()
            return ("Switch", p, cases)
        if case == 5:
            b = self.block()
            v = self.value()
            self.word()
            return ("DoWhile", b, v)
        if case == 6:
            v = self.value()
            b = self.block()
            self.word()
            return ("While", v, b)
        if case == 7:
            init, test = self.value(), self.value()
            update = self.option(self.value)
            b = self.block()
            self.word()
            return ("For", init, test, update, b)
        if case == 8:
            init, test = self.value(), self.value()
            b = self.block()
            self.word(); self.word()
            return ("ForOf", init, test, b)
        if case == 9:
            v = self.value()
            b = self.block()
            self.word(); self.word()
            return ("ForIn", v, b)
        if case == 10:
            p = self.place()
            b = self.block()
            c = self.option(self.block)
            self.word()
            return ("If", p, b, c)
        if case == 11:
            b = self.block()
            self.word()
            return ("Label", b)
        b = self.block()
        p = self.option(self.place)
        c = self.block()
        self.word()
        return ("Try", b, p, c)


class Spent(Exception):
    pass


class Thrown(Exception):
    def __init__(self, value):
        self.value = value


class Returned(Exception):
    def __init__(self, value):
        self.value = value


class Jump(Exception):
    """A Break or Continue on its way to one statement around it."""

    def __init__(self, breaks, to):
        self.breaks, self.to = breaks, to


FIXED = {(28, 1, ()): 2, (23, 2, (2,)): 3, (7, 3, ()): 4, (12, 0, (2, 3, 4)): 1}


class Run:
    def __init__(self, tree, store, budget, answers):
        self.tree, self.store, self.budget, self.answers = tree, list(store), budget, answers
        self.next = self.steps = self.entries = 0
        self.record = False
        self.around = []

    def ask(self, kind, payload, position, values):
        fixed = FIXED.get((kind, payload, tuple(values))) if position == 0 else None
        if fixed is not None:
            return fixed
        if self.answers is None:
            return (payload + sum(values)) & MASK
        if self.next == len(self.answers):
            raise Thrown(0)
        self.next += 1
        return self.answers[self.next - 1]

    def step(self):
        if self.steps == self.budget:
            raise Spent
        self.steps += 1

    def value(self, v):
        if v[0] == "op":
            return self.operation(*v[1:])
        if v[0] == "logical":
            left = self.value(v[2])
            return self.value(v[3]) if self.ask(42, 1 + v[1], 0, [left]) else left
        if v[0] == "conditional":
            return self.value(v[2] if self.test(self.value(v[1])) else v[3])
        for instruction in v[1]:
            self.instruction(instruction)
        return self.value(v[2])

    def test(self, value):
        return self.ask(42, 0, 0, [value]) != 0

    def operation(self, kind, payload, written, operands):
        values = [self.store[p] for p in operands]
        if kind in (0, 1):
            return values[-1]
        if kind in (2, 3):
            for p in written:
                self.store[p] = 0
            return 0
        if kind in (4, 5):
            for p in written:
                self.store[p] = values[-1]
            return values[-1]
        answer = self.ask(kind, payload, 0, values)
        if kind in (6, 37, 38):
            for n, p in enumerate(written):
                self.store[p] = self.ask(kind, payload, n + 1, values)
        return answer

    def instruction(self, instruction):
        self.step()
        value = self.value(instruction[1])
        if instruction[0] is not None:
            self.store[instruction[0]] = value

    def block(self, block):
        for statement in block or ():
            self.statement(statement)

    def statement(self, s):
        if s[0] == "Instruction":
            return self.instruction(s[1])
        self.step()
        if s[0] == "PrunedScope":
            return self.block(s[2])
        if s[0] == "Scope":
            recorded = self.tree.records[s[1]]
            self.entries += recorded is not None
            self.block(s[2])
            if recorded is not None and self.store[recorded] != 1:
                self.record = True
                raise Returned(self.store[recorded])
            return None
        here = (s[1][0], s[2], object())
        self.around.append(here)
        depth = len(self.around)
        try:
            self.terminal(s[1], here)
        except Jump as jump:
            if not (jump.breaks and jump.to is here):
                raise
        finally:
            del self.around[depth - 1:]

    def jump(self, breaks, target, kind):
        if kind == 0:
            return
        for here in reversed(self.around[:-1]):
            loop = here[0] in LOOPS
            if kind == 1 and here[1] == target and (breaks or loop) or kind == 2 and (loop or breaks and here[0] == "Switch"):
                raise Jump(breaks, here)

    def round(self, body, here):
        try:
            self.block(body)
        except Jump as jump:
            if jump.breaks or jump.to is not here:
                raise

    def terminal(self, t, here):
        case = t[0]
        if case in ("Break", "Continue"):
            self.jump(case == "Break", t[1], t[2])
        elif case == "Return":
            raise Returned(self.store[t[1]])
        elif case == "Throw":
            raise Thrown(self.store[t[1]])
        elif case == "If":
            self.block(t[2] if self.test(self.store[t[1]]) else t[3])
        elif case == "Label":
            self.block(t[1])
        elif case == "Try":
            depth = len(self.around)
            try:
                self.block(t[1])
            except Thrown as thrown:
                del self.around[depth:]
                if t[2] is not None:
                    self.store[t[2]] = thrown.value
                self.block(t[3])
        elif case == "Switch":
            value = self.store[t[1]]
            chosen = None
            for n, (test, _) in enumerate(t[2]):
                if test is not None and self.ask(43, 0, 0, [value, self.store[test]]):
                    chosen = n
                    break
            if chosen is None:
                chosen = next((n for n, (test, _) in enumerate(t[2]) if test is None), len(t[2]))
            for _, block in t[2][chosen:]:
                self.block(block)
        elif case == "DoWhile":
            while True:
                self.step()
                self.round(t[1], here)
                if not self.test(self.value(t[2])):
                    break
        else:
            init, test, update, body = {"While": (None, t[1], None, t[-1]), "ForIn": (None, t[1], None, t[-1]),
                                        "ForOf": (t[1], t[2], None, t[-1])}.get(case) or (t[1], t[2], t[3], t[-1])
            if init is not None:
                self.value(init)
            while True:
                self.step()
                if not self.test(self.value(test)):
                    break
                self.round(body, here)
                if update is not None:
                    self.value(update)

    def result(self):
        try:
            self.block(self.tree.body)
            outcome = "ended"
        except Spent:
            outcome = "spent"
        except Thrown as thrown:
            outcome = f"thrown {thrown.value}"
        except Returned as returned:
            outcome = f"returned {returned.value}"
        left = 0 if self.answers is None else len(self.answers) - self.next
        return [outcome, f"steps {self.steps}", f"entries {self.entries}", f"record {int(self.record)}",
                " ".join(["store", *map(str, self.store)]), f"unused {left}"]


def main():
    rng = random.Random(int(sys.argv[1]))
    files = [[int(w) for w in line.split("|")[0].split()] for line in sys.stdin if line.strip()]
    for _ in range(int(sys.argv[2])):
        words = rng.choice(files)
        tree = Tree(words)
        store = [rng.choice((0, 1, 2, rng.randrange(9), rng.randrange(MASK))) for _ in range(tree.ids)]
        answers = None if rng.random() < 0.3 else [rng.choice((0, 0, 1, 1, 2, 7, rng.randrange(MASK))) for _ in range(rng.choice((0, 2, 9, 40, 200)))]
        budget = rng.choice((0, 1, 3, 10, 60, 400, 3000))
        if rng.random() < 0.4:
            # One below what is needed, or just that.
            steps = int(Run(tree, store, 3000, answers).result()[1].split()[1])
            budget = max(0, steps - rng.randrange(2))
        result = Run(tree, store, budget, answers).result()
        print(*words, "|", "number" if answers is None else "list", "|", budget, "|", *store, "|", *(answers or []), "|", " / ".join(result))


if __name__ == "__main__":
    main()
