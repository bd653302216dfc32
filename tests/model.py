#!/usr/bin/env python3
"""A second reader of function files, written from docs/FORMAT.md alone, to compare the load with.

    model.py < FILES          one file per line in decimal words; prints `ok` or `NUMBER LAYER PLACE` per line
    model.py --damage N SEED < FILES   makes N damaged copies of the files and prints `words | verdict`
"""
import random
import sys

LIMITS = dict(statements=2048, values=4096, places=4096, identifiers=2048, scopes=256, declarations=1024, cases=1024)
LOOPS = (5, 6, 7, 8, 9)


class Refused(Exception):
    def __init__(self, number, place):
        self.number, self.place = number, place
        self.layer = "file" if number <= 4 else "check"


class Reader:
    def __init__(self, words):
        self.words, self.at, self.end = words, 0, 0
        self.used = dict.fromkeys(LIMITS, 0)

    def word(self):
        if self.at == self.end:
            raise Refused(3, self.at)
        self.at += 1
        return self.words[self.at - 1]

    def below(self, n):
        at = self.at
        w = self.word()
        if w >= n:
            raise Refused(3, at)
        return w

    def order(self):
        at = self.at
        w = self.word()
        if w > 1000000:
            raise Refused(4, at)
        return w

    def begin(self, what):
        if self.used[what] == LIMITS[what]:
            raise Refused(4, self.at)
        self.used[what] += 1

    def place(self):
        self.begin("places")
        return (self.word(), self.below(8), self.below(2), self.word())[0]

    def option(self, read):
        return read() if self.below(2) else None

    def places(self):
        return [self.place() for _ in range(self.word())]

    # A value is its own operations and the statements inside it.
    def value(self, depth):
        if depth > 64:
            raise Refused(4, self.at)
        self.begin("values")
        case = self.below(5)
        if case == 0:
            kind = self.below(42)
            if kind == 4:
                self.below(8)
            else:
                self.word()
            written, operands = self.places(), self.places()
            self.word()
            return [(kind, written, operands)], []
        if case == 1:
            self.below(3)
            return joined(self.value(depth + 1), self.value(depth + 1))
        if case == 2:
            return joined(self.value(depth + 1), self.value(depth + 1), self.value(depth + 1))
        if case == 3:
            lines = []
            for _ in range(self.word()):
                self.begin("statements")
                lines += self.instruction(depth + 1)
            self.order()
            ops, inside = self.value(depth + 1)
            return ops, lines + inside
        ops, inside = self.value(depth + 1)
        self.below(2)
        return ops, inside

    def instruction(self, depth):
        self.order()
        lvalue = self.option(self.place)
        ops, inside = self.value(depth)
        self.word()
        return [dict(places=[] if lvalue is None else [lvalue], ops=ops)] + inside

    def block(self, depth):
        if depth > 64:
            raise Refused(4, self.at)
        lines = []
        for _ in range(self.word()):
            self.begin("statements")
            lines.append(self.statement(depth))
        return lines

    # A statement is (its own line, what is inside): lists of lines, or blocks with what is around them.
    def statement(self, depth):
        case = self.below(4)
        if case == 0:
            lines = self.instruction(1)
            return lines[0], [("lines", lines[1:])], None
        if case == 1:
            return self.terminal(depth)
        scope = self.word()
        own = dict(scopes=[scope])
        if case == 2:
            own["owns"] = scope
        return own, [("block", self.block(depth + 1))], None

    def terminal(self, depth):
        case = self.below(13)
        own, inside = {}, []
        ops = []

        def value():
            o, lines = self.value(1)
            ops.extend(o)
            inside.append(("lines", lines))

        def block():
            inside.append(("block", self.block(depth + 1)))

        if case in (0, 1):
            own["labels"] = [self.word()]
            self.order()
            own["jump"] = (case, own["labels"][0], self.below(3))
        elif case in (2, 3):
            own["places"] = [self.place()]
            self.order()
        elif case == 4:
            own["places"] = [self.place()]
            for _ in range(self.word()):
                self.begin("cases")
                test = self.option(self.place)
                own["places"] += [] if test is None else [test]
                self.option(block)
            self.order()
        elif case == 5:
            block(); value(); self.order()
        elif case == 6:
            value(); block(); self.order()
        elif case == 7:
            value(); value(); self.option(value); block(); self.order()
        elif case == 8:
            value(); value(); block(); self.order(); self.word()
        elif case == 9:
            value(); block(); self.order(); self.word()
        elif case == 10:
            own["places"] = [self.place()]
            block(); self.option(block); self.order()
        elif case == 11:
            block(); self.order()
        else:
            block()
            binding = self.option(self.place)
            own["places"] = [] if binding is None else [binding]
            block(); self.order()
        own["ops"] = ops
        label = self.option(lambda: (self.word(), self.below(2)))
        if label:
            own.setdefault("labels", []).append(label[0])
        around = None if case < 4 else (case, label[0] if label and not label[1] else None)
        return own, inside, around


def joined(*values):
    return sum((v[0] for v in values), []), sum((v[1] for v in values), [])


def flat(block, around):
    for own, inside, here in block:
        yield own, around
        for kind, part in inside:
            if kind == "lines":
                for line in part:
                    yield line, around
            else:
                yield from flat(part, around + ([here] if here else []))


def aims(jump, around):
    case, target, kind = jump
    if kind == 0:
        return True
    if kind == 1:
        return any(label == target and (case == 0 or c in LOOPS) for c, label in around)
    return any(c in LOOPS or (case == 0 and c == 4) for c, _ in around)


def shape(kind, written, operands):
    w, o = len(written), len(operands)
    if kind in (2, 3, 4, 5, 37, 38):
        ok = w == 1
    else:
        ok = kind == 6 or w == 0
    want = {0: 1, 1: 1, 4: 1, 37: 1, 38: 1, 5: 2, 2: 0, 3: 0}.get(kind)
    return ok and (want is None or o == want)


def load(words, size=None):
    size = len(words) * 4 if size is None else size
    if size % 4 or not 48 <= size <= 65536:
        raise Refused(1, 0)
    ends, begin = [], 8
    for pair in range(4):
        if words[2 * pair] != begin:
            raise Refused(2, 2 * pair)
        end = begin + words[2 * pair + 1]
        if end > len(words) or (pair == 3 and end != len(words)):
            raise Refused(2, 2 * pair + 1)
        ends.append(end)
        begin = end
    r = Reader(words)
    r.at, r.end = 8, ends[0]
    counters = [r.order() for _ in range(3)]
    if r.at != r.end:
        raise Refused(3, r.at)
    r.end = ends[1]
    identifiers = []
    while r.at != r.end:
        r.begin("identifiers")
        declaration = r.word()
        r.option(lambda: (r.below(2), r.word()))
        rng = r.word()
        scope = r.option(r.word)
        identifiers.append((declaration, rng, scope, r.word(), r.word()))
    r.end = ends[2]
    scopes = []
    while r.at != r.end:
        r.begin("scopes")
        early = r.option(lambda: (r.word(), r.word(), r.word()))
        declarations = []
        for _ in range(r.word()):
            r.begin("declarations")
            declarations.append((r.word(), r.word(), r.word()))
        scopes.append((early, declarations))
    r.end = ends[3]
    body = r.block(1)
    if r.at != r.end:
        raise Refused(3, r.at)

    ids, blocks = len(identifiers), counters[0]
    good = all(d < ids and g < counters[2] and (s is None or s < len(scopes)) and t < counters[1]
               for d, g, s, t, _ in identifiers)
    good = good and all((e is None or (e[0] < ids and e[2] < blocks))
                        and all(k < ids and i < ids and s < len(scopes) for k, i, s in ds) for e, ds in scopes)
    if not good:
        raise Refused(5, 0)
    lines = list(flat(body, []))
    for n, (own, _) in enumerate(lines):
        places = own.get("places", []) + [p for _, w, o in own.get("ops", []) for p in w + o]
        if not (all(p < ids for p in places) and all(b < blocks for b in own.get("labels", []))
                and all(s < len(scopes) for s in own.get("scopes", []))):
            raise Refused(5, n)
    for n, (own, _) in enumerate(lines):
        if not all(shape(*op) for op in own.get("ops", [])):
            raise Refused(6, n)
    for n, (own, around) in enumerate(lines):
        if "jump" in own and not aims(own["jump"], around):
            raise Refused(7, n)
    if any(e for e, _ in scopes):
        raise Refused(8, 0)
    seen = set()
    for n, (own, _) in enumerate(lines):
        if "owns" in own:
            if own["owns"] in seen:
                raise Refused(8, n)
            seen.add(own["owns"])
    return r.used


def verdict(words):
    try:
        load(words)
        return "ok"
    except Refused as refused:
        return f"{refused.number} {refused.layer} {refused.place}"


def damaged(words, rng):
    words = list(words)
    for _ in range(rng.choice((1, 1, 1, 2))):
        how = rng.randrange(6)
        at = rng.randrange(8 if rng.random() < 0.85 and len(words) > 8 else 0, len(words))
        if how < 3:
            words[at] = rng.choice((0, 1, 2, 3, 4, 5, 7, 8, 13, 42, words[at] + 1, max(0, words[at] - 1), 1000001,
                                    rng.randrange(60), 2 ** 32 - 1)) % 2 ** 32
        elif how == 3:
            words[at], words[at - 1] = words[at - 1], words[at]
        elif how == 4:
            del words[at]
            if rng.random() < 0.7:
                words[7] = max(0, words[7] - 1)
        else:
            words.insert(at, rng.choice((0, 1, 2, rng.randrange(100))))
            if rng.random() < 0.7:
                words[7] = (words[7] + 1) % 2 ** 32
        if len(words) < 12:
            break
    return words


def main():
    files = [[int(w) for w in line.split("|")[0].split()] for line in sys.stdin if line.strip()]
    if len(sys.argv) > 1 and sys.argv[1] == "--damage":
        rng = random.Random(int(sys.argv[3]))
        for _ in range(int(sys.argv[2])):
            words = damaged(rng.choice(files), rng)
            print(*words, "|", verdict(words))
    else:
        for words in files:
            print(verdict(words))


if __name__ == "__main__":
    main()
