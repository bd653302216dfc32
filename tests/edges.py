#!/usr/bin/env python3
"""Files at the edge of each limit and each range, one per line in decimal words: the last that passes, the first that is
refused. `model.py` says what each must answer."""


def pack(counters, identifiers, scopes, body):
    words, at = [], 8
    for section in (counters, identifiers, scopes, body):
        words += [at, len(section)]
        at += len(section)
    return words + counters + identifiers + scopes + body


ONE = [0, 0, 0, 0, 0, 0]
OP = [0, 39, 0, 0, 0, 0]
IDLE = [1, 0, 0, 0, 0, 0]


def file(body, identifiers=ONE, scopes=(), counters=(1, 1, 1)):
    return pack(list(counters), list(identifiers), list(scopes), list(body))


def instruction(value):
    return [0, 0, 0] + value + [0]


def optional(depth):
    return [4] * (depth - 1) + OP + [0] * (depth - 1)


def labels(depth, inner):
    for _ in range(depth):
        inner = [1, 1, 11] + inner + [0, 0]
    return inner


def store(payload):
    return instruction([0, 4, payload, 1, 0, 0, 0, 0, 1, 0, 0, 0, 0, 0])


def case(effect=0, reactive=0):
    return instruction([0, 39, 0, 0, 1, 0, effect, reactive, 0, 0])


def of_words(total):
    """A file of so many words."""
    fixed = file([0])
    n = total - len(fixed)
    body = []
    count = 0
    while n:
        size = 10 if n >= 20 else n
        # An instruction takes 10 words, and 4 more for each operand; a Break 6, 8 with a label.
        if size == 10:
            body += instruction(OP)
        elif n % 6 == 0:
            body += IDLE
            size = 6
        elif n >= 14 and (n - 14) % 6 == 0:
            body += case()
            size = 14
        elif n >= 8 and (n - 8) % 6 == 0:
            body += [1, 0, 0, 0, 0, 1, 0, 0]
            size = 8
        elif n >= 10 and (n - 10) % 6 == 0:
            body += instruction(OP)
            size = 10
        elif n >= 17:
            body += [1, 11, 0, 0, 0]
            size = 5
        else:
            body += [1, 11, 0, 0, 0] if n == 5 else [1, 11, 1] + IDLE + [0, 0]
            size = 5 if n == 5 else 11
        count += 1
        n -= size
    return file([count] + body)


def edges():
    yield file([0], identifiers=[])
    yield file([0], identifiers=[])[:11]
    for total in (16384, 16385):
        words = of_words(total)
        assert len(words) == total, len(words)
        yield words
    for n in (2048, 2049):
        yield file([n] + IDLE * n)
        yield file([0], identifiers=ONE * n)
    for n in (64, 65):
        yield file([1] + instruction(optional(n)))
        yield file(labels(n - 1, [0]))
        yield file([1] + instruction([3, 1] * 0 + optional(n)))
        # The depth of a value inside a sequence's instruction, and of a sequence's own last value.
        yield file([1] + instruction([3, 1] + instruction(optional(n - 1))[1:] + [0] + OP))
        yield file([1] + instruction([3, 0, 0] + optional(n - 1)))
    chain = instruction(optional(64))
    yield file([64] + chain * 64)
    yield file([65] + chain * 64 + instruction(OP))
    for n in (256, 257):
        yield file([0], scopes=[0, 0] * n)
    for n in (1024, 1025):
        yield file([0], scopes=[0, n] + [0, 0, 0] * n)
        yield file([1, 1, 4, 0, 0, 0, 0, n] + [0, 0] * n + [0, 0])
    for n in (1000000, 1000001):
        for k in range(3):
            yield file([0], counters=[n if i == k else 1 for i in range(3)])
        yield file([1, 1, 2, 0, 0, 0, 0, n, 0])
        yield file([1, 0, n, 0] + OP + [0])
        yield file([1] + instruction([3, 0, n] + OP))
    for statement in (IDLE, [2, 0, 0], [3, 0, 0], [4, 0, 0]):
        yield file([1] + statement, scopes=[0, 0])
    for t in ([12, 0, 0, 0, 0], [13, 0, 0, 0, 0]):
        yield file([1, 1] + t + [0])
    for v in ([4] + OP + [0], [4] + OP + [1], [4] + OP + [2], [5] + OP + [0], [1, 2] + OP + OP, [1, 3] + OP + OP,
              [0, 41, 7, 0, 0, 0], [0, 42, 7, 0, 0, 0]):
        yield file([1] + instruction(v))
    for payload in (7, 8):
        yield file([1] + store(payload))
    for effect, reactive in ((7, 1), (8, 1), (7, 2)):
        yield file([1] + case(effect, reactive))
    for kind in (0, 3):
        yield file([1, 1, 0, 0, 0, kind, 0])
    for label in ([0], [1, 0, 0], [1, 0, 1], [1, 0, 2], [2, 0, 0]):
        yield file([1, 1, 11, 0, 0] + label)
    for name in ([0], [1, 0, 7], [1, 1, 7], [1, 2, 7], [2, 0, 7]):
        yield file([0], identifiers=[0] + name + [0, 0, 0, 0])
    for scope in ([0], [1, 0], [2, 0]):
        yield file([0], identifiers=[0, 0, 0] + scope + [0, 0], scopes=[0, 0])
    # Sections that end too early, or that have words left over.
    yield pack([1, 1], [], [], [0])
    yield pack([1, 1, 1, 1], [], [], [0])
    yield pack([1, 1, 1], ONE[:-1], [], [0])
    yield pack([1, 1, 1], ONE, [0], [0])
    yield pack([1, 1, 1], ONE, [0, 1, 0, 0], [0])
    yield pack([1, 1, 1], ONE, [], [])
    yield pack([1, 1, 1], ONE, [], [0, 0])
    yield pack([1, 1, 1], ONE, [], [1])
    # The pairs, word by word.
    good = file([0])
    for at in range(8):
        for change in (-1, 1):
            yield good[:at] + [good[at] + change if good[at] + change >= 0 else 2 ** 32 - 1] + good[at + 1:]
    yield good[:1] + [2 ** 32 - 8] + good[2:]
    # Numbers at the end of their tables and counters, and one past it.
    for n in (0, 1):
        yield file([0], identifiers=[n, 0, 0, 0, 0, 0])
        yield file([0], identifiers=[0, 0, n, 0, 0, 0])
        yield file([0], identifiers=[0, 0, 0, 0, n, 0])
        yield file([0], identifiers=[0, 0, 0, 1, n, 0, 0], scopes=[0, 0])
        yield file([0], scopes=[0, 1, n, 0, 0])
        yield file([0], scopes=[0, 1, 0, n, 0])
        yield file([0], scopes=[0, 1, 0, 0, n])
        yield file([0], scopes=[1, n, 0, 0, 0])
        yield file([0], scopes=[1, 0, 0, n, 0])
        for k in range(4):
            yield file([2] + IDLE + [0, 0, 1, n if k == 0 else 0, 0, 0, 0, 0, 39, 0, 0, 1, n if k == 1 else 0, 0, 0, 0, 0, 0]) if k < 2 else \
                file([1, 0, 0, 0, 0, 6, 0, 1, n if k == 2 else 0, 0, 0, 0, 1, n if k == 3 else 0, 0, 0, 0, 0, 0])
        yield file([1, 1, 2, n, 0, 0, 0, 0, 0])
        yield file([1, 1, 0, n, 0, 0, 0])
        yield file([1, 1, 1, n, 0, 0, 0])
        yield file([1, 1, 11, 0, 0, 1, n, 1])
        yield file([2] + IDLE + [2, n, 0], scopes=[0, 0])
        yield file([2] + IDLE + [3, n, 0], scopes=[0, 0])
        yield file([1, 1, 4, 0, 0, 0, 0, 1, 1, n, 0, 0, 0, 0, 0, 0])
        yield file([1, 1, 12, 0, 1, n, 0, 0, 0, 0, 0, 0])
    # Written places and operands of each kind.
    for kind in (0, 1, 2, 3, 4, 5, 6, 7, 36, 37, 38, 39):
        for written in (0, 1, 2):
            for operands in (0, 1, 2, 3):
                yield file([2] + IDLE + instruction([0, kind, 0, written] + [0, 0, 0, 0] * written + [operands] + [0, 0, 0, 0] * operands + [0]))
    # Targets. A loop, a switch, a label and a try around a jump, of each kind.
    for jump in (0, 1):
        for kind in (1, 2):
            for mark in ([0], [1, 0, 0], [1, 0, 1], [1, 1, 0]):
                inner = [1, 1, jump, 0, 0, kind, 0]
                for terminal in ([6] + OP + inner + [0], [4, 0, 0, 0, 0, 1, 0, 1] + inner + [0], [11] + inner + [0],
                                 [12] + inner + [0, 0, 0], [12, 0, 0] + inner + [0]):
                    yield file([1, 1] + terminal + mark, counters=(2, 1, 1))
    # A jump's own label is no target of it; an inner label of the same number hides nothing of a Continue's loop.
    yield file([1, 1, 0, 0, 0, 1, 1, 0, 0])
    yield file([1, 1, 6] + OP + [1, 1, 11, 1, 1, 1, 0, 0, 1, 0, 0, 1, 0, 0] + [0, 1, 0, 0])
    # Scope blocks: two of one scope, beside and inside, a pruned one beside, a record.
    yield file([2, 2, 0, 0, 2, 0, 0], scopes=[0, 0])
    yield file([1, 2, 0, 1, 2, 0, 0], scopes=[0, 0])
    yield file([2, 2, 0, 0, 3, 0, 0], scopes=[0, 0])
    yield file([3, 2, 0, 0, 2, 1, 0, 2, 0, 0], scopes=[0, 0, 0, 0])
    yield file([0], scopes=[1, 0, 0, 0, 0])


if __name__ == "__main__":
    for words in edges():
        print(*words)
