#!/usr/bin/env python3
"""Brings the repository's own definitions and lemmas to today's spelling: words in snake case, types in camel case.

usage: tools/respell.py      at the top of the repository, once, after port.py

    opt-block, noVal, «place-item»  ->  opt_block, no_val, place_item        Bytes-are-bounded  ->  BytesAreBounded

It renames what an .antt file of the repository declares, in .antt files, in the ghost lines of .rt files and in the texts of
must-fail edits. Names that Rattle makes (goals, steps, what stands below declared types) and the library's stay. It prints
names that fall together, and changes nothing where it finds one.
"""
import glob
import os
import re
import sys

TOKEN = re.compile(r'--[^\n]*|//[^\n]*|"(?:[^"\\]|\\.)*"|«[^»]*»|[^\s(){}.;,@"«»\[\]\\|]+|.|\n')
NAME = re.compile(r"[^\s(){}.;,@\"«»\[\]\\|:]+$")
SIGNATURE = re.compile(r"^\s*(?:(?:abbrev|unfoldable|pub) )*((?:[^\s(){}:=|,.]+ )+): (.*)$")
BLOCK = re.compile(r"^\s*(?:(?:abbrev|pub) )*(record|data|module) ([^\s(){}:=|,.]+)\s")
ALIAS = re.compile(r" as «?([^\s(){}:=|,.»]+)»?")


# Lemmas that would get the name of the definition that they speak of.
LEMMAS = {name: name.replace("-", "_") + "_lem" for name in ("for-in", "no-block", "no-val", "block-first", "test-first", "run-from")}
# The lemma `some_block` of load, beside the constructor `someBlock`.
IN_LOAD = {"some_block": "some_block_lem"}

# port.py names a cycle of functions by all its members: by the words between these two instead.
CYCLES = {
    r"block_cases_optional_statement_terminal": "blocks",
    r"instruction_sequence_value": "values",
    r"put_block_put_cases_\w+": "put_blocks",
    r"put_conditional_put_instr_\w+": "put_values",
    r"read_block_read_case_\w+": "read_blocks",
    r"read_case_read_conditional_\w+": "read_values",
}


def snake(name):
    spaced = re.sub(r"([a-z0-9])([A-Z])", r"\1_\2", name)
    return spaced.replace("-", "_").lower() if spaced.isascii() else re.sub("[A-Z]", lambda m: m.group().lower(), spaced).replace("-", "_")


def camel(name):
    return "".join(part[:1].upper() + part[1:] for part in name.split("-"))


def made(path):
    """Whether the file answers goals, whose names Rattle makes."""
    return re.search(r"/proofs/.+/(Answers|Invariants|Proof)\.antt$", path) is not None


def declared():
    """What each .antt file declares: the words, and the types."""
    words, types = set(), set()
    for path in sorted(glob.glob("crates/*/specs/**/*.antt", recursive=True) + glob.glob("crates/*/proofs/**/*.antt", recursive=True)):
        for line in open(path, encoding="utf-8"):
            block = BLOCK.match(line)
            if block:
                if block[1] != "module":
                    types.add(block[2])
                continue
            signature = SIGNATURE.match(line)
            if not signature or re.search(r"\b(goal|given|need)\.", signature[2]):
                continue
            for name in signature[1].split():
                if name in ("let", "in", "where", "λ"):
                    break
                (types if name[0].isupper() and "Type" in signature[2] else words).add(name)
        for line in open(path, encoding="utf-8"):
            if line.startswith("use Rattle."):
                words.update(n for n in ALIAS.findall(line) if not n[0].isupper())
    return words, types


def mapping():
    words, types = declared()
    new = {}
    for name in types:
        if "-" in name:
            new[name] = camel(name)
    for name in words - types:
        if name[0].isupper() or not re.match(r"[a-z]", name):
            continue
        if "-" in name or re.search("[a-z0-9][A-Z]", name):
            new[name] = LEMMAS.get(name, snake(name))
    return new


def at(path, new):
    return {**new, **IN_LOAD} if path.startswith("crates/load/proofs/") else new


def antt(text, new, answers):
    out, tokens, depth_made, i = [], TOKEN.findall(text), False, 0
    for i, token in enumerate(tokens):
        if token.startswith("--"):
            out.append(re.sub(r"`[^`]*`", lambda m: re.sub(r"[^\s(){}.;,`]+", lambda n: new.get(n[0], n[0]), m[0]), token))
            continue
        if token in new:
            before = tokens[i - 1] if i else ""
            if before == ".":
                root = tokens[i - 2]
                made_root = root in ("goal", "given", "need", "Goals", "Given") or (answers and root in ("c", "w", "g", "l") and tokens[i - 3] != ".")
                if made_root:
                    out.append(token)
                    continue
            if answers and goal_line(tokens, i):
                out.append(token)
                continue
            out.append(new[token])
            continue
        out.append(token)
    return "".join(out)


def goal_line(tokens, i):
    """Whether the token at i names a goal: its signature, or the clause below it, or a name taken from Goals or Given."""
    start = i
    while start and tokens[start - 1] != "\n":
        start -= 1
    end = i
    while end < len(tokens) and tokens[end] != "\n":
        end += 1
    line = "".join(tokens[start:end])
    if re.match(r"use \S*\.(Goals|Given)\.\{", line):
        return True
    name = tokens[i]
    text = "".join(tokens)
    if re.search(r"(?m)^(?:abbrev )?(?:pub )?" + re.escape(name) + r" : (?:goal|given|need)\.", text):
        return re.match(r"(?:abbrev )?(?:pub )?" + re.escape(name) + r"(?= )", line) is not None
    return False


def rattle(text, new):
    """Ghost lines: names with a dash stand in no other code, and words of mixed case neither."""
    def quoted(m):
        name = m[1]
        return new.get(name, snake(name) if re.search("-|[a-z][A-Z]", name) else name)
    lines = []
    for line in text.split("\n"):
        if line.lstrip().startswith("//"):
            lines.append(re.sub(r"`[^`]*`", lambda m: re.sub(r"[^\s(){}.;,`]+", lambda n: new.get(n[0], n[0]), m[0]), line))
            continue
        line = re.sub(r"«([^»]+)»", quoted, line)
        parts = re.split(r'("(?:[^"\\]|\\.)*")', line)
        for k in range(0, len(parts), 2):
            parts[k] = re.sub(r"[^\s(){}.;,@\"\[\]\\|]+", lambda n: new.get(n[0], n[0]), parts[k])
        lines.append("".join(parts))
    return "\n".join(lines)


def fall_together(new):
    """Names of one file that the renaming makes one."""
    said = []
    for path in glob.glob("crates/*/specs/**/*.antt", recursive=True) + glob.glob("crates/*/proofs/**/*.antt", recursive=True):
        text = re.sub(r"(?m)^use [^\s{]*\.(?=[^\s.])", "use ", open(path, encoding="utf-8").read())
        names, here = set(TOKEN.findall(text)), at(path, new)
        for old, now in here.items():
            if old in names and (now in names - set(here) or any(o != old and n == now and o in names for o, n in here.items())):
                said.append(f"{path}: {old} and {now}")
    return said


def name_cycles():
    for path in glob.glob("crates/*/src/**/*.rt", recursive=True) + glob.glob("crates/*/proofs/**/*.antt", recursive=True):
        text = turned = open(path, encoding="utf-8").read()
        for old, new in CYCLES.items():
            turned = re.sub(r"(cycle\(|proofs\.[\w.]*\+)" + old + r"(?=[).])", r"\1" + new, turned)
        if turned != text:
            open(path, "w", encoding="utf-8").write(turned)
    for folder in glob.glob("crates/*/proofs/*/+*"):
        for old, new in CYCLES.items():
            if re.fullmatch(old, os.path.basename(folder)[1:]):
                os.rename(folder, os.path.join(os.path.dirname(folder), "+" + new))


def main():
    new = mapping()
    said = fall_together(new)
    if said and "--anyway" not in sys.argv:
        print("\n".join(sorted(said)))
        print(f"{len(said)} names fall together; nothing is changed")
        return 1
    for path in glob.glob("crates/*/specs/**/*.antt", recursive=True) + glob.glob("crates/*/proofs/**/*.antt", recursive=True):
        text = open(path, encoding="utf-8").read()
        turned = antt(text, at(path, new), made(path))
        if turned != text:
            open(path, "w", encoding="utf-8").write(turned)
    for path in glob.glob("crates/*/src/**/*.rt", recursive=True) + glob.glob("crates/*/must-fail/*.edit"):
        text = open(path, encoding="utf-8").read()
        turned = rattle(text, new)
        if turned != text:
            open(path, "w", encoding="utf-8").write(turned)
    name_cycles()
    return 0


if __name__ == "__main__":
    sys.exit(main())
