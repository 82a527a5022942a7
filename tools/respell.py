#!/usr/bin/env python3
"""Spells the repository's own definitions and lemmas as the language does: words in snake case, types in camel case.

usage: respell.py [--check]     at the top of the repository

A name turns where a file of specs/ or proofs/ declares it (the goals of Answers, Invariants and Proof files keep the
names that the check gives them), and no library's import has it. A name in TAKEN gets the new name that stands there,
since its plain respelling would fall together with another name. It goes by whole words, over .antt files, the ghost
text of .rt files, must-fail edits, and the code spans of pages. Functions, fields, strings, inputs and outputs keep
their names. --check writes nothing. Either way it lists where a new name was there before.
"""
import collections
import os
import re
import sys

# Names whose plain respelling is taken, each with the name it gets.
TAKEN = {
    "number-of": "refusal_number",
    "sum-of": "sum_of_all",
    "bad-port": "port_fails",
    "moduleAt": "module_from",
    "placesIn": "places_within",
    "stateIn": "state_of_stage",
    "isIn": "is_at",
    # the goal files have these names too, as helpers of their own
    "states-of": "states_of",
    "at-end": "at_end",
}

WORD = re.compile(r"[^\s(){}.;,@\"«»|\[\]`:&*!]+")
DECLARED = re.compile(
    r"^ *((?:(?:abbrev|unfoldable|opaque|instance|pub|record|data|mutual|private|let|in|where) )*)"
    r"([^\s:(){}|=.,;]+)((?: +(?:[^\s:(){}]+|\((?:[^()]|\([^()]*\))*\)|\{[^{}]*\}))*?) : (.*)$"
)
BOUND = re.compile(r"(?:\blet |[({])([^\s:(){}|=.,;λ]*-[^\s:(){}|=.,;]*)((?: [^\s:(){}|=.,;]+)*) (?::|=) ")
GOALS = re.compile(r"(?:Answers|Invariants|Proof)\.antt$")
USE = re.compile(r"\buse ([^\s;{]+)\{([^}]*)\}")


def files(kinds):
    for top in ("crates", "docs"):
        for folder, dirs, names in os.walk(top):
            dirs[:] = sorted(d for d in dirs if d != "out")
            yield from (os.path.join(folder, n) for n in sorted(names) if n.endswith(kinds))
    if ".md" in kinds:
        yield "README.md"


def read(path):
    with open(path, encoding="utf-8") as f:
        return f.read()


def old_spelling(name):
    if not re.match(r"[A-Za-z]", name):
        return False
    return "-" in name or bool(name[0].islower() and re.search(r"[a-z0-9][A-Z]", name))


def respelled(name, is_type):
    if is_type:
        return "".join(part[:1].upper() + part[1:] for part in name.split("-"))
    words = re.sub(r"(?<=[a-z0-9])[A-Z]", lambda m: "_" + m[0].lower(), name) if name[:1].islower() else name
    return words.replace("-", "_")


def declared():
    """Each name that turns, with its new spelling."""
    own = {d for d in os.listdir("crates")}
    table, kept = {}, set()
    for path in files((".antt", ".rt")):
        for where, names in USE.findall(read(path)):
            parts = where.split(".")
            if not (parts[0] == "Rattle" and len(parts) > 1 and parts[1] in own):
                for item in names.split(","):
                    kept.update(w for w in item.split(" as ")[0].split())
        if GOALS.search(path):
            kept.update(m[2] for line in read(path).splitlines() if (m := DECLARED.match(line)))
    for path in files((".antt",)):
        if GOALS.search(path):
            continue
        text = read(path)
        for line in text.splitlines():
            if m := DECLARED.match(line):
                is_type = "record" in m[1] or "data" in m[1] or bool(re.search(r"(?:^|→ )Type \d+(?: where)?$", m[4]))
                if old_spelling(m[2]):
                    table[m[2]] = respelled(m[2], is_type)
        for first, more in BOUND.findall(text):
            for name in [first, *more.split()]:
                if old_spelling(name):
                    table.setdefault(name, respelled(name, False))
    for path in files((".antt", ".rt")):
        for name in re.findall(r"[\w'-]+ as ([\w'-]+)", read(path)):
            if old_spelling(name):
                table.setdefault(name, respelled(name, False))
    for name in kept:
        table.pop(name, None)
    table.update({k: v for k, v in TAKEN.items()})
    return {k: v for k, v in table.items() if k != v and not re.search(r"[◌→]", k)}


def turn(text, table, hits):
    def word(m):
        new = table.get(m[0])
        if new is not None:
            hits[m[0]] += 1
        return new if new is not None else m[0]

    return WORD.sub(word, text)


def turn_rt(text, table, hits):
    """The text with each name turned, but for strings."""
    parts = re.split(r'(b?"(?:[^"\\\n]|\\.)*")', text)
    return "".join(p if i % 2 else turn(p, table, hits) for i, p in enumerate(parts))


def turn_md(text, table, hits):
    return re.sub(r"`[^`\n]+`", lambda m: turn(m[0], table, hits), text)


def main():
    check = "--check" in sys.argv[1:]
    table = declared()
    hits = collections.Counter()
    new_names = set(table.values())
    by_new = collections.defaultdict(set)
    for old, new in table.items():
        by_new[new].add(old)
    for new, olds in sorted(by_new.items()):
        if len(olds) > 1:
            print(f"together: {', '.join(sorted(olds))} become {new}")
    for path in files((".antt", ".rt", ".edit", ".md")):
        text = read(path)
        there = set(WORD.findall(text))
        for old, new in sorted(table.items()):
            if old in there and new in there:
                print(f"met: {path}: {old} becomes {new}, which is there")
        kind = turn if path.endswith((".antt",)) else turn_md if path.endswith(".md") else turn_rt
        turned = kind(text, table, hits)
        if turned != text and not check:
            with open(path, "w", encoding="utf-8") as f:
                f.write(turned)
    print(f"{len(table)} names, {sum(hits.values())} places")
    return 0


if __name__ == "__main__":
    sys.exit(main())
