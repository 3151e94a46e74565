#!/usr/bin/env python3
"""Respells the repository's own definitions and lemmas in snake case.

Run once, at the top of a checkout, after the kit's port.py. Names that are the kit's, names that Rattle makes for goals,
names that begin with a capital (facts, as in Down-put), and everything in comments and strings stay as they are.
Prints the names that it turned. It does not see a name with a colon behind it, nor that two names fall together where one
of them was in snake case already: docs/PORT.md lists both, which were mended by hand.
"""
import collections
import glob
import re
import sys

CRATES = [line.split(":")[0].split()[0] for line in open("crates.txt") if ":" in line and not line.startswith("#")]
GENERATED_FILES = ("Answers.antt", "Invariants.antt", "Proof.antt", "Given.antt", "Goals.antt")
TOKEN = re.compile(r"[^\s(){};.,λ\[\]⌜⌝\"]+")
OWN_PATH = re.compile(r"Rattle\.(%s)\b" % "|".join(CRATES))
# what Rattle makes from code: goals, steps and the records that a goal is given
MADE = re.compile(
    r"^(returns|in|not|if|then|else|loop|invariant|decreases|overflow|index|slice|find|After|In|type|parameters|is-some)-"
    r"|-(requires|ensures|init|preserved|smaller|test|index|item|end|iterator|items|yielded)(-.*)?$"
)


def code(line):
    """The part of a line of antt that is no comment."""
    return re.split(r"(?:^|\s)--(?:\s|$)", line, maxsplit=1)[0]


def files(pattern):
    return sorted(glob.glob(pattern, recursive=True))


def snake(name):
    name = name.replace("-", "_")
    return re.sub(r"(?<=[a-z0-9])([A-Z])", lambda m: "_" + m.group(1).lower(), name)


def wants(name):
    if not re.match(r"[^\W\dA-Z]|θ|β", name):
        return False
    return bool(re.search(r"\w-\w", name) or re.search(r"[a-z0-9][A-Z]", name))


def main():
    antt = files("crates/*/specs/**/*.antt") + files("crates/*/proofs/**/*.antt")
    imported = collections.defaultdict(set)
    declared = set()
    used = collections.defaultdict(set)
    bound = collections.defaultdict(set)
    for path in antt:
        for line in open(path):
            text = code(line)
            if re.match(r"(pub )?use ", text):
                if not OWN_PATH.search(text):
                    for name in TOKEN.findall(text):
                        imported[name].add(path)
                continue
            for name in re.findall(r"^\s*(?:abbrev |unfoldable )?(?:pub )?([^\s:(){}]+)\s*:\s", text):
                if wants(name) and not path.endswith(GENERATED_FILES):
                    declared.add(name)
            where = bound if path.endswith(GENERATED_FILES) else used
            for name in TOKEN.findall(text):
                if wants(name):
                    used[name].add(path) if where is used else None
            if where is bound:
                for name in re.findall(r"\blet ([^\s:=()]+)", text):
                    if wants(name):
                        bound[name].add(path)
    for path in files("crates/*/src/**/*.rt"):
        for name in re.findall(r"\bghost (?:use )?([A-Za-z]\w*)\s*:", open(path).read()):
            if wants(name):
                used[name].add(path)
    table = {}
    for name in set(used) | set(bound):
        if MADE.search(name) and name not in OWN_MADE:
            continue
        if name not in imported or name in declared:
            table[name] = snake(name)
    back = collections.defaultdict(list)
    for old, new in table.items():
        back[new].append(old)
    for new, olds in sorted(back.items()):
        if len(olds) > 1 or new in used or new in imported:
            print("falls together:", new, sorted(olds), "also used" * (new in used), "the kit's" * (new in imported))
    turned = 0
    for path in antt + files("crates/*/src/**/*.rt"):
        before = open(path).read()
        # a name that this file imports from the kit is the kit's in it
        here = {old: new for old, new in table.items() if path not in imported[old]}
        after = "".join(turn(line, here, path) for line in before.splitlines(keepends=True))
        if after != before:
            open(path, "w").write(after)
            turned += 1
    for old in sorted(table):
        print(old, "->", table[old])
    print("the kit's and ours:", sorted(n for n in table if imported[n]))
    print("left as made:", sorted(n for n in used if not imported[n] and n not in table))
    print("turned", turned, "files")


# names of the repository that look as if they were made
OWN_MADE = {
    "in-box", "in-range", "in-x", "in-y", "not-before", "not-both", "not-larger", "progress-end",
    "returns-away-from-zero", "returns-soon", "returns-soon-stands", "signed-end",
}


def turn(line, table, path):
    if path.endswith(".rt"):
        cut = re.search(r"(^|\s)//", line)
        at = cut.start() if cut else len(line)
    else:
        at = len(code(line))
    text, rest = line[:at], line[at:]
    return TOKEN.sub(lambda m: table.get(m.group(0), m.group(0)), text) + rest


if __name__ == "__main__":
    sys.exit(main())
