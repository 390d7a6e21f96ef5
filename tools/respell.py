#!/usr/bin/env python3
"""Gives the definitions and lemmas of the crates the kit's spelling: words in snake case, types in camel case.

A word such as `subClassIn` becomes `sub_class_in`, a type such as `Worked-slips` becomes `WorkedSlips`. A dash stays in a lemma's name
only where it joins the names of two functions, as in `length-padded`. Goals that the prover names, functions of src/, strings, inputs and
outputs keep their names. Pages and comments that name what is renamed follow. Run it once, at the top of the repository, over text that
the kit's own script has turned.

Usage: respell.py [--list]   (--list prints the renamings and what their new names meet, and writes nothing)
"""

import glob
import os
import re
import sys

WORD = r"[^\W\d][\w'-]*"
LEFT, RIGHT = r"(?<![\w'-])", r"(?![\w'-])"
HEAD = re.compile(r"^(\s*)(?:(?:abbrev|unfoldable|pub|record|data|ruleset)\s+)*(%s)\s*(?=[:({]|= )" % WORD)
LET = re.compile(r"\blet (%s)(?= [:=])" % WORD)
ALIAS = re.compile(r"(?<= as )(%s)(?=[,}])" % WORD)
# names of the prover, and words that start the lines that it writes
GOAL = re.compile(r"^\s*(?:abbrev )?(?:pub )?(%s) : goal\." % WORD, re.M)
MADE = re.compile(r"^(invariant|decreases|ghost|returns|overflow|bounds|slice|prove|nonzero|loop|offset|invariant_of)\b-")
# the library's functions that lemmas are named after
LIBRARY = {"length", "take", "drop", "map", "append", "set", "filter", "reverse", "cond", "min", "max", "replicate", "get_or"}
# what the kit's script left under an alias that is another word of the library: the word, and the alias that goes
ALIASES = {"AllByRecursion": "All"}
# Names that the rule would bring together: a lemma takes `_lem` beside the function that it is about.
SPECIAL = {
    "amount-read": "amount_read_lem",
    "bit-or": "bit-or",
    "cut-at": "cut_at_lem",
    "entry-answer": "entry_answer_lem",
    "first_fits": "first_fits_lem",
    "getD-filled": "get_or_filled",
    "getD-values": "get_or-values",
    "halves-at": "halves_at_lem",
    "has_block": "has_block_lem",
    "inHand": "is_in_hand",
    "key-byte": "key_byte_lem",
    "marked-in": "marked_in_lem",
    "number-at": "number_at_lem",
    "second-check-digit": "second_check_digit",
    "pairs-at": "pairs_at_lem",
    "slip-read": "slip_read_lem",
    "twoGroups": "two_group_slip",
}


def snake(word):
    word = re.sub(r"(?<=[a-z0-9])(?=[A-Z])", "_", word)
    return word.lower()


def camel(word):
    return "".join(p[:1].upper() + p[1:] for p in word.split("-"))


def files(*ends):
    return [f for f in sorted(glob.glob("crates/*/**/*", recursive=True)) if f.endswith(ends) and "/out/" not in f and os.path.isfile(f)]


def read(path):
    with open(path, encoding="utf-8") as f:
        return f.read()


def declared():
    """The names that specs/ and proofs/ declare: those of the functions of specs/, of record fields, and all."""
    functions, fields, names = set(), set(), set()
    for path in files(".antt"):
        text = read(path)
        goals = set(GOAL.findall(text))
        for line in text.split("\n"):
            m = HEAD.match(line)
            if not m or line.lstrip().startswith(("--", "use ", "let ")) or m.group(2) in goals or MADE.match(m.group(2)):
                continue
            if m.group(1) and line[m.end()] not in ":=":
                continue
            names.add(m.group(2))
            if m.group(1):
                fields.add(m.group(2))
            elif "/specs/" in path and m.group(2)[0].islower():
                functions.add(m.group(2))
        names.update(name for name in LET.findall(text) if not MADE.match(name))
    for path in files(".antt", ".rt"):
        for line in read(path).split("\n"):
            if re.match(r"(pub |ghost )?use ", line):
                names.update(ALIAS.findall(line))
                if not re.search(r"use Rattle\.(%s)\." % "|".join(crates()), line):
                    names.difference_update(re.findall(WORD, line.partition("{")[2]))
    return functions, fields, names


def crates():
    return sorted(os.path.basename(c) for c in glob.glob("crates/*"))


def turned(name, functions):
    if name in SPECIAL:
        return SPECIAL[name]
    if name[0].isupper():
        return camel(name) if "-" in name else name
    parts = [snake(p) for p in name.split("-")]
    if len(parts) == 1:
        return parts[0]
    groups, i = [], 0
    while i < len(parts):
        for j in range(len(parts), i, -1):
            one = "_".join(parts[i:j])
            if one in functions or j == i + 1:
                groups.append(one)
                i = j
                break
    out = groups[0]
    for before, after in zip(groups, groups[1:]):
        out += ("-" if before in functions and after in functions else "_") + after
    return out


def renamings():
    functions, fields, names = declared()
    known = {snake(f) if "-" not in f else f.replace("-", "_") for f in functions} | LIBRARY
    given = {}
    for name in sorted(names):
        if name in SPECIAL or re.search(r"[a-z0-9][A-Z]|-", name):
            new = turned(name, known)
            if new != name:
                given[name] = new
    return given, fields


def unaliased(text):
    for word, alias in ALIASES.items():
        if f"{word} as {alias}" in text:
            text = text.replace(f"{word} as {alias}", word)
            text = re.sub(LEFT + r"(?<!\.)" + alias + RIGHT + r"(?= [(\w])", word, text)
    return text


def listed(given):
    text = "\n".join(re.sub(r"//.*|--.*", "", read(f)) for f in files(".antt", ".rt"))
    words = set(re.findall(r"(?<![\w'-])%s" % WORD, text))
    for old, new in given.items():
        others = [o for o, n in given.items() if n == new and o != old]
        met = (" MEETS" if new in words else "") + (" TOGETHER " + " ".join(others) if others else "")
        print(f"{old} -> {new}{met}")


def either(names):
    return "|".join(re.escape(n) for n in sorted(names, key=len, reverse=True))


def main():
    if not os.path.isdir("crates"):
        raise SystemExit("respell: run it at the top of the repository")
    given, fields = renamings()
    if "--list" in sys.argv:
        return listed(given)
    if not given:
        return
    # behind a dot stands a field or a type; what the prover names there may look like a lemma
    behind = [n for n in given if n in fields or n[0].isupper()]
    rule = re.compile(LEFT + "(?:" + r"(?<!\.)(?:" + either(given) + ")|(?:" + either(behind) + "))" + RIGHT)
    pages = ["README.md"] + sorted(glob.glob("docs/*.md"))
    for path in files(".antt", ".rt", ".edit") + [p for p in pages if os.path.exists(p)]:
        text = read(path)
        if path.endswith(".md"):
            new = re.sub(r"`[^`\n]*`", lambda m: rule.sub(lambda w: given[w.group(0)], m.group(0)), text)
        else:
            new = rule.sub(lambda w: given[w.group(0)], unaliased(text))
        if new != text:
            with open(path, "w", encoding="utf-8") as f:
                f.write(new)


if __name__ == "__main__":
    main()
