"""Lists the functions of crates/*/src whose bodies are the same once names and numbers are taken out: candidates for one generic function.

usage: python3 tools/alike.py [folder of the repository]
"""
import collections
import glob
import os
import re
import sys

KEPT = {"if", "else", "match", "for", "in", "let", "mut", "return", "Ok", "Err", "Some", "None", "while", "self", "as", "true", "false"}
FEWEST = 12


def bodies(text):
    """Each function's name with its body, which begins at the first line that ends in an opening brace."""
    text = re.sub(r"//.*", "", text)
    for name in re.finditer(r"\bfn (\w+)", text):
        opening = re.search(r"(?m)\{\s*$", text[name.end():])
        if opening is None:
            continue
        start = at = name.end() + opening.end()
        depth = 1
        while depth and at < len(text):
            depth += {"{": 1, "}": -1}.get(text[at], 0)
            at += 1
        yield name.group(1), text[start:at - 1]


def shape(body):
    """The body without its names and numbers, or none where it has few tokens."""
    tokens = re.findall(r"[A-Za-z_]\w*|\d\w*|\S", body)
    if len(tokens) < FEWEST:
        return None
    return " ".join(t if t in KEPT or not re.match(r"\w", t) else "0" if t[0].isdigit() else "x" for t in tokens)


def main(root):
    alike = collections.defaultdict(list)
    for path in sorted(glob.glob(os.path.join(root, "crates/*/src/*.rt"))):
        with open(path, encoding="utf-8") as file:
            for name, body in bodies(file.read()):
                if (form := shape(body)) is not None:
                    alike[form].append(f"{os.path.relpath(path, root)}:{name}")
    for form, places in sorted(alike.items(), key=lambda item: -len(item[0])):
        if len(places) > 1:
            print(len(form.split()), ", ".join(places))


if __name__ == "__main__":
    main(sys.argv[1] if len(sys.argv) > 1 else ".")
