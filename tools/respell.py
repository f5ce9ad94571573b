#!/usr/bin/env python3
"""Respells this repository's own definitions and lemmas: words in snake case, types in camel case.

usage: python3 tools/respell.py [FOLDER]      once, at the top, after the toolchain's port.py
The names are in respell.txt beside this file, the old one and the new one on a line; one that begins with = is respelled in
crates/promises/specs/Wrong.antt and where it is imported from there. Strings, comments outside `..`, and the functions of src/ keep their names.
"""
import os
import re
import sys

HERE = os.path.dirname(os.path.realpath(__file__))
TOKEN = re.compile(r"[^\s(){}\[\];,.\"`]+")
TEXT = re.compile(r'"(?:[^"\\]|\\.)*"')


def table():
    names, wrong = {}, {}
    with open(os.path.join(HERE, "respell.txt"), encoding="utf-8") as f:
        for line in f:
            old, new = line.split()
            if old.startswith("="):
                wrong[old[1:]] = new
            else:
                names[old] = new
    return names, wrong


def turned(text, names):
    def new(m):
        word = m.group(0)
        # behind a dot a plain word is a crate, a module or a function
        if text[m.start() - 1:m.start()] == "." and "-" not in word and word == word.lower():
            return word
        return names.get(word, word)

    return TOKEN.sub(new, text)


def outside_strings(line, names):
    out, at = [], 0
    for m in TEXT.finditer(line):
        out += [turned(line[at:m.start()], names), m.group(0)]
        at = m.end()
    return "".join(out) + turned(line[at:], names)


def in_ticks(line, names):
    return re.sub(r"`[^`]*`", lambda m: turned(m.group(0), names), line)


def split_comment(line, mark):
    if line.lstrip().startswith(mark):
        return "", line
    at = line.find(" " + mark + " ")
    return (line, "") if at < 0 else (line[:at], line[at:])


def code(path, names, mark):
    out = []
    with open(path, encoding="utf-8") as f:
        lines = f.read().split("\n")
    for line in lines:
        before, comment = split_comment(line, mark)
        out.append(outside_strings(before, names) + in_ticks(comment, names))
    write(path, "\n".join(out), "\n".join(lines))


def page(path, names):
    with open(path, encoding="utf-8") as f:
        text = f.read()
    # the theorem that a function meets its contract
    spec = re.compile(r"`([a-z0-9]+(?:-[a-z0-9]+)*)-spec`")
    new = "\n".join(in_ticks(line, names) for line in text.split("\n"))
    write(path, spec.sub(lambda m: "`" + m.group(1).replace("-", "_") + "_spec`", new), text)


def write(path, new, old):
    if new != old:
        with open(path, "w", encoding="utf-8") as f:
            f.write(new)


def main(root):
    names, wrong = table()
    # a function of src/ may have the new name of a lemma
    plain = {k: v for k, v in names.items() if "-" in k or k.lower() != k}
    for folder, dirs, files in os.walk(root):
        dirs[:] = [d for d in dirs if d not in (".git", "out", "target", "data")]
        for name in files:
            path = os.path.join(folder, name)
            if name.endswith(".antt"):
                here = dict(names)
                with open(path, encoding="utf-8") as f:
                    if path.endswith("promises/specs/Wrong.antt") or re.search(r"promises\.specs\.Wrong\.\{", f.read()):
                        here.update(wrong)
                code(path, here, "--")
            elif name.endswith(".rt"):
                code(path, plain, "//")
            elif name.endswith(".edit"):
                code(path, plain, "\0")
            elif name.endswith(".md"):
                page(path, plain)


if __name__ == "__main__":
    main(sys.argv[1] if len(sys.argv) > 1 else ".")
