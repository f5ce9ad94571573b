"""Counts the places of docs/DESIGN-PASS.md in crates/*/src, at a commit or in the tree.

    python3 tools/design_places.py [COMMIT] [--list]
"""
import collections
import glob
import re
import subprocess
import sys

args = [a for a in sys.argv[1:] if not a.startswith("--")]
listing = "--list" in sys.argv


def git(*words):
    return subprocess.run(["git", *words], capture_output=True, text=True, check=True).stdout


def sources():
    if args:
        for path in git("ls-tree", "-r", "--name-only", args[0], "crates").split():
            if re.fullmatch(r"crates/\w+/src/.*\.rt", path):
                yield path, git("show", f"{args[0]}:{path}")
    else:
        for path in sorted(glob.glob("crates/*/src/**/*.rt", recursive=True)):
            yield path, open(path).read()


files = dict(sources())


def places(pattern):
    for path, text in files.items():
        for found in re.finditer(pattern, text, re.M):
            yield path, text.count("\n", 0, found.start()) + 1, found.group(0).strip().split("\n")[0]


def functions():
    for path, text in files.items():
        for found in re.finditer(r"^ *(?:pub(?:\(crate\))? )?(?:extern \"C\" )?fn (\w+)[^;{]*?(?:\{|\n    (?:requires|ensures)[\s\S]*?\n\{)", text, re.M):
            depth, at = 1, found.end()
            while depth and at < len(text):
                depth += {"{": 1, "}": -1}.get(text[at], 0)
                at += 1
            yield path, text.count("\n", 0, found.start()) + 1, found.group(1), found.group(0), text[found.end() : at - 1]


def show(title, found):
    found = list(found)
    print(f"{len(found):4} {title}")
    if listing:
        for path, line, text in found:
            print(f"       {path}:{line}: {text[:110]}")


print("1. own Option and Result, flags with values, numbers for kinds")
show("enums that are a value or a refusal, a failure, nothing", (p for p in places(r"^(?:pub(?:\(crate\))? )?enum \w+ \{\n    \w+(?:\([^\n]*\)| \{(?:[^\n]*\}|[\s\S]*?\n    \}))?,\n    (?:Refused|Failed|Bad|Goes)\b")))
show("constants that number kinds", (p for p in places(r"^pub(?:\(crate\))? const [A-Z_]+: (?:u8|usize) = \d+;") if not re.search(r"ROOM|WIRES: usize|MASKS|STARTS|WORK|SUMS|PAYLOAD", p[2])))
show("fields that number a kind", places(r"^    pub (?:number|reason|op): u8,"))
print("2. twins: functions whose bodies differ in names, types and numbers alone, five statements or calls at least")
shapes = collections.defaultdict(list)
for path, line, name, head, body in functions():
    shape = re.sub(r"\b\w+\b", lambda m: m.group(0) if m.group(0) in ("if", "else", "while", "for", "match", "return", "let", "mut", "in") else "x", re.sub(r"//.*", "", body))
    shape = re.sub(r"\s+", "", shape)
    if len(re.findall(r"[;(]", shape)) >= 5:
        shapes[shape].append((path, line, name))
twins = [group for group in shapes.values() if len(group) > 1]
show("functions in such groups", ((p, l, n) for group in twins for p, l, n in group))
print("3. loops that count an index by hand")
show("while loops", places(r"^ +while .*\{"))
show("functions with a while and a step of one", ((p, l, n) for p, l, n, h, b in functions() if re.search(r"\bwhile\b", b) and re.search(r"\+= 1;", b)))
show("for loops over a range", places(r"^ +for \w+ in [^{]*\.\.[^{]*\{"))
print("4. equality, order, conversion and printing by hand")
show("pieces of text written one by one", places(r"(?:write_all\(|say\(rt, |number\(rt, )b?\""))
show("library functions by type in place of methods", places(r"\b(?:std::num::wrapping_\w+|(?:usize|u16|u32)::(?:count_ones|trailing_zeros))\("))
show("equality and conversion written out", ((p, l, n) for p, l, n, h, b in functions() if n in ("is_cnot", "are_twins", "sixteen_bits", "mark", "number", "same", "pattern", "narrow", "size_of", "wrapped", "magnitude")))
print("5. facts repeated in contracts, parameters that travel together")
show("requires about file_checks", places(r"requires.*file_checks"))
bounds = collections.defaultdict(set)
for path, line, name, head, body in functions():
    for clause in re.findall(r"requires(?: \w+)? \{ (.*) \}", head):
        for fact in re.split(r" × ", clause):
            plain = re.sub(r"\b(?!length|most_\w+|nat_abs|now\b|old\b|new\b|bytes_of\b)[a-z]\w*\b", "x", fact.strip("()"))
            bounds[plain].add((path, line, name))
show("other facts that three requires or more have, each with another value's name", ((p, l, f"{n}: {fact}") for fact, at in sorted(bounds.items()) if len(at) > 2 and "file_checks" not in fact for p, l, n in sorted(at)))
show("functions of a file and its gate count", ((p, l, n) for p, l, n, h, b in functions() if re.search(r"file: &\[u8\], gates: usize", h) or re.search(r"file: &\[u8\], wires: u8, gates: usize", h)))
show("functions of a row and its ends", ((p, l, n) for p, l, n, h, b in functions() if re.search(r"first: &\[u16\],\s+firsts: &\[u16\]", h)))
show("functions of a slice to write and a place in it", ((p, l, n) for p, l, n, h, b in functions() if re.search(r"out: &mut \[u8\], at: usize", h)))
print("6. buffers with a length beside")
show("functions of a slice and how much of it counts", ((p, l, n) for p, l, n, h, b in functions() if re.search(r"(?:&(?:mut )?\[\w+\]|Bytes|Work|&\[u16\]),\s+(?:\w+: &(?:mut )?\[\w+\],\s+)*(?:kept|size|end|count|entries|length|wires|n): usize", h)))
print("7. switches on which step to run")
show("flags that choose a step", places(r"^.*\bfn \w+\([^)]*\b(?:up|wrapped|differences): bool"))
show("matches on a number of a kind", places(r"^ +match (?:op|command|number|reason|r\.op|row) \{"))
print("8. proofs")
names = git("ls-tree", "-r", "--name-only", args[0], "crates").split() if args else glob.glob("crates/*/proofs/**/*.antt", recursive=True)
proofs = [n for n in names if re.fullmatch(r"crates/\w+/proofs/.*\.antt", n)]
texts = [git("show", f"{args[0]}:{n}") if args else open(n).read() for n in proofs]
print(f"{sum(len(re.findall(r'^pub [^ ]+ : goal[.]', t, re.M)) for t in texts):4} answers and invariants' names; {sum(t.count(chr(10)) for t in texts)} lines in {len(proofs)} files")
