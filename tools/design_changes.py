"""Writes what changed since a commit, old beside new: public functions, definitions of specs/, laws of proofs/.

    python3 tools/design_changes.py COMMIT
"""
import glob
import re
import subprocess
import sys

commit = sys.argv[1]


def git(*words):
    return subprocess.run(["git", *words], capture_output=True, text=True, check=True).stdout


def tree(pattern):
    old = [n for n in git("ls-tree", "-r", "--name-only", commit, "crates").split() if re.fullmatch(pattern, n)]
    new = [n for n in sorted(glob.glob("crates/**/*", recursive=True)) if re.fullmatch(pattern, n)]
    return {n: git("show", f"{commit}:{n}") for n in old}, {n: open(n).read() for n in new}


def flat(text):
    return re.sub(r"\s+", " ", text).strip()


def functions(files):
    out = {}
    for path, text in files.items():
        crate, where = path.split("/")[1], ""
        lines = text.split("\n")
        i = 0
        while i < len(lines):
            found = re.match(r"impl(?:<[^>]*>)? (.*) \{", lines[i])
            if found:
                where = found.group(1) + " "
            elif lines[i] == "}":
                where = ""
            if re.match(r" *pub (?:extern \"C\" )?fn ", lines[i]):
                head = lines[i]
                while not (head.rstrip().endswith("{") and re.search(r"\n *\{$|\) (?:-> .*)?\{$|^.*\{$", head)) or re.search(r"\n +(?:requires|ensures)[^\n]*\{$", head):
                    i += 1
                    head += "\n" + lines[i]
                name = re.search(r"fn (\w+)", head).group(1)
                out[f"{crate} {where}{name}"] = flat(head.rstrip()[:-1])
            i += 1
    return out


def declarations(files, whole):
    out = {}
    for path, text in files.items():
        crate, module = path.split("/")[1], path.split("/")[-1][:-5]
        lines = [l for l in text.split("\n") if not re.match(r"\s*(--|use )", l)]
        scopes = []
        i = 0
        while i < len(lines):
            line = lines[i]
            depth = len(line) - len(line.lstrip())
            if line.strip():
                while scopes and scopes[-1][0] >= depth:
                    scopes.pop()
            if re.match(r"\s*module _ ", line):
                scopes.append((depth, flat(line)))
            found = re.match(r"\s*(?:abbrev |unfoldable )?pub (?:record |data )?([^ ({]+)", line)
            if found and not re.match(r"\s*pub mod", line) and not (scopes and depth > scopes[-1][0] + 2):
                name, block = found.group(1), [line]
                while i + 1 < len(lines) and lines[i + 1].strip() and len(lines[i + 1]) - len(lines[i + 1].lstrip()) > depth:
                    i += 1
                    block.append(lines[i])
                if whole and not re.match(r"\s*pub (record|data)", line):
                    while i + 1 < len(lines) and re.match(r"\s{%d}(unfolding|%s )" % (depth, re.escape(name)), lines[i + 1]):
                        i += 1
                        block.append(lines[i])
                        while i + 1 < len(lines) and lines[i + 1].strip() and len(lines[i + 1]) - len(lines[i + 1].lstrip()) > depth:
                            i += 1
                            block.append(lines[i])
                over = "".join(s + " " for _, s in scopes)
                out[f"{crate} {module}.{name}"] = flat(over + " ".join(block))
            i += 1
    return out


def compare(title, old, new):
    changed = [k for k in old if k in new and old[k] != new[k]]
    gone, fresh = [k for k in old if k not in new], [k for k in new if k not in old]
    print(f"\n## {title}\n\nThe same {len(old) - len(changed) - len(gone)}, changed {len(changed)}, gone or renamed {len(gone)}, new {len(fresh)}.\n")
    for k in changed:
        print(f"`{k}`\n\n```\n- {old[k]}\n+ {new[k]}\n```\n")
    for k in gone:
        print(f"`{k}`, gone or renamed\n\n```\n- {old[k]}\n```\n")
    for k in fresh:
        print(f"`{k}`, new\n\n```\n+ {new[k]}\n```\n")


compare("Public functions", *(functions(t) for t in tree(r"crates/\w+/src/.*\.rt")))
compare("Definitions of specs/", *(declarations(t, True) for t in tree(r"crates/\w+/specs/\w+\.antt")))
compare("Laws of proofs/, by their statements", *(declarations(t, False) for t in tree(r"crates/\w+/proofs/[A-Z]\w*\.antt")))
