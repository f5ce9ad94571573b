"""Compares ./phg with the test oracle on random commands, and makes the files of crates/phg_runs.

    python3 tests/phg_random.py --count 2000 [--seed S]   prints how many agreed
    python3 tests/phg_random.py --runs crates/phg_runs    writes its data/ and stdout
"""

import argparse
import os
import random
import subprocess
import sys
import tempfile
from collections import namedtuple

import oracle
from oracle import Cnot, Inverter, Phase, Refused

PHG = os.path.join(os.path.dirname(os.path.dirname(os.path.abspath(__file__))), "phg")

# What a command does: standard output, a complaint, and the name and bytes of a file written.
Done = namedtuple("Done", "out complaint written")

USAGE = """phg spectrum N TABLE                    the spectrum, one number a line
phg build N TABLE OUT                   writes the circuit of the table's oracle
phg read FILE                           wires and gates
phg run FILE START                      end state and phase
phg count FILE                          CNOTs, phase gates, score and inverters
phg fold FILE OUT                       folds the phase gates and writes the file
phg compare [--differences] FILE FILE   whether two circuits do the same
phg judge [--differences] N TABLE FILE  whether a circuit is the table's oracle
phg list [--wrapped] FILE [OUT]         the circuit as OpenQASM 2.0
N and START are decimal. TABLE is hexadecimal digits, two a byte, as 08, or @ and a
file's name. The name - is standard input.
"""

REFUSALS = {
    1: ("VARS", "n is 0 or above 8"),
    2: ("TABLE", "the table's length is wrong"),
    3: ("PAD", "an unused table bit is 1"),
    4: ("SHORT", "the file is under 8 bytes"),
    5: ("MARK", "the mark is wrong"),
    6: ("VERSION", "the version is neither 1 nor 2"),
    7: ("WIRES", "the wires are 0 or above 10"),
    8: ("COUNT", "the gate count is above 2048"),
    9: ("LENGTH", "the file's length is not 8 + 4 times the gate count"),
    10: ("GATE", "some gate is bad"),
    11: ("STATE", "the start is not below 2^w"),
    12: ("UNLIKE", "the wire counts differ"),
    17: ("LOOSE", "a wire does not end as it starts"),
}

REASONS = {1: "kind", 2: "wire", 3: "equal", 4: "spare"}


class Complaint(Exception):
    pass


# A model of the commands over the oracle. `files` has a file's bytes by its name, `-` among them;
# `closed` the names that can't be written.

def number(word):
    if word == "" or any(c not in "0123456789" for c in word):
        raise Complaint(f"{word} is no number: write decimal digits")
    return int(word)


def file_named(word, files):
    if word not in files:
        raise Complaint(f"{word} can't be read: name a file that can, or - for standard input")
    return files[word]


def table_of(word, files):
    if word.startswith("@"):
        return file_named(word[1:], files)
    if len(word) % 2 == 1 or any(c not in "0123456789abcdefABCDEF" for c in word):
        raise Complaint(f"{word} is no table: write hexadecimal digits, two a byte, or @FILE")
    return bytes.fromhex(word)


def form(words, least, most, text):
    if not least <= len(words) <= most:
        raise Complaint("write phg " + text)


def split_option(words, option):
    if words[:1] == [option]:
        return True, words[1:]
    return False, words


def stored(name, data, closed, before=""):
    if name == "-" or name in closed:
        raise Complaint(f"{name} can't be written: name a file that can")
    return Done(f"{before}wrote {len(data)} bytes\n", None, (name, data))


def said(text):
    return Done(text, None, None)


def verdict_text(found, work, differences):
    if found == oracle.SAME:
        text = "same\n"
    else:
        text = "different at {} ends {} {} phase {}\n".format(*found)
    if differences:
        text += "".join(f"{s} {d}\n" for s, d in enumerate(work) if d)
    return said(text)


def command(name, words, files, closed):
    if name in ("", "help"):
        return said(USAGE)
    if name == "spectrum":
        form(words, 2, 2, "spectrum N TABLE")
        n, table = number(words[0]), table_of(words[1], files)
        return said("".join(f"{s}\n" for s in oracle.spectrum(n, table)))
    if name == "build":
        form(words, 3, 3, "build N TABLE OUT")
        n, table = number(words[0]), table_of(words[1], files)
        return stored(words[2], oracle.build(n, table), closed)
    if name == "judge":
        differences, words = split_option(words, "--differences")
        form(words, 3, 3, "judge [--differences] N TABLE FILE")
        n, table = number(words[0]), table_of(words[1], files)
        return verdict_text(*oracle.judge(n, table, file_named(words[2], files)), differences)
    if name == "read":
        form(words, 1, 1, "read FILE")
        return said("wires {} gates {}\n".format(*oracle.read(file_named(words[0], files))))
    if name == "run":
        form(words, 2, 2, "run FILE START")
        file, start = file_named(words[0], files), number(words[1])
        return said("end {} phase {}\n".format(*oracle.run(file, start)))
    if name == "count":
        form(words, 1, 1, "count FILE")
        counted = oracle.count(file_named(words[0], files))
        return said("cnots {} phases {} score {} inverters {}\n".format(*counted))
    if name == "fold":
        form(words, 2, 2, "fold FILE OUT")
        folded, before, after = oracle.fold(file_named(words[0], files))
        return stored(words[1], folded, closed, f"length {len(folded)} score {before} to {after}\n")
    if name == "compare":
        differences, words = split_option(words, "--differences")
        form(words, 2, 2, "compare [--differences] FILE FILE")
        first, second = file_named(words[0], files), file_named(words[1], files)
        return verdict_text(*oracle.compare(first, second), differences)
    if name == "list":
        wrapped, words = split_option(words, "--wrapped")
        form(words, 1, 2, "list [--wrapped] FILE [OUT]")
        text = oracle.listing(file_named(words[0], files), wrapped)
        return stored(words[1], text, closed) if words[1:] not in ([], [""]) else said(text.decode("ascii"))
    raise Complaint(f"{name} is no command: write spectrum, build, read, run, count, fold, compare, "
                    "judge, list or help")


def done(line, files, closed=()):
    try:
        return command(line[0] if line else "", line[1:], files, closed)
    except Refused as r:
        name, why = REFUSALS[r.number]
        reason = f" reason {REASONS[r.reason]}" if r.number == oracle.GATE else ""
        return said(f"refused {r.number} {name} side {r.side} position {r.position}{reason}: {why}\n")
    except Complaint as complaint:
        return Done("", f"phg: {complaint}\n", None)


def status(expected):
    if expected.complaint is not None:
        return 3
    return {"refused": 2, "different": 1}.get(expected.out.split(maxsplit=1)[0], 0)


# Random commands

def random_gates(rng, w, number, version):
    gates = []
    for _ in range(number):
        if version == 2 and rng.random() < 0.3:
            gates.append(Inverter(rng.randrange(w)))
        elif w > 1 and rng.random() < 0.5:
            gates.append(Cnot(*rng.sample(range(w), 2)))
        else:
            angle = rng.choice([0, 1, 8192, 16384, 32768, 49152, 65535, rng.randrange(65536)])
            gates.append(Phase(rng.randrange(w), angle))
    return gates


def damaged(rng, file):
    kind = rng.randrange(7)
    if kind == 0:
        return file[:rng.randrange(len(file) + 1)]
    if kind == 1:
        return file + rng.randbytes(rng.choice([1, 4, 100]))
    if kind == 2:
        return file + bytes(rng.choice([8300, 70000]))
    if kind == 6:
        return file[:3] + rng.choice([1, 2, 3, 256, 257, 258, 512]).to_bytes(2, "big") + file[5:]
    changed = bytearray(file)
    at = rng.randrange(min(len(file), 8)) if kind == 3 else rng.randrange(len(file))
    changed[at] = rng.choice([0, 1, 2, 3, 9, 10, 11, 255, rng.randrange(256)])
    return bytes(changed)


def random_file(rng, w=None):
    w = w or rng.choice([1, 2, 2, 3, 3, 4, 5, 6, 10])
    number = rng.choice([0, 1, 2, 3, 5, 8, 13, 30])
    if w < 3 and rng.random() < 0.03:
        number = rng.choice([2047, 2048, 2049])
    version = rng.choice([1, 2])
    file = oracle.encode(w, random_gates(rng, w, number, version), version)
    return damaged(rng, file) if rng.random() < 0.3 else file


def random_table(rng):
    """n and a table, mostly good and mostly small."""
    n = rng.choice([1, 1, 2, 2, 3, 3, 4, 5]) if rng.random() < 0.95 else rng.choice([6, 8])
    table = bytearray(rng.randbytes(oracle.table_length(n)))
    if n < 3:
        table[0] %= 2 ** 2 ** n
    if rng.random() < 0.15:
        table = rng.choice([table + b"\0", table[:-1], bytes(33), bytes([255]), bytes(500)])
    return n, bytes(table)


def oracle_file(rng, n, table):
    """A circuit for judge: often the table's own, sometimes changed."""
    try:
        file = oracle.build(n, table)
    except Refused:
        return random_file(rng)
    if rng.random() < 0.5:
        file = oracle.fold(file)[0]
    if rng.random() < 0.5:
        version, (w, gates) = rng.choice([1, 2]), oracle.parse(file)[1:]
        if version == 2:
            place = rng.randrange(len(gates) + 1)
            gates[place:place] = [Inverter(rng.randrange(w))] * 2
        if rng.random() < 0.6:
            gates[rng.randrange(len(gates))] = rng.choice(random_gates(rng, w, 1, version))
        file = oracle.encode(w, gates, version)
    return damaged(rng, file) if rng.random() < 0.1 else file


class Call:
    """A random command line with the files that it names."""

    def __init__(self, rng):
        self.rng, self.files, self.words = rng, {"-": b""}, []
        self.closed = {"folder", "none/out"}
        name = rng.choice(["spectrum", "build", "judge", "read", "run", "count", "fold", "compare", "list"])
        getattr(self, name)()
        if rng.random() < 0.04:
            self.spoil()

    def name(self, data, may_be_input=True):
        rng = self.rng
        if rng.random() < 0.02:
            return rng.choice(["missing", "folder", ""])
        name = "-" if may_be_input and "-" not in self.words and rng.random() < 0.2 else f"in{len(self.files)}"
        self.files[name] = data
        return name

    def number(self, value, wrong):
        rng = self.rng
        if rng.random() < 0.03:
            return rng.choice(["", "x", "-1", "1.0", "0x2", " 2", "12a"])
        if rng.random() < 0.08:
            return rng.choice(wrong)
        return "0" * rng.choice([0, 0, 0, 1, 30]) + str(value)

    def table(self, table):
        rng = self.rng
        if rng.random() < 0.03:
            return rng.choice(["8", "0g", "08 ", "g", "0x08", "080"])
        if rng.random() < 0.25:
            name = self.name(table)
            return "@" + name
        text = table.hex()
        return rng.choice([text, text.upper(), "".join(rng.choice([c, c.upper()]) for c in text)])

    def n_and_table(self):
        n, table = random_table(self.rng)
        self.words.append(self.number(n, ["0", "9", "255", "256", "300", "9999999999999999999999"]))
        self.words.append(self.table(table))
        return n, table

    def out(self):
        rng = self.rng
        if rng.random() < 0.05:
            return rng.choice(["folder", "none/out", "-"])
        if rng.random() < 0.3:
            self.files["old"] = b"old bytes, longer than nothing"
            return "old"
        return "new"

    def spectrum(self):
        self.words = ["spectrum"]
        self.n_and_table()

    def build(self):
        self.words = ["build"]
        self.n_and_table()
        self.words.append(self.out())

    def judge(self):
        self.words = ["judge"] + self.option("--differences")
        n, table = self.n_and_table()
        self.words.append(self.name(oracle_file(self.rng, n, table), "@-" not in self.words))

    def one_file(self, name):
        self.words = [name]
        self.words.append(self.name(random_file(self.rng)))

    def read(self):
        self.one_file("read")

    def count(self):
        self.one_file("count")

    def run(self):
        w = self.rng.randrange(1, 11)
        self.words = ["run"]
        self.words.append(self.name(random_file(self.rng, w)))
        self.words.append(self.number(self.rng.randrange(2 ** w + 1), ["1024", "65535", "65536", "70000", "9" * 40]))

    def fold(self):
        self.one_file("fold")
        self.words.append(self.out())

    def compare(self):
        rng = self.rng
        w = rng.randrange(1, 6)
        first = random_file(rng, w)
        second = random_file(rng, w if rng.random() < 0.8 else None)
        try:
            if rng.random() < 0.4:
                second = oracle.fold(first)[0]
                second = rng.choice([second, second[:4] + b"\2" + second[5:]])
        except Refused:
            pass
        self.words = ["compare"] + self.option("--differences")
        for file in (first, second):
            self.words.append(self.name(file))

    def list(self):
        self.words = ["list"] + self.option("--wrapped")
        self.words.append(self.name(self.listed_file()))
        if self.rng.random() < 0.4:
            self.words.append(self.out())

    def listed_file(self):
        """Often one that comes back: few random ones of some CNOTs do."""
        file = random_file(self.rng)
        try:
            version, w, gates = oracle.parse(file)
        except Refused:
            return file
        moves = [gate for gate in gates if not isinstance(gate, Phase)]
        return file if self.rng.random() < 0.4 else oracle.encode(w, gates + moves[::-1], version)

    def option(self, option):
        return [option] if self.rng.random() < 0.5 else []

    def spoil(self):
        rng = self.rng
        kind = rng.randrange(5)
        if kind == 0:
            self.words.pop()
        elif kind == 1:
            self.words.append("more")
        elif kind == 2:
            self.words[0] = rng.choice(["folds", "", "Help", "--help", "spectru"])
        elif kind == 3:
            self.words = rng.choice([[], ["help"], ["list", "--wrapped"], ["compare", "--differences"]])
        else:
            self.words = ["spectrum", "3", rng.choice(["ab", "AB"]) * rng.choice([34, 5000])]


def agrees(call, folder):
    """Whether ./phg does as the model: standard output, complaint, status, and every file after it."""
    expected = done(call.words, call.files, call.closed)
    os.mkdir(os.path.join(folder, "folder"))
    for name, data in call.files.items():
        if name != "-":
            with open(os.path.join(folder, name), "wb") as file:
                file.write(data)
    ran = subprocess.run([PHG] + call.words, cwd=folder, input=call.files["-"], capture_output=True)
    after = {}
    for name in os.listdir(folder):
        if name != "folder":
            with open(os.path.join(folder, name), "rb") as file:
                after[name] = file.read()
    wanted = {name: data for name, data in call.files.items() if name != "-"}
    if expected.written:
        wanted[expected.written[0]] = expected.written[1]
    found = (ran.stdout.decode("latin-1"), ran.stderr.decode("latin-1"), ran.returncode)
    right = (expected.out, expected.complaint or "", status(expected))
    if found == right and after == wanted:
        return True
    print("differs:", call.words, "\n  expected", right, "\n  found   ", found, "\n  files agree:", after == wanted)
    return False


def compare_many(count, seed):
    rng = random.Random(seed)
    agreed = 0
    for _ in range(count):
        with tempfile.TemporaryDirectory() as folder:
            agreed += agrees(Call(rng), folder)
    print(f"{agreed} of {count} agreed")
    return agreed == count


# The files of crates/phg_runs

def samples():
    gates = [Phase(1, 5), Cnot(0, 1), Phase(1, 7), Cnot(0, 1), Phase(1, 9)]
    good = oracle.encode(2, gates)
    bad_gate = oracle.encode(2, gates[:3] + [Cnot(1, 1)])
    header, no_kind, spare = bad_gate[:7], b"\3\2\2\5", b"\1\0\1\5"
    x = Inverter(0)
    inverters = [x, Phase(0, 8192), Cnot(0, 1), Phase(1, 7), Inverter(1), Phase(1, 9), x, x, Phase(0, 8192),
                 Inverter(1)]
    return {
        "two_wires": oracle.encode(2, []),
        "mixing": oracle.encode(2, [Cnot(0, 1)]),
        "parities": good,
        "three_wires": oracle.encode(3, [Phase(2, 40000)]),
        "short": good[:7],
        "mark": b"PHX" + good[3:],
        "version": good[:4] + b"\3" + good[5:],
        "wires": good[:5] + b"\13" + good[6:],
        "count": good[:6] + b"\10\1" + good[8:],
        "length": good + b"\0",
        "gate": bad_gate,
        "kind": header + b"\1" + no_kind,
        "wire": header + b"\2" + b"\1\2\2\5" + no_kind,
        "spare": header + b"\1" + spare,
        "inverters": oracle.encode(2, inverters, version=2),
        "inverters_in_1": oracle.encode(2, inverters, version=1),
        "inverter_spare": oracle.encode(2, inverters, version=2)[:-1] + b"\5",
        "inverter_pair": oracle.encode(2, [x, x], version=2),
        "every_start": oracle.encode(2, [Phase(0, 5), x, Phase(0, 5), x], version=2),
        "turns": oracle.encode(2, [Phase(0, 16384), Phase(1, 8192), Cnot(0, 1), Phase(1, 32768), Cnot(0, 1),
                                   Phase(1, 8192)]),
        "majority": bytes.fromhex("e8"),
    }


COMMANDS = """help
spectrum 3 e8
spectrum 3 @majority
build 2 08 built
read built
count built
run built 7
fold built folded
read folded
compare built folded
compare --differences mixing two_wires
compare --differences parities two_wires
judge 2 08 folded
judge 2 06 folded
judge --differences 2 06 folded
list folded
list --wrapped parities
list --wrapped parities text
list --wrapped mixing
list --wrapped mixing never
list mixing
list --wrapped inverter_pair
fold parities parities
read parities
count turns
fold turns turned
count turned
read inverters
count inverters
run inverters 0
run inverters 3
list inverters
fold inverters inverters_folded
count inverters_folded
compare inverters inverters_folded
compare inverter_pair two_wires
compare --differences every_start two_wires
compare --differences two_wires inverters
judge 1 00 inverter_pair
judge --differences 1 00 every_start
spectrum 9 08
spectrum 300 08
build 4 08 never
spectrum 1 04
read short
read -
read mark
fold version never
read inverters_in_1
compare inverters inverters_in_1
count inverter_spare
read wires
count count
list length never
read gate
read kind
read wire
count spare
run gate 0
fold kind never
list wire never
compare gate spare
compare built gate
judge 1 02 spare
run built 8
run built 70000
compare mixing three_wires
judge 1 02 three_wires
frobnicate
build 2 08
spectrum two 08
run built -1
spectrum 3 e
spectrum 3 eg
read never
build 2 08 -
list folded none/text
"""


def make_runs(crate):
    files = samples()
    folder = os.path.join(crate, "data")
    os.makedirs(folder, exist_ok=True)
    for name, data in list(files.items()) + [("commands", COMMANDS.encode("ascii"))]:
        with open(os.path.join(folder, name), "wb") as file:
            file.write(data)
    files["-"] = b""
    with open(os.path.join(crate, "stdout"), "w", encoding="ascii") as stdout:
        for line in COMMANDS.splitlines():
            result = done(line.split(" "), files, {"none/text"})
            if result.written:
                files[result.written[0]] = result.written[1]
            stdout.write(f"$ {line}\n{result.out}{result.complaint or ''}")


def main():
    parser = argparse.ArgumentParser()
    parser.add_argument("--count", type=int, default=100)
    parser.add_argument("--seed", type=int, default=1)
    parser.add_argument("--runs")
    asked = parser.parse_args()
    if asked.runs:
        make_runs(asked.runs)
    elif not compare_many(asked.count, asked.seed):
        sys.exit(1)


if __name__ == "__main__":
    main()
