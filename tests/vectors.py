"""Requests for the vectors program `cases` and the output expected of it.

python3 tests/vectors.py --requests crates/cases/stdin --expected crates/cases/stdout (SECTION.. for some, --show to read them)
"""

import argparse
import random
from collections import namedtuple

import oracle
from oracle import Cnot, Inverter, Phase, encode

Request = namedtuple("Request", "op a b room first second note")

# In the order of their numbers in `cases`
OPERATIONS = ["spectrum", "check", "value", "decode", "gate_at", "read", "run", "count",
              "build", "fold", "list", "oracle", "compare", "judge", "printout", "refused"]


# Requests, one maker an operation

def spectrum(note, n, table, room):
    return Request("spectrum", n, 0, room, table, b"", note)


def check(note, n, table):
    return Request("check", n, 0, 0, table, b"", note)


def value(note, table, x):
    return Request("value", 0, x, 0, table, b"", note)


def decode(note, version, w, position, four):
    return Request("decode", w, position, 0, version.to_bytes(2, "big") + bytes(four), b"", note)


def gate_at(note, file, position):
    return Request("gate_at", 0, position, 0, file, b"", note)


def read(note, file, side=0):
    return Request("read", side, 0, 0, file, b"", note)


def run(note, file, start):
    return Request("run", 0, start, 0, file, b"", note)


def count(note, file):
    return Request("count", 0, 0, 0, file, b"", note)


def build(note, n, table, room):
    return Request("build", n, 0, room, table, b"", note)


def fold(note, file, room):
    return Request("fold", 0, 0, room, file, b"", note)


def compare(note, first, second, room):
    return Request("compare", 0, 0, room, first, second, note)


def judge(note, n, table, file, room):
    return Request("judge", n, 0, room, table, file, note)


def listing(note, file, wrapped, room):
    return Request("list", 1 if wrapped else 0, 0, room, file, b"", note)


def oracle_listing(note, stdin, room):
    return Request("oracle", 0, 0, room, stdin, b"", note)


def printout(note, stdin, room):
    return Request("printout", 0, 0, room, stdin, b"", note)


def refused_line(note, number, room):
    return Request("refused", number, 0, room, b"", b"", note)


def frame(request):
    numbers = request.b, request.room, len(request.first), len(request.second)
    header = bytes([OPERATIONS.index(request.op), request.a])
    header += b"".join(number.to_bytes(2, "big") for number in numbers)
    return header + request.first + request.second


# Expected output

def digest(data):
    found = 2166136261
    for byte in data:
        found = (found ^ byte) * 16777619 % 2 ** 32
    return f"{found:08x}"


def bytes_words(data):
    return f"{len(data)} bytes {digest(data)}" if len(data) > 16 else f"x{data.hex()}"


def fill(room):
    return [(i * 37 + 11) % 251 for i in range(room)]


def entry_bytes(entries, width):
    return b"".join((entry % 256 ** width).to_bytes(width, "big") for entry in entries)


# Bytes shown of an entry of the lent slice; every sum of a spectrum fits in two
WIDTH_LENT = {"spectrum": 2, "build": 1, "fold": 1, "compare": 2, "judge": 2, "list": 1, "oracle": 1,
              "printout": 1, "refused": 1}


def request_words(request):
    first, second = bytes_words(request.first), bytes_words(request.second)
    return f"{request.op:8} {request.a} {request.b} {request.room} {first} {second}"


def gate_values(decoded):
    if isinstance(decoded, oracle.Bad):
        return [0, decoded.reason]
    gate, position = decoded.gate, decoded.position
    if isinstance(gate, Inverter):
        return [3, gate.wire, 0, position]
    return [1, *gate, position] if isinstance(gate, Cnot) else [2, *gate, position]


def verdict_values(verdict):
    return [0] if verdict == oracle.SAME else [1, *verdict]


def answer(request):
    """The values answered and the entries written."""
    op, a, b, room, first, second, note = request
    if op == "spectrum":
        written = oracle.spectrum(a, first, room)
        return [len(written)], written
    if op == "check":
        oracle.check_table(a, first)
        return [], []
    if op == "value":
        return [oracle.value(first, b)], []
    if op == "decode":
        return gate_values(oracle.decode(int.from_bytes(first[:2], "big"), a, b, first[2:])), []
    if op == "gate_at":
        return gate_values(oracle.gate_at(first, b)), []
    if op == "read":
        return oracle.read(first, a), []
    if op == "run":
        return oracle.run(first, b), []
    if op == "count":
        return oracle.count(first), []
    if op == "build":
        written = oracle.build(a, first, room)
        return [len(written)], written
    if op == "fold":
        written, before, after = oracle.fold(first, room)
        return [len(written), before, after], written
    if op == "compare":
        verdict, written = oracle.compare(first, second, room)
        return verdict_values(verdict), written
    if op == "judge":
        verdict, written = oracle.judge(a, first, second, room)
        return verdict_values(verdict), written
    if op == "list":
        written = oracle.listing(first, a == 1, room)
        return [len(written)], written
    if op == "oracle":
        written = oracle.oracle_listing(first, room)
        return [len(written)], written
    if op == "printout":
        written = oracle.printout(first, room)
        return [len(written)], written
    if op == "refused":
        written = oracle.refused_line(a, room)
        return [len(written)], written


def expected_line(request):
    try:
        values, written = answer(request)
        words = " ".join(["answers", *map(str, values)])
    except oracle.Refused as refused:
        words = f"refused {refused.number} side {refused.side} position {refused.position} reason {refused.reason}"
        written = []
    line = f"{request_words(request)}: {words}"
    if request.op in WIDTH_LENT:
        lent = fill(request.room)
        assert len(written) <= len(lent)
        lent[:len(written)] = written
        line += f"; {bytes_words(entry_bytes(lent, WIDTH_LENT[request.op]))}"
    return line


def totals(requests):
    for op in OPERATIONS:
        yield f"{op:8} {sum(1 for request in requests if request.op == op)}"
    yield f"{len(requests)} cases compared"


# Tables

def table_of(n, function):
    table = bytearray(oracle.table_length(n))
    for x in range(2 ** n):
        table[x // 8] |= function(x) << x % 8
    return bytes(table)


def random_table(rng, n):
    return table_of(n, lambda x: rng.randrange(2))


def odd_table(rng, n):
    """Yes at an odd number of x, so that no s_k is 0 for n above 1."""
    table = random_table(rng, n)
    return table if sum(oracle.ones(byte) for byte in table) % 2 else with_bit_changed(table, 0)


def with_bit_changed(table, x):
    changed = bytearray(table)
    changed[x // 8] ^= 1 << x % 8
    return bytes(changed)


def named_tables(rng, n):
    last, chosen = 2 ** n - 1, rng.randrange(2 ** n)
    return [
        ("never", table_of(n, lambda x: 0)),
        ("always", table_of(n, lambda x: 1)),
        ("only x 0", table_of(n, lambda x: int(x == 0))),
        (f"only x {chosen}", table_of(n, lambda x: int(x == chosen))),
        ("parity", table_of(n, lambda x: oracle.ones(x) % 2)),
        ("and", table_of(n, lambda x: int(x == last))),
        ("or", table_of(n, lambda x: int(x != 0))),
        ("last variable", table_of(n, lambda x: x >> n - 1)),
        ("random", random_table(rng, n)),
        ("another random", random_table(rng, n)),
    ]


def refused_tables(rng):
    """(note, n, table) for refusals 1, 2, 3 and what lies just inside."""
    cases = [
        ("n 0, one byte", 0, b"\0"), ("n 0, empty table", 0, b""),
        ("n 9, 64 bytes", 9, bytes(64)), ("n 9, empty table", 9, b""),
        ("n 9, one byte with high bits", 9, b"\xff"), ("n 16", 16, bytes(64)),
        ("n 255, one byte", 255, b"\0"), ("n 255, empty table", 255, b""),
    ]
    for n in range(1, 9):
        length = oracle.table_length(n)
        cases.append(("table empty", n, b""))
        if length > 1:
            cases.append(("table one byte short", n, random_table(rng, n)[:-1]))
        cases.append(("table of this length", n, random_table(rng, n)))
        cases.append(("table one byte long", n, random_table(rng, n) + b"\0"))
    cases += [("n 4, the table of n 3", 4, b"\xe8"), ("n 8, the table of n 7", 8, bytes(16)),
              ("n 7, the table of n 8", 7, bytes(32)), ("n 3, the table of n 4", 3, bytes(2))]
    for n in (1, 2):
        for bit in range(8):
            state = "unused" if bit >= 2 ** n else "used"
            cases.append((f"{state} bit {bit}", n, bytes([1 << bit])))
        cases.append(("every bit", n, b"\xff"))
        cases.append(("every used bit", n, bytes([2 ** 2 ** n - 1])))
        cases.append(("highest unused bit among used ones", n, bytes([0x80 | 1])))
    for bit in range(8):
        cases.append((f"no unused bits, bit {bit}", 3, bytes([1 << bit])))
    cases += [("no unused bits, every bit", 3, b"\xff"), ("no unused bits, every bit", 4, b"\xff\xff")]
    cases += [("wrong length before unused bit", 1, b"\x04\x00"), ("wrong length before unused bit", 2, b"\xf0\xf0"),
              ("variables before length", 9, b""), ("variables before length", 0, b"\x04\x04")]
    return cases


# Section spectrum

def spectrum_section(rng):
    for n, byte in ((1, 0x00), (2, 0x08), (2, 0x06), (3, 0xE8)):
        yield spectrum("spectrum of 01", n, bytes([byte]), 2 ** n)
    for n in (1, 2):
        for byte in range(2 ** 2 ** n):
            yield spectrum("every table", n, bytes([byte]), 2 ** n)
    for n in range(1, 9):
        for note, table in named_tables(rng, n):
            yield spectrum(note, n, table, 2 ** n)
        table = random_table(rng, n)
        for note, room in (("room exact", 2 ** n), ("room one more", 2 ** n + 1), ("room larger", 2 ** n + 17),
                           ("room twice", 2 ** (n + 1)), ("room one short", 2 ** n - 1), ("room half", 2 ** (n - 1)),
                           ("no room", 0)):
            yield spectrum(note, n, table, room)
    for note, n, table in refused_tables(rng):
        room = 2 ** n if 1 <= n <= 8 else 4
        yield spectrum(note, n, table, room)
    for note, n, table in (("variables before room", 9, b""), ("variables before room", 0, b"\0"),
                           ("length before room", 3, b""), ("length before room", 8, bytes(31)),
                           ("length with unused bit before room", 1, b"\x04\x04"),
                           ("unused bit before room", 1, b"\x04"), ("unused bit before room", 2, b"\x10"),
                           ("room alone", 1, b"\x03"), ("room alone", 2, b"\x0f")):
        yield spectrum(note, n, table, 0)
        yield spectrum(note, n, table, 1)


# Circuits

def random_angle(rng):
    return rng.choice([rng.randrange(65536), rng.randrange(65536), rng.randrange(1, 8), 65536 - rng.randrange(1, 8),
                       0, 32768, 16384, 49152, 64 * rng.randrange(1024)])


def random_cnot(rng, w):
    return Cnot(*rng.sample(range(w), 2))


def random_gate(rng, w, version):
    if version == 2 and rng.randrange(3) == 0:
        return Inverter(rng.randrange(w))
    return random_cnot(rng, w) if w > 1 and rng.randrange(2) else Phase(rng.randrange(w), random_angle(rng))


def random_gates(rng, w, number, version=1):
    return [random_gate(rng, w, version) for _ in range(number)]


def random_file(rng, w, number):
    return encode(w, random_gates(rng, w, number))


def raw(w, quads, mark=b"PHG", version=1, number=None):
    """A file from four-byte texts, right or wrong."""
    quads = [bytes.fromhex(quad) for quad in quads]
    number = len(quads) if number is None else number
    return mark + version.to_bytes(2, "big") + bytes([w]) + number.to_bytes(2, "big") + b"".join(quads)


BAD_AT_TWO_WIRES = [
    ("kind 0", "00000100"), ("kind 3", "03000100"), ("kind 255", "ff000100"), ("kind 3, angle", "03014000"),
    ("kind 0, all zero", "00000000"), ("kind 129", "81000100"), ("kind 130", "82014000"),
    ("control not below w", "01020100"), ("control 255", "01ff0100"), ("target not below w", "01000200"),
    ("target 255", "0100ff00"), ("phase wire not below w", "02024000"), ("phase wire 255", "02ff4000"),
    ("phase wire not below w, zero angle", "02020000"), ("control equals target 0", "01000000"),
    ("control equals target 1", "01010100"), ("spare byte 1", "01000101"), ("spare byte 255", "010100ff"),
    ("spare byte 128", "01000180"),
]

GOOD_AT_TWO_WIRES = [
    ("cnot 0 to 1", "01000100"), ("cnot 1 to 0", "01010000"), ("zero angle", "02000000"), ("least angle", "02010001"),
    ("angle 256", "02000100"), ("greatest angle", "0201ffff"), ("half turn", "02018000"),
]


def refused_files():
    """(note, file) for refusals 4 to 10 and what lies just inside."""
    one, two = ["02004000"], ["02004000", "01000100"]
    cases = []
    for length in range(13):
        cases.append((f"one gate, first {length} bytes", raw(2, one)[:length]))
    for mark in (b"QHG", b"PIG", b"PHH", b"phg", b"OHG", b"PGG", b"PHF", b"GHP", b"\0\0\0"):
        cases.append((f"mark {mark.hex()}", raw(2, one, mark=mark)))
    for version in (0, 1, 2, 256, 257, 65535):
        cases.append((f"version {version}", raw(2, one, version=version)))
    for w in (0, 1, 2, 9, 10, 11, 12, 128, 255):
        cases.append((f"wires {w}, no gates", raw(w, [])))
        cases.append((f"wires {w}, one gate", raw(w, one)))
    for number in (2048, 2049, 4096, 65535):
        cases.append((f"count {number}, one gate given", raw(2, one, number=number)))
    for note, quads in (("no gates", []), ("one gate", one), ("two gates", two)):
        whole = raw(2, quads)
        cases.append((f"{note}, one byte short", whole[:-1]))
        cases.append((f"{note}, exact", whole))
        cases.append((f"{note}, one byte long", whole + b"\0"))
        cases.append((f"{note}, four bytes long", whole + b"\2\0\0\0"))
    cases.append(("two gates given, count 1", raw(2, two, number=1)))
    cases.append(("one gate given, count 2", raw(2, one, number=2)))
    cases.append(("one gate given, count 256", raw(2, one, number=256)))
    cases.append(("one gate given, count 257", raw(2, one, number=257)))
    for note, quad in BAD_AT_TWO_WIRES:
        cases.append((f"bad gate at 0: {note}", raw(2, [quad])))
        cases.append((f"bad gate at 2: {note}", raw(2, two + [quad] + two)))
    for note, quad in GOOD_AT_TWO_WIRES:
        cases.append((f"good gate: {note}", raw(2, [quad])))
    cases.append(("first bad gate of three", raw(2, two + ["00000000", "01000000", "ff000000"])))
    cases.append(("first bad gate of two, apart", raw(2, two + two + ["01000101"] + two + ["00000000"])))
    cases.append(("every gate bad", raw(2, ["03000000"] * 5)))
    cases.append(("bad gate last", raw(2, two + two + ["02020000"])))
    cases.append(("one wire, cnot", raw(1, ["01000000"])))
    cases.append(("one wire, cnot to wire 1", raw(1, ["01000100"])))
    cases.append(("ten wires, wire 9", raw(10, ["02090001", "01090000", "01000900"])))
    cases.append(("ten wires, wire 10", raw(10, ["02090001", "020a0001"])))
    cases.append(("ten wires, target 10", raw(10, ["01090000", "01000a00"])))
    cases.append(("short before mark", b"QQQ\0\0\0\0"))
    cases.append(("all wrong", raw(0, ["00000000"], mark=b"QHG", version=3, number=2049)))
    cases.append(("all but mark wrong", raw(0, ["00000000"], version=3, number=2049)))
    cases.append(("wires, count, length, gate wrong", raw(0, ["00000000"], number=2049)))
    cases.append(("count, length, gate wrong", raw(2, ["00000000"], number=2049)))
    cases.append(("length, gate wrong", raw(2, ["00000000"], number=2048)))
    cases.append(("gate wrong", raw(2, ["00000000"])))
    cases.append(("mark and length wrong", raw(2, one, mark=b"PHg") + b"\0"))
    cases.append(("version and gate wrong", raw(2, ["00000000"], version=3)))
    cases.append(("wires and length wrong", raw(11, one) + b"\0"))
    return cases


def refusal_samples():
    """One file for each refusal 4 to 10."""
    return [
        ("short", raw(2, [])[:7]), ("empty file", b""), ("mark", raw(2, [], mark=b"PHQ")),
        ("version", raw(2, [], version=3)), ("no wires", raw(0, [])), ("eleven wires", raw(11, [])),
        ("count", raw(2, [], number=2049)), ("one byte short", raw(2, ["02004000"])[:-1]),
        ("one byte long", raw(2, ["02004000"]) + b"\0"), ("gate", raw(2, ["02004000", "01000100", "01010100"])),
        ("second gate bad of two bad", raw(2, ["02004000", "01000102", "00000000"])),
    ]


# Section circuit

def gate_requests(full):
    file = raw(2, ["01000100", "0201ffff", "01010101", "02000000"])
    for position in (0, 1, 2, 3, 4, 5, 65535):
        yield gate_at("of four gates, the third bad", file, position)
    for position in (0, 1023, 2046, 2047, 2048, 65535):
        yield gate_at("of 2,048 gates", full, position)
    for length in (0, 5, 6, 8, 11, 12, 13, 15, 16, 19, 20):
        for position in (0, 1, 2):
            yield gate_at(f"first {length} bytes", file[:length], position)
    for w in (0, 1, 2, 10, 11, 255):
        yield gate_at(f"wires {w}", raw(w, ["01010000"]), 0)
    yield gate_at("mark and count wrong", raw(2, ["02014000"], mark=b"QQQ", number=7), 0)


def circuit_section(rng):
    for kind in range(4):
        for second in range(3):
            for third in range(3):
                for fourth in range(2):
                    yield decode("small values", 1, 2, 7, [kind, second, third, fourth])
    for note, quad in BAD_AT_TWO_WIRES + GOOD_AT_TWO_WIRES:
        yield decode(note, 1, 2, rng.choice([0, 1, 255, 256, 2047, 2048, 65535]), bytes.fromhex(quad))
    for w in (0, 1, 2, 3, 10, 11, 255):
        below, beside = max(w - 1, 0), max(w - 2, 0)
        for four in ([1, below, beside, 0], [1, beside, below, 0], [1, w, 0, 0], [1, 0, w, 0], [1, below, below, 0],
                     [1, below, beside, 1], [2, below, 18, 52], [2, w, 18, 52], [2, 0, 0, 0], [2, 255, 255, 255],
                     [0, 0, 0, 0], [1, 0, 0, 0], [1, 0, 255, 0], [1, 255, 0, 0], [3, 0, 1, 0], [255, 0, 1, 0]):
            yield decode(f"at {w} wires", 1, w, rng.choice([0, 2047, 65535]), four)
    for _ in range(40):
        yield decode("random bytes", 1, rng.choice([2, 5, 10, 255]), rng.randrange(65536),
                     [rng.choice([1, 2, 2, 1, rng.randrange(256)]), rng.randrange(12), rng.randrange(12),
                      rng.choice([0, 0, rng.randrange(256)])])

    for note, file in refused_files():
        yield read(note, file)
    for note, file in refusal_samples():
        yield read(f"side 1: {note}", file, 1)
        yield run(f"in a run: {note}", file, 0)
        yield run(f"before the start is looked at: {note}", file, 65535)
        yield count(f"in a count: {note}", file)
    yield read("side 255: gate", refusal_samples()[-1][1], 255)
    yield read("side 1, good", raw(2, ["01000100"]), 1)

    full = random_file(rng, 10, 2048)
    over = random_file(rng, 10, 2049)
    yield read("2,048 gates", full)
    yield read("2,048 gates, one byte short", full[:-1])
    yield read("2,048 gates, one byte long", full + b"\0")
    yield read("2,049 gates", over)
    yield read("2,049 gates, one byte short", over[:-1])
    yield read("2,049 gates counted, none given", over[:8])
    yield read("2,048 gates counted, none given", full[:8])
    yield read("2,048 gates, last one bad", full[:-4] + b"\1\3\3\0")
    middling = random_file(rng, 5, 300)
    for bad in ({299}, {256}, {255, 256}, {0, 299}, {257, 258, 259}):
        broken = bytearray(middling)
        for position in bad:
            broken[8 + 4 * position] = 3
        yield read(f"300 gates, bad at {sorted(bad)}", bytes(broken))

    for w in range(1, 11):
        file = raw(w, [])
        for start in (0, 2 ** w - 1, 2 ** w, 2 ** w + 1, 65535):
            yield run(f"no gates, {w} wires", file, start)
    for w, number, starts in ((1, 1, 2), (1, 12, 2), (1, 200, 2), (2, 3, 4), (2, 40, 4), (2, 250, 4), (3, 30, 3),
                              (5, 10, 6), (5, 60, 6), (5, 300, 3), (8, 100, 3), (10, 20, 6), (10, 120, 5),
                              (10, 400, 3)):
        file = random_file(rng, w, number)
        chosen = [0, 2 ** w - 1] + rng.sample(range(2 ** w), max(0, starts - 2))
        for start in chosen:
            yield run(f"{number} random gates, {w} wires", file, start)
        if number <= 60:
            for start in (2 ** w, 2 ** w + 1, 65535):
                yield run(f"{number} random gates, {w} wires, start too high", file, start)
        yield count(f"{number} random gates, {w} wires", file)
    for start in (1023, rng.randrange(1, 1023)):
        yield run("2,048 gates, 10 wires", full, start)
    yield run("2,048 gates, 5 wires", random_file(rng, 5, 2048), 31)
    yield run("2,048 half turns and one more unit, 1 wire", encode(1, [Phase(0, 32768)] * 2047 + [Phase(0, 1)]), 1)
    for a, b in ((1, 65535), (65535, 65535), (32768, 32768), (40000, 40000)):
        yield run(f"{a} and {b} wrap", encode(1, [Phase(0, a), Phase(0, b)]), 1)
    yield run("zero bit adds nothing", encode(2, [Phase(0, 5), Phase(1, 7)]), 2)
    yield run("phase after the bit was cleared", encode(2, [Cnot(0, 1), Phase(1, 7)]), 3)
    yield run("phase after the bit was set", encode(2, [Cnot(0, 1), Phase(1, 7)]), 1)
    yield run("swap of two wires", encode(2, [Cnot(0, 1), Cnot(1, 0), Cnot(0, 1), Phase(1, 7)]), 1)

    yield from gate_requests(full)

    yield count("no gates", raw(4, []))
    yield count("zero angles alone", encode(3, [Phase(2, 0)] * 6))
    yield count("zero angles among others",
                encode(3, [Phase(2, 0), Phase(0, 1), Cnot(0, 1), Phase(1, 0), Phase(1, 256)]))
    yield count("cnots alone", encode(3, [Cnot(0, 1), Cnot(1, 2), Cnot(0, 1)]))
    yield count("angles with one zero byte", encode(1, [Phase(0, 256), Phase(0, 1), Phase(0, 0)]))
    yield count("2,048 gates", full)
    yield count("built, n 1, byte 02", oracle.build(1, b"\2"))
    yield count("built, n 8", oracle.build(8, random_table(rng, 8)))


# Section reasons

# Bad at two wires, with the reason that 02 §4 says, written down by hand
KIND, WIRE, EQUAL, SPARE = "kind", "wire", "equal", "spare"
REASONS = {KIND: 1, WIRE: 2, EQUAL: 3, SPARE: 4}

ONE_FAULT = [
    (KIND, "kind 0", "00000100"), (KIND, "kind 3", "03000100"), (KIND, "kind 255", "ff010000"),
    (KIND, "kind 0, an angle", "00014000"), (WIRE, "control w", "01020100"), (WIRE, "control 255", "01ff0000"),
    (WIRE, "target w", "01000200"), (WIRE, "target 255", "0101ff00"), (WIRE, "both wires", "01020300"),
    (WIRE, "phase on wire w", "02020000"), (WIRE, "phase on wire 255", "02ff4000"),
    (EQUAL, "wire 0 twice", "01000000"), (EQUAL, "wire 1 twice", "01010100"),
    (SPARE, "last byte 1", "01000101"), (SPARE, "last byte 128", "01010080"), (SPARE, "last byte 255", "010001ff"),
]

MORE_FAULTS = [
    (KIND, "kind and control", "03020100"), (KIND, "kind and target", "03000200"), (KIND, "kind and equal", "00010100"),
    (KIND, "kind and spare", "03000105"), (WIRE, "wire and equal", "01020200"), (WIRE, "control and spare", "01020105"),
    (WIRE, "target and spare", "01000205"), (EQUAL, "equal and spare", "01010105"),
    (KIND, "kind, wire, equal", "03020200"), (KIND, "kind, wire, spare", "00020105"),
    (KIND, "kind, equal, spare", "ff000001"), (WIRE, "wire, equal, spare", "01020205"), (KIND, "all four", "03020205"),
]

# What is asked of a CNOT only: its second wire, equal wires, the last byte
GOOD_PHASES = [
    ("last byte 1", "02000001"), ("last byte 255", "020140ff"), ("third byte w", "02000200"),
    ("third byte 255", "0201ff00"), ("third byte the wire", "02010100"), ("third byte the wire, last byte 5", "02010105"),
]


def everywhere(note, file):
    """A file, good or bad, on two wires in every operation, at each side."""
    good = raw(2, [])
    yield read(note, file)
    yield read(f"{note}, side 1", file, 1)
    yield run(note, file, 0)
    yield count(note, file)
    yield fold(note, file, 24)
    yield compare(f"{note}, first", file, good, 4)
    yield compare(f"{note}, second", good, file, 4)
    yield judge(note, 1, b"\2", file, 4)
    for wrapped in (False, True):
        yield listing(note, file, wrapped, 60)


def reason_requests(rng, version, reason, note, quad):
    """A bad gate alone in every operation, with the decoder's reason as written down."""
    four = bytes.fromhex(quad)
    assert oracle.decode(version, 2, 0, four) == oracle.Bad(REASONS[reason]), (version, note, quad)
    yield decode(f"{reason}: {note}", version, 2, rng.choice([0, 1, 2047, 65535]), four)
    yield from everywhere(f"{reason}: {note}", raw(2, [quad], version=version))
    yield gate_at(f"{reason}: {note}", raw(2, ["02004000", quad], version=version), 1)


def reasons_section(rng):
    for reason, note, quad in ONE_FAULT + MORE_FAULTS:
        yield from reason_requests(rng, 1, reason, note, quad)
    for note, quad in GOOD_PHASES:
        assert isinstance(oracle.decode(1, 2, 0, bytes.fromhex(quad)), oracle.Held), (note, quad)
        yield decode(f"a good phase: {note}", 1, 2, 5, bytes.fromhex(quad))
        yield read(f"a good phase: {note}", raw(2, [quad]))
    one_each = [next(fault for fault in ONE_FAULT if fault[0] == reason) for reason in REASONS]
    before = ["02004000", "01000100", "0201ffff"]
    for reason, note, quad in one_each:
        others = [other for name, _, other in one_each if name != reason]
        for behind in [[other] for other in others] + [others, before + others]:
            yield from everywhere(f"{reason} before {len(behind)} others", raw(2, before + [quad] + behind))
        yield read(f"{reason} in front of 2,047 others", raw(2, [quad] + others[:1] * 2047))
        yield read(f"{reason} behind 2,047 good ones", raw(2, before[:1] * 2047 + [quad]))
        for name, _, other in one_each:
            yield compare(f"{reason} first, {name} second", raw(2, [quad]), raw(2, before + [other]), 4)
    for length in range(8, 12):
        yield gate_at(f"first {length} bytes: no kind", raw(2, ["01010100"])[:length], 0)


# Section build

def build_section(rng):
    for n, byte in ((1, 2), (2, 8)):
        yield build("built of 01", n, bytes([byte]), 2 ** (n + 4))
    for n in (1, 2):
        for byte in range(2 ** 2 ** n):
            yield build("every table", n, bytes([byte]), 2 ** (n + 4))
    for n in range(3, 9):
        for note, table in named_tables(rng, n):
            yield build(note, n, table, 2 ** (n + 4))
    yield build("majority", 3, b"\xe8", 128)
    for n in range(1, 9):
        table, length = random_table(rng, n), 2 ** (n + 4)
        for note, room in (("room exact", length), ("room one more", length + 1), ("room larger", length + 29),
                           ("room one short", length - 1), ("room four short", length - 4), ("room 8", 8),
                           ("no room", 0)):
            yield build(note, n, table, room)
    for room in (31, 32, 33, 40, 64):
        yield build("room of 01", 1, b"\2", room)
    for note, n, table in refused_tables(rng):
        room = 2 ** (n + 4) if 1 <= n <= 8 else 16
        yield build(note, n, table, room)
    yield build("n 9 with room for it", 9, bytes(64), 8192)
    for note, n, table in (("variables before room", 9, b""), ("variables before room", 0, b"\0"),
                           ("length before room", 3, b""), ("length with unused bit before room", 1, b"\x04\x04"),
                           ("unused bit before room", 1, b"\x04"), ("unused bit before room", 2, b"\x10")):
        yield build(note, n, table, 0)
        yield build(note, n, table, 15)


# Section fold

def fold_rooms(note, w, gates, more=(0, 1, 13), fewer=(1,), version=1):
    file = encode(w, gates, version)
    length = len(oracle.fold(file)[0])
    for extra in more:
        yield fold(f"{note}, room {extra} more", file, length + extra)
    for short in fewer:
        yield fold(f"{note}, room {short} short", file, length - short)


SWAP = [Cnot(0, 1), Cnot(1, 0), Cnot(0, 1)]

SMALL_FOLDS = [
    ("1 then 65,535", 1, [Phase(0, 1), Phase(0, 65535)]),
    ("14, cnot, 7, cnot", 2, [Phase(1, 5), Cnot(0, 1), Phase(1, 7), Cnot(0, 1), Phase(1, 9)]),
    ("no gates", 1, []),
    ("no gates, ten wires", 10, []),
    ("cnots alone", 3, [Cnot(0, 1), Cnot(0, 1), Cnot(1, 2), Cnot(2, 0)]),
    ("one zero angle", 1, [Phase(0, 0)]),
    ("zero angles alone", 3, [Phase(2, 0), Phase(0, 0), Phase(1, 0), Phase(2, 0)]),
    ("zero angles and cnots", 2, [Phase(1, 0), Cnot(0, 1), Phase(1, 0), Cnot(0, 1), Phase(1, 0)]),
    ("smallest angle", 1, [Phase(0, 1)]),
    ("first of the group is zero", 2, [Phase(0, 0), Phase(1, 4), Phase(0, 3)]),
    ("three that make a full turn", 1, [Phase(0, 30000), Phase(0, 30000), Phase(0, 5536)]),
    ("three that pass a full turn", 1, [Phase(0, 30000), Phase(0, 30000), Phase(0, 5537)]),
    ("two that cancel, the third stays", 1, [Phase(0, 1), Phase(0, 65535), Phase(0, 9)]),
    ("groups that cross", 3, [Phase(0, 1), Phase(1, 10), Phase(0, 2), Phase(2, 100), Phase(1, 20), Phase(2, 200)]),
    ("second group alone has two", 2, [Phase(0, 1), Phase(1, 10), Phase(1, 20)]),
    ("first group goes, second folds", 2, [Phase(0, 7), Phase(0, 65529), Phase(1, 10), Phase(1, 20)]),
    ("same wire, other mask", 2, [Phase(1, 5), Cnot(0, 1), Phase(1, 7)]),
    ("same mask, other wire", 2, [Phase(0, 5)] + SWAP + [Phase(1, 7), Phase(0, 100)]),
    ("same mask, other wire, cancels", 2, [Phase(0, 5)] + SWAP + [Phase(1, 65531)]),
    ("parity from both sides", 2, [Cnot(0, 1), Phase(1, 5), Cnot(0, 1), Cnot(1, 0), Phase(0, 6), Cnot(1, 0)]),
    ("half turns with different parities", 2,
     [Phase(0, 32768), Phase(1, 32768), Cnot(0, 1), Phase(1, 32768), Cnot(0, 1)]),
    ("equal sums, other masks", 3, [Phase(0, 5), Phase(1, 5), Phase(2, 5)]),
    ("groups that sum to a full turn together only", 2, [Phase(0, 1), Phase(1, 65535)]),
    ("three wires on one parity", 3,
     [Cnot(0, 2), Cnot(1, 2), Phase(2, 3), Cnot(0, 1), Cnot(1, 2), Cnot(2, 1), Cnot(2, 1), Phase(1, 4), Phase(2, 8),
      Cnot(1, 2), Phase(2, 16)]),
]


def fold_section(rng):
    for note, w, gates in SMALL_FOLDS:
        yield from fold_rooms(note, w, gates, fewer=(1, 4, 8))
        yield fold(f"{note}, room of the file", encode(w, gates), len(encode(w, gates)))
    for note, n, table in [("built, n 1, byte 02", 1, b"\2"), ("built, n 2, byte 08", 2, b"\x08")]:
        yield from fold_rooms(note, n + 1, oracle.construction(n, table), fewer=(1, 4))
    for n in range(1, 9):
        chosen = named_tables(rng, n)
        for note, table in chosen if n < 6 else rng.sample(chosen, 2):
            gates = oracle.construction(n, table)
            yield from fold_rooms(f"built, n {n}, {note}", n + 1, gates, more=(0,), fewer=())
        gates = oracle.construction(n, random_table(rng, n))
        yield from fold_rooms(f"built, n {n}, folded already", n + 1, oracle.fold_gates(n + 1, gates), more=(0,),
                              fewer=(1,) if n < 8 else ())
    for w, number in ((1, 2), (1, 9), (1, 100), (2, 8), (2, 40), (2, 200), (3, 30), (3, 150), (4, 60), (5, 20), (5, 80),
                      (5, 300), (6, 200), (8, 200), (10, 15), (10, 60), (10, 250)):
        gates = random_gates(rng, w, number)
        yield from fold_rooms(f"{number} random gates, {w} wires", w, gates)
        yield from fold_rooms(f"{number} random gates, {w} wires, folded already", w, oracle.fold_gates(w, gates),
                              more=(0,))
        yield fold("room of the file", encode(w, gates), 8 + 4 * number)
    yield from fold_rooms("2,048 gates, 1 wire", 1, random_gates(rng, 1, 2048), more=(0,), fewer=())
    yield from fold_rooms("2,048 gates, 5 wires", 5, random_gates(rng, 5, 2048), more=(0,), fewer=())
    yield from fold_rooms("2,048 gates, 10 wires", 10, random_gates(rng, 10, 2048), more=(3,))
    for note, file in refusal_samples():
        yield fold(note, file, 40)
        yield fold(f"{note}, no room", file, 0)


# Section scores

# Each angle's score as 02 §2 has it, written down by hand
ANGLE_SCORES = [
    (0, 0), (1, 1), (65535, 1), (16384, 0), (16383, 1), (16385, 1), (32768, 0), (32767, 1), (32769, 1),
    (49152, 0), (49151, 1), (49153, 1), (2, 1), (64, 1), (128, 1), (192, 1), (255, 1), (256, 1), (4096, 1), (8192, 1),
    (16448, 1), (16640, 1), (24576, 1), (40960, 1), (57344, 1), (65280, 1),
]

# The angles of a group, and the scores before and after folding, by hand
FREE_TO_FREE = [
    ([16384, 16384], 0, 0), ([16384, 32768], 0, 0), ([49152, 49152], 0, 0), ([0, 16384], 0, 0), ([32768, 0], 0, 0),
    ([16384] * 3, 0, 0), ([49152, 0, 32768], 0, 0), ([16384] * 5, 0, 0),
]
FREE_TO_NOTHING = [
    ([0, 0], 0, 0), ([32768, 32768], 0, 0), ([16384, 49152], 0, 0), ([16384] * 4, 0, 0), ([32768, 16384, 16384], 0, 0),
]
SCORED_TO_FREE = [
    ([8192, 8192], 2, 0), ([1, 16383], 2, 0), ([16385, 16383], 2, 0), ([24576, 24576], 2, 0), ([65535, 16385], 2, 0),
    ([4096] * 4, 4, 0), ([10000, 6384], 2, 0), ([1, 2, 16381], 3, 0), ([57344, 8192, 16384], 2, 0),
]
SCORED_TO_NOTHING = [
    ([1, 65535], 2, 0), ([8192, 57344], 2, 0), ([8192] * 8, 8, 0), ([16383, 49153], 2, 0), ([1, 16383, 49152], 2, 0),
]
TO_SCORED = [
    ([16384, 1], 1, 1), ([65535, 49152], 1, 1), ([16384, 65535], 1, 1), ([1, 16384, 32768], 1, 1), ([1, 1], 2, 1),
    ([8192, 1], 2, 1), ([8192, 4096], 2, 1), ([16384, 16384, 1], 1, 1), ([0, 1], 1, 1), ([8192] * 3, 3, 1),
]
SCORED_GROUPS = FREE_TO_FREE + FREE_TO_NOTHING + SCORED_TO_FREE + SCORED_TO_NOTHING + TO_SCORED


def one_group(angles):
    """The angles at one mask, held by two wires in turn."""
    gates = []
    for i, angle in enumerate(angles):
        gates += SWAP * (i > 0) + [Phase(i % 2, angle)]
    return gates


def count_and_fold(note, w, gates, version=1):
    file = encode(w, gates, version)
    yield count(note, file)
    yield fold(note, file, len(file))


def scores_section(rng):
    for angle, score in ANGLE_SCORES:
        assert oracle.score([Phase(0, angle)]) == score, angle
        yield from count_and_fold(f"angle {angle}: score {score}", 1, [Phase(0, angle)])
    for free in (16384, 32768, 49152, 65536):
        around = [Phase(0, (free - 1024 + step) % 65536) for step in range(2048)]
        assert oracle.score(around) == 2047
        yield count(f"2,048 angles around {free % 65536}: score 2,047", encode(1, around))
    for angles, before, after in SCORED_GROUPS:
        note = f"{angles}: score {before} to {after}"
        for w, gates in ((1, [Phase(0, angle) for angle in angles]), (2, one_group(angles))):
            assert oracle.fold(encode(w, gates))[1:] == (before, after), note
            yield from count_and_fold(note, w, gates)
    for first, before, after in SCORED_GROUPS:
        second, more_before, more_after = rng.choice(SCORED_GROUPS)
        apart = [Phase(0, angle) for angle in first] + [Phase(1, angle) for angle in second]
        rng.shuffle(apart)
        assert oracle.fold(encode(2, apart))[1:] == (before + more_before, after + more_after), (first, second)
        yield from count_and_fold(f"{first} and {second}, mixed", 2, apart)
    near = [angle for angle, score in ANGLE_SCORES[:12]]
    for first in near:
        for second in near:
            yield fold(f"{first} and {second}", encode(1, [Phase(0, first), Phase(0, second)]), 16)
    for n in range(1, 9):
        chosen = named_tables(rng, n)
        for note, table in chosen if n < 6 else rng.sample(chosen, 4):
            built = oracle.construction(n, table)
            # a table that is a parity, or its opposite, has one coefficient alone, and that one's angles are free
            if n == 1 or note in ("never", "always", "parity", "last variable"):
                assert oracle.score(built) == 0, (n, note)
            yield from count_and_fold(f"built, n {n}, {note}", n + 1, built)
    for w in range(1, 6):
        for unit in (16384, 8192, 4096):
            gates = [Phase(gate.wire, unit * rng.randrange(65536 // unit)) if isinstance(gate, Phase) else gate
                     for gate in random_gates(rng, w, 40)]
            yield from count_and_fold(f"multiples of {unit}, {w} wires", w, gates)


# Section verdict

def all_parities(wires, angle):
    """A phase on the parity of each non-empty set of these wires; every wire ends as it starts."""
    gates = []
    for chosen in range(1, 2 ** len(wires)):
        members = [wire for i, wire in enumerate(wires) if chosen >> i & 1]
        gather = [Cnot(member, members[-1]) for member in members[:-1]]
        gates += gather + [Phase(members[-1], angle)] + gather
    return gates


def hidden_nothing(wires):
    """Different folded parities, phase 0 everywhere: a = 32,768 for two wires, 16,384 for three, and so on."""
    return all_parities(wires, 2 ** (17 - len(wires)))


def last_state_only(w, unit):
    """Phase unit * 2^(w-1) at state 2^w - 1, and 0 at all others."""
    gates = []
    for i in range(w):
        for k, v in enumerate(oracle.gray_words(i)):
            gates.append(Phase(i, (-1) ** oracle.ones(v) * unit % 65536))
            if i > 0:
                gates.append(Cnot(oracle.flipped_bit(i, k), i))
    return gates


def wires_of(gate):
    return {gate.control, gate.target} if isinstance(gate, Cnot) else {gate.wire}


def disguised(rng, w, gates):
    """Other gates that do the same."""
    out = []
    for gate in gates:
        choice = rng.randrange(5)
        if choice == 0 and w > 1:
            out += [random_cnot(rng, w)] * 2
        if choice == 1:
            out.append(Phase(rng.randrange(w), 0))
        if choice == 2 and isinstance(gate, Phase):
            part = rng.randrange(65536)
            out += [Phase(gate.wire, part), Phase(gate.wire, (gate.angle - part) % 65536)]
        else:
            out.append(gate)
    for i in range(len(out) - 1):
        if not wires_of(out[i]) & wires_of(out[i + 1]) and rng.randrange(2):
            out[i], out[i + 1] = out[i + 1], out[i]
    return out


def inserted(rng, gates, block):
    place = rng.randrange(len(gates) + 1)
    return gates[:place] + block + gates[place:]


def with_angle_moved(gates, position, step):
    moved = list(gates)
    moved[position] = Phase(gates[position].wire, (gates[position].angle + step) % 65536)
    return moved


def verdict_rooms(note, w, first, second, rooms=(0, 1, 19, -1), versions=(1, 1)):
    first, second = encode(w, first, versions[0]), encode(w, second, versions[1])
    for extra in rooms:
        yield compare(f"{note}, room 2^w {extra:+}", first, second, 2 ** w + extra)


def pairs(rng, w, number):
    gates = random_gates(rng, w, number - 1) + [Phase(rng.randrange(w), random_angle(rng))]
    phases = [p for p, gate in enumerate(gates) if isinstance(gate, Phase)]
    yield "itself", gates, gates
    yield "disguised", gates, disguised(rng, w, gates)
    yield "folded second", gates, oracle.fold_gates(w, gates)
    yield "folded first", oracle.fold_gates(w, gates), gates
    yield "one angle up by 1", gates, with_angle_moved(gates, rng.choice(phases), 1)
    yield "one angle down by 1", gates, with_angle_moved(gates, rng.choice(phases), -1)
    yield "last angle up by 1", disguised(rng, w, gates), with_angle_moved(gates, phases[-1], 1)
    yield "one angle a half turn on", gates, with_angle_moved(gates, rng.choice(phases), 32768)
    yield "the least phase on the last wire", gates, [Phase(w - 1, 1)] + gates
    if w < 7:
        yield "last state only, half turn", gates, last_state_only(w, 2 ** (16 - w)) + gates
    if w < 6:
        yield "last state only, small", last_state_only(w, 3) + gates, disguised(rng, w, gates)
    if w > 1:
        yield "hidden half turns", gates, inserted(rng, gates, hidden_nothing(rng.sample(range(w), 2)))
        yield "hidden half turns first", inserted(rng, gates, hidden_nothing(rng.sample(range(w), 2))), gates
        yield "quarter turns where half turns would hide", gates, \
            inserted(rng, gates, all_parities(rng.sample(range(w), 2), 16384))
        yield "ends alone", gates, gates + [random_cnot(rng, w)]
        yield "ends alone, high control", gates + [Cnot(w - 1, 0)], gates
        yield "ends and phase", gates, gates + [random_cnot(rng, w), Phase(rng.randrange(w), 1)]
        yield "other random gates", gates, random_gates(rng, w, number)
    if w > 2:
        yield "hidden quarter turns", gates, inserted(rng, gates, hidden_nothing(rng.sample(range(w), 3)))
    if w > 3:
        yield "hidden eighth turns", gates, inserted(rng, gates, hidden_nothing(rng.sample(range(w), 4)))
        yield "twice hidden", inserted(rng, gates, hidden_nothing(rng.sample(range(w), 2))), \
            inserted(rng, gates, hidden_nothing(rng.sample(range(w), 3)))


def verdict_section(rng):
    built = oracle.construction(1, b"\2")
    empty = []
    for note, first in (("cnot 0 to 1", [Cnot(0, 1)]), ("cnot 1 to 0", [Cnot(1, 0)]), ("built, n 1, byte 02", built),
                        ("a 32,768", all_parities([0, 1], 32768)), ("a 16,384", all_parities([0, 1], 16384)),
                        ("a 1", all_parities([0, 1], 1)), ("a 49,152", all_parities([0, 1], 49152))):
        yield from verdict_rooms(f"{note} against nothing", 2, first, empty)
        yield from verdict_rooms(f"nothing against {note}", 2, empty, first, rooms=(0,))
    yield from verdict_rooms("swap against the other swap", 2, SWAP, [Cnot(1, 0), Cnot(0, 1), Cnot(1, 0)])
    yield from verdict_rooms("phase at 4, ends at 1", 3, [Phase(2, 9), Cnot(0, 1)], empty)
    yield from verdict_rooms("phase at 1, ends at 4", 3, [Phase(0, 9), Cnot(2, 1)], empty)
    yield from verdict_rooms("phase and ends at 1", 3, [Phase(0, 9), Cnot(0, 1)], empty)
    yield from verdict_rooms("full turn in halves", 1, [Phase(0, 32768)] * 2, empty)
    yield from verdict_rooms("negative coefficient", 2, [Cnot(0, 1), Phase(1, 1), Cnot(0, 1)], empty)
    for w in range(1, 11):
        yield from verdict_rooms(f"nothing against nothing, {w} wires", w, empty, empty, rooms=(0, -1, 1))
        yield compare("no room", encode(w, empty), encode(w, empty), 0)
        yield from verdict_rooms(f"least phase on the last of {w}", w, empty, [Phase(w - 1, 1)], rooms=(0,))
        if w > 1:
            yield from verdict_rooms(f"cnot from the last of {w}", w, [Cnot(w - 1, 0)], empty, rooms=(0,))
        if w < 9:
            yield from verdict_rooms(f"last state of {w} wires only", w, last_state_only(w, 1), empty, rooms=(0,))
    for w in range(1, 11):
        for number in (4, 14) if w < 5 else (14,):
            for i, (note, first, second) in enumerate(pairs(rng, w, number)):
                rooms = (0, 7, -1) if i % 6 == 0 else (0,) if i % 3 else (rng.randrange(1, 20),)
                yield from verdict_rooms(f"{w} wires, {note}", w, first, second, rooms=rooms)

    gates = random_gates(rng, 10, 600)
    yield from verdict_rooms("10 wires, 600 gates, disguised", 10, gates, disguised(rng, 10, gates), rooms=(0,))
    yield from verdict_rooms("10 wires, 2,045 gates, last state only", 10, last_state_only(10, 1), empty, rooms=(5,))
    gates = random_gates(rng, 10, 2047) + [Phase(9, 5)]
    moved = with_angle_moved(gates, 2047, 1)
    yield from verdict_rooms("10 wires, 2,048 gates, last angle up by 1", 10, gates, moved, rooms=(0,))

    good = raw(2, ["01000100", "02010001"])
    for note, file in refusal_samples():
        yield compare(f"first: {note}", file, good, 4)
        yield compare(f"second: {note}", good, file, 4)
        yield compare(f"both: {note}", file, file, 4)
        yield compare(f"first: {note}, second's gate bad", file, raw(2, ["00000000"]), 4)
        yield compare(f"first's gate bad, second: {note}", raw(2, ["02000000", "00000000"]), file, 4)
        yield compare(f"second before wire counts: {note}", raw(3, []), file, 8)
        yield compare(f"second before room: {note}", good, file, 0)
    for first_w, second_w in ((1, 2), (2, 1), (2, 3), (9, 10), (10, 9), (1, 10)):
        for room in (2 ** max(first_w, second_w), 0):
            yield compare(f"wires {first_w} and {second_w}", raw(first_w, []), raw(second_w, []), room)

    yield from judge_requests(rng, good)


def small_angles_lost(gates):
    angles = [gate.angle for gate in gates if isinstance(gate, Phase) and gate.angle != 0]
    least = min(min(angle, 65536 - angle) for angle in angles)
    return [gate for gate in gates if isinstance(gate, Cnot) or gate.angle not in (0, least, 65536 - least)]


def judge_requests(rng, good):
    for n in (1, 2):
        for byte in range(2 ** 2 ** n):
            table = bytes([byte])
            yield judge("built", n, table, oracle.build(n, table), 2 ** (n + 1))
    for byte in range(16):
        yield judge("built, n 2, byte 08, against every table", 2, bytes([byte]), oracle.build(2, b"\x08"), 8)
    for n in range(1, 9):
        size = 2 ** (n + 1)
        tables = named_tables(rng, n)
        for name, table in tables if n < 4 else tables[-2:] if n < 6 else tables[-1:]:
            plain = oracle.build(n, table)
            folded, before, after = oracle.fold(plain)
            yield judge(f"built, n {n}, {name}", n, table, plain, size)
            yield judge(f"folded, n {n}, {name}", n, table, folded, size + rng.randrange(3))
            for x in sorted({0, 2 ** n - 1, rng.randrange(2 ** n)}) if n < 7 else [2 ** n - 1]:
                yield judge(f"folded, n {n}, {name}, x {x} changed", n, with_bit_changed(table, x), folded, size)
        table = odd_table(rng, n)
        gates = oracle.construction(n, table)
        if n < 5 or n == 8:
            yield judge(f"small angles lost, n {n}", n, table, encode(n + 1, small_angles_lost(gates)), size)
        if n < 5:
            yield judge(f"disguised, n {n}", n, table, encode(n + 1, disguised(rng, n + 1, gates)), size)
            hidden = inserted(rng, gates, hidden_nothing(rng.sample(range(n + 1), 2)))
            yield judge(f"hidden half turns, n {n}", n, table, encode(n + 1, hidden), size)
            yield judge(f"first quarter turn left out, n {n}", n, table, encode(n + 1, gates[1:]), size)
            yield judge(f"one cnot too many, n {n}", n, table, encode(n + 1, gates + [Cnot(0, n)]), size)
            yield judge(f"one angle up by 1, n {n}", n, table, encode(n + 1, with_angle_moved(gates, 0, 1)), size)
            yield judge(f"one short, n {n}", n, table, encode(n + 1, gates), size - 1)
            yield judge(f"longer, n {n}", n, table, encode(n + 1, gates), size + 21)
            yield judge(f"random gates, n {n}", n, table, random_file(rng, n + 1, 30), size)
        yield judge(f"nothing, never, n {n}", n, table_of(n, lambda x: 0), raw(n + 1, []), size)
        yield judge(f"nothing, and, n {n}", n, table_of(n, lambda x: x // (2 ** n - 1)), raw(n + 1, []), size)
        yield judge(f"nothing, random, n {n}", n, random_table(rng, n), raw(n + 1, []), size)
        yield judge(f"half turn, always, n {n}", n, table_of(n, lambda x: 1), encode(n + 1, [Phase(n, 32768)]), size)
        yield judge(f"half turn on wire 0, never, n {n}", n, table_of(n, lambda x: 0),
                    encode(n + 1, [Phase(0, 32768)]), size)
        yield judge(f"hand made, first variable, n {n}", n, table_of(n, lambda x: x & 1),
                    encode(n + 1, [Phase(0, 16384), Cnot(0, n), Phase(n, 49152), Cnot(0, n), Phase(n, 16384)]), size)
        for w in sorted({1, n, n + 1, min(n + 2, 10), 10}):
            for room in (2 ** w, 2 ** w - 1):
                yield judge(f"n {n}, {w} wires", n, table_of(n, lambda x: 0), raw(w, []), room)
    for note, file in refusal_samples():
        yield judge(note, 1, b"\2", file, 4)
        yield judge(f"{note}, before wire counts", 2, b"\x08", file, 8)
        yield judge(f"{note}, before room", 1, b"\2", file, 0)
        yield judge(f"variables before {note}", 9, b"", file, 4)
        yield judge(f"table length before {note}", 1, b"", file, 4)
        yield judge(f"unused bit before {note}", 1, b"\4", file, 4)
    for note, n, table in refused_tables(rng):
        yield judge(note, n, table, good if n == 1 else raw(min(n + 1, 10), []), 2 ** min(n + 1, 10))
    yield judge("variables 9 and ten wires", 9, bytes(64), raw(10, []), 1024)
    yield judge("wire counts before room", 1, b"\2", raw(3, []), 0)
    yield judge("room alone", 1, b"\2", raw(2, []), 0)


# Section listing

def listing_rooms(note, w, gates, rooms=(0, 1, 23, -1), version=1):
    file = encode(w, gates, version)
    for wrapped in (False, True):
        length = len(oracle.listing_text(w, gates, wrapped))
        for extra in rooms:
            yield listing(f"{note}, room {extra:+}", file, wrapped, length + extra)


def listing_section(rng):
    for w in range(1, 11):
        yield from listing_rooms(f"no gates, {w} wires", w, [])
        for wrapped in (False, True):
            for room in (0, 1, 16, 17):
                yield listing("little room", raw(w, []), wrapped, room)
    for power in range(16):
        for odd in sorted({1, 3 if power < 15 else 1, 2 ** (16 - power) - 1, rng.randrange(2 ** (15 - power)) * 2 + 1}):
            angle = odd * 2 ** power
            yield from listing_rooms(f"angle {angle}", 1, [Phase(0, angle)], rooms=(0,))
    for angle in (0, 1, 9, 10, 99, 101, 999, 1001, 9999, 10001, 65535, 32767, 32769, 16384, 49152, 32768, 40960):
        yield from listing_rooms(f"angle {angle}", 10, [Phase(9, angle)])
    for gates in ([Cnot(0, 9)], [Cnot(9, 0)], [Cnot(4, 5)], [Cnot(0, 1), Cnot(1, 0)]):
        yield from listing_rooms("cnots", 10, gates)
    yield from listing_rooms("every wire and angle power", 10, [Phase(i % 10, 2 ** i) for i in range(16)])
    yield from listing_rooms("zero angles", 3, [Phase(2, 0), Phase(0, 0), Cnot(0, 1)])
    yield from listing_rooms("built, n 1, byte 02", 2, oracle.construction(1, b"\2"))
    yield from listing_rooms("folded, n 1, byte 02", 2, oracle.fold_gates(2, oracle.construction(1, b"\2")))
    yield from listing_rooms("folded, n 2, byte 08", 3, oracle.fold_gates(3, oracle.construction(2, b"\x08")))
    for n in range(3, 9):
        gates = oracle.fold_gates(n + 1, oracle.construction(n, random_table(rng, n)))
        yield from listing_rooms(f"folded, n {n}", n + 1, gates, rooms=(0, 1, -1) if n < 7 else (0,))
    for w, number in ((1, 3), (1, 40), (2, 20), (3, 60), (5, 50), (7, 90), (9, 30), (10, 12), (10, 150), (10, 500)):
        yield from listing_rooms(f"{number} random gates, {w} wires", w, random_gates(rng, w, number))
    longest = encode(10, [Phase(9, 65535 - 2 * i) for i in range(2048)])
    length = len(oracle.listing(longest, True))
    yield listing("2,048 long lines, room exact", longest, True, length)
    yield listing("2,048 long lines, room one short", longest, True, length - 1)
    yield listing("2,048 long lines, all the room there is", longest, False, 65535)
    mixed = random_file(rng, 10, 2048)
    yield listing("2,048 random gates, room exact", mixed, False, len(oracle.listing(mixed, False)))
    yield listing("2,048 random gates, room larger", mixed, True,
                  len(oracle.listing_text(10, oracle.parse(mixed).gates, True)) + 100)
    for note, file in refusal_samples():
        for wrapped in (False, True):
            for room in (0, 60):
                yield listing(note, file, wrapped, room)
    for note, file in refused_files():
        yield listing(note, file, rng.randrange(2) == 1, 100)


# Section table

def table_section(rng):
    for note, n, table in refused_tables(rng):
        yield check(note, n, table)
    for n in range(10):
        for length in (0, 1, 2, 4, 8, 16, 31, 32, 33, 64):
            yield check(f"n {n}, {length} bytes", n, bytes(length))
    for n in (1, 2):
        for byte in range(256):
            yield check("every byte", n, bytes([byte]))
    for n in range(1, 9):
        table = random_table(rng, n)
        length = 8 * len(table)
        for x in sorted({0, 1, 2 ** n - 1, 2 ** n, length - 1, *rng.sample(range(length), 6)}):
            yield value(f"n {n}", table, x)
        for x in (length, length + 1, length + 7, 65535):
            yield value(f"n {n}, past the end", table, x)
    for place in range(8):
        for x in range(16):
            yield value("one bit of two bytes", bytes([1 << place, 0x80 >> place]), x)
    for x in (0, 7, 8, 65535):
        yield value("empty table", b"", x)


# Section oracle

def oracle_rooms(note, n, table, rooms=(0, 1, 21, -1)):
    stdin = bytes([n]) + table
    length = len(oracle.oracle_listing(stdin))
    for extra in rooms:
        yield oracle_listing(f"{note}, room {extra:+}", stdin, length + extra)


def oracle_section(rng):
    for n in (1, 2):
        for byte in range(2 ** 2 ** n):
            yield from oracle_rooms("every table", n, bytes([byte]))
    for n in range(3, 9):
        tables = named_tables(rng, n)
        for note, table in tables if n < 5 else tables[-4:] if n < 7 else tables[-1:]:
            yield from oracle_rooms(f"n {n}, {note}", n, table, rooms=(0, -1) if n < 8 else (0, 1, -1))
    for room in (0, 1, 35, 36, 100, 65535):
        yield oracle_listing("empty input", b"", room)
    for note, n, table in refused_tables(rng):
        length = 60000 if n in range(1, 9) else 100
        yield oracle_listing(note, bytes([n]) + table, length)
        yield oracle_listing(f"{note}, no room", bytes([n]) + table, 0)


# Section printout

def printout_rooms(note, stdin, rooms=(0, -1)):
    length = len(oracle.printout(stdin))
    for extra in rooms:
        yield printout(f"{note}, room {extra:+}", stdin, length + extra)


def printout_section(rng):
    yield from printout_rooms("the listing's example", b"\1\2")
    yield from printout_rooms("an empty input is refused 1", b"", rooms=(0, 1, 21, -1, -9, -10))
    for byte in range(4):
        yield from printout_rooms("every table", bytes([1, byte]), rooms=(0, 1, 21, -1))
    for n in range(2, 9):
        yield from printout_rooms(f"n {n}, random", bytes([n]) + random_table(rng, n), rooms=(0, 1, -1))
    for note, n, table in refused_tables(rng):
        yield from printout_rooms(note, bytes([n]) + table)
    for n in (0, 1, 3, 7, 8, 9, 255):
        for length in (33, 34, 35, 100, 8300):
            yield from printout_rooms(f"n {n} in {length} bytes", bytes([n]) + bytes(length - 1))
    for stdin in (b"", b"\1\2", b"\1\4", b"\2", b"\x09"):
        yield printout("no room", stdin, 0)
        yield printout("room for each", stdin, 65535)
    for number in (*range(21), 99, 100, 101, 199, 200, 255):
        for room in range(9, 13):
            yield refused_line(f"room {room}", number, room)


# Section inverters

X = Inverter(0)


def turn(wire, angle):
    """Every start turned by the angle, and ended as it starts."""
    return [Phase(wire, angle), Inverter(wire)] * 2


def state_0_only(w, unit):
    """Phase unit * 2^(w-1) at state 0, and 0 at all others."""
    flips = [Inverter(wire) for wire in range(w)]
    return flips + last_state_only(w, unit) + flips


def inverted(rng, w, gates):
    """Other gates that do the same: inverters in pairs and around gates, and the turns that these make turned back."""
    out, owed = [], 0
    for gate in gates:
        choice = rng.randrange(4)
        if choice == 0:
            out += [Inverter(rng.randrange(w))] * 2
        if choice == 1 and isinstance(gate, Cnot):
            out += [Inverter(gate.control), gate, Inverter(gate.control), Inverter(gate.target)]
        elif choice == 1 and isinstance(gate, Phase):
            out += [Inverter(gate.wire), Phase(gate.wire, -gate.angle % 65536), Inverter(gate.wire)]
            owed += gate.angle
        else:
            out.append(gate)
    return inserted(rng, out, turn(rng.randrange(w), owed % 65536))


# The ends and the phases from each start, and the entries against the empty circuit, written down by hand
ONE_WIRE = [
    ("one inverter", [X], [1, 0], [0, 0], [0, 0]),
    ("two", [X, X], [0, 1], [0, 0], [0, 0]),
    ("three", [X, X, X], [1, 0], [0, 0], [0, 0]),
    ("one before a phase", [X, Phase(0, 5)], [1, 0], [5, 0], [5, 65531]),
    ("one behind a phase", [Phase(0, 5), X], [1, 0], [0, 5], [0, 5]),
    ("two around a phase", [X, Phase(0, 5), X], [0, 1], [5, 0], [5, 65531]),
    ("two around a half turn", [X, Phase(0, 32768), X], [0, 1], [32768, 0], [32768, 32768]),
    ("two around the greatest angle", [X, Phase(0, 65535), X], [0, 1], [65535, 0], [65535, 1]),
    ("two around a zero angle", [X, Phase(0, 0), X], [0, 1], [0, 0], [0, 0]),
    ("every start turned", [Phase(0, 5), X, Phase(0, 5), X], [0, 1], [5, 5], [5, 0]),
    ("every start turned by a half", turn(0, 32768), [0, 1], [32768, 32768], [32768, 0]),
    ("every start turned and turned back", turn(0, 5) + turn(0, 65531), [0, 1], [0, 0], [0, 0]),
    ("constants that wrap", turn(0, 40000) + turn(0, 40000), [0, 1], [14464, 14464], [14464, 0]),
    ("opposites on the two flips", [Phase(0, 5), X, Phase(0, 65531), X], [0, 1], [65531, 5], [65531, 10]),
]
TWO_WIRES = [
    ("a flip handed on", [X, Cnot(0, 1), Phase(1, 5)], [3, 0, 1, 2], [5, 0, 0, 5], [5, 65531, 65531, 10]),
    ("a flip that the target had", [Inverter(1), Cnot(0, 1), Phase(1, 5)], [2, 1, 0, 3], [5, 0, 0, 5],
     [5, 65531, 65531, 10]),
    ("two flips that meet", [X, Inverter(1), Cnot(0, 1), Phase(1, 5)], [1, 2, 3, 0], [0, 5, 5, 0], [0, 5, 5, 65526]),
    ("a flip of the control", [X, Cnot(0, 1), Phase(0, 5)], [3, 0, 1, 2], [5, 0, 5, 0], [5, 65531, 0, 0]),
    ("a flip too late to be handed on", [Cnot(0, 1), X, Phase(1, 5)], [1, 2, 3, 0], [0, 5, 5, 0], [0, 5, 5, 65526]),
    ("two flips", [X, Inverter(1), Phase(0, 5), Phase(1, 7)], [3, 2, 1, 0], [12, 7, 5, 0], [12, 65531, 65529, 0]),
]

# The gates and what folding makes of them, by hand
FLIPPED_FOLDS = [
    ("same mask, other flip", 1, [Phase(0, 5), X, Phase(0, 7)], [Phase(0, 5), X, Phase(0, 7)]),
    ("same mask, same flip", 1, [Phase(0, 5), X, X, Phase(0, 7)], [Phase(0, 12), X, X]),
    ("same mask, same flip 1", 1, [X, Phase(0, 5), X, X, Phase(0, 7)], [X, Phase(0, 12), X, X]),
    ("both flips twice", 1, [Phase(0, 1), X, Phase(0, 10), X, Phase(0, 2), X, Phase(0, 20)],
     [Phase(0, 3), X, Phase(0, 30), X, X]),
    ("opposites, other flip", 1, [Phase(0, 5), X, Phase(0, 65531)], [Phase(0, 5), X, Phase(0, 65531)]),
    ("opposites, same flip 1", 1, [X, Phase(0, 5), Phase(0, 65531), X], [X, X]),
    ("zero angle, flip 1", 1, [X, Phase(0, 0)], [X]),
    ("inverters alone", 2, [X, Inverter(1), X, X, Inverter(1)], [X, Inverter(1), X, X, Inverter(1)]),
    ("no inverters", 2, [Phase(0, 1), Phase(1, 2), Phase(0, 4)], [Phase(0, 5), Phase(1, 2)]),
    ("a flip on another wire", 2, [Phase(0, 1), Inverter(1), Phase(0, 4)], [Phase(0, 5), Inverter(1)]),
    ("same mask and flip, other wire", 2, [X, Phase(0, 5)] + SWAP + [Phase(1, 7)], [X, Phase(0, 12)] + SWAP),
    ("same mask, other flip, other wire", 2, [Phase(0, 5)] + SWAP + [Inverter(1), Phase(1, 7)],
     [Phase(0, 5)] + SWAP + [Inverter(1), Phase(1, 7)]),
    ("a flip handed on", 2, [Cnot(0, 1), Phase(1, 5), Cnot(0, 1), X, Cnot(0, 1), Phase(1, 7)],
     [Cnot(0, 1), Phase(1, 5), Cnot(0, 1), X, Cnot(0, 1), Phase(1, 7)]),
    ("a flip handed on and taken back", 2,
     [Cnot(0, 1), Phase(1, 5), Cnot(0, 1), X, Cnot(0, 1), Inverter(1), Phase(1, 7)],
     [Cnot(0, 1), Phase(1, 12), Cnot(0, 1), X, Cnot(0, 1), Inverter(1)]),
    ("a flip handed on, against the target's own", 2,
     [X, Cnot(0, 1), Phase(1, 5), Cnot(0, 1), X, Inverter(1), Cnot(0, 1), Phase(1, 7)],
     [X, Cnot(0, 1), Phase(1, 12), Cnot(0, 1), X, Inverter(1), Cnot(0, 1)]),
]

# Bad in version 2 at two wires, with the reasons by hand
BAD_INVERTERS = [
    (SPARE, "third byte 1", "03000100"), (SPARE, "third byte 255", "0301ff00"), (SPARE, "fourth byte 1", "03000001"),
    (SPARE, "fourth byte 128", "03010080"), (SPARE, "both bytes", "03010101"), (WIRE, "wire w", "03020000"),
    (WIRE, "wire 255", "03ff0000"), (WIRE, "wire and third byte", "03020200"), (WIRE, "wire and both", "03ff0505"),
]
OTHER_KINDS = [(KIND, "kind 0", "00000000"), (KIND, "kind 4", "04000000"), (KIND, "kind 131", "83010000")]
KIND_3 = [(KIND, "kind 3", "03000000"), (KIND, "kind 3, wire", "03020000"), (KIND, "kind 3, spare", "03010101")]

VERSIONS = 0, 1, 2, 3, 258, 512, 65535


def hand_requests():
    for w, cases in ((1, ONE_WIRE), (2, TWO_WIRES)):
        for note, gates, ends, phases, entries in cases:
            file = encode(w, gates, version=2)
            assert [oracle.run(file, start) for start in range(2 ** w)] == list(zip(ends, phases)), note
            assert oracle.compare(file, raw(w, []))[1] == entries, note
            for start in range(2 ** w):
                yield run(note, file, start)
            yield from count_and_fold(note, w, gates, version=2)
            yield from verdict_rooms(f"{note} against nothing", w, gates, [], rooms=(0, -1), versions=(2, 1))
            yield from verdict_rooms(f"nothing against {note}", w, [], gates, rooms=(5,), versions=(2, 2))
            yield listing(note, file, w == 2, 200)
    for note, w, gates, folded in FLIPPED_FOLDS:
        assert oracle.fold(encode(w, gates, version=2))[0] == encode(w, folded, version=2), note
        yield from fold_rooms(note, w, gates, more=(0, 9), version=2)
        yield from verdict_rooms(f"{note}: folded", w, gates, folded, rooms=(0,), versions=(2, 2))


def circuit_requests(rng, note, w, number, version):
    gates = random_gates(rng, w, number, version)
    file = encode(w, gates, version)
    yield read(note, file)
    for start in (0, rng.randrange(2 ** w), 2 ** w - 1, 2 ** w):
        yield run(note, file, start)
    yield count(note, file)
    yield gate_at(note, file, rng.randrange(number))
    yield from fold_rooms(note, w, gates, more=(0,), version=version)
    yield from listing_rooms(note, w, gates, rooms=(0,) if version == 1 else (0, -1), version=version)


def inverter_pairs(rng, w):
    """(note, versions, first, second)"""
    plain = random_gates(rng, w, 9)
    gates = random_gates(rng, w, 12, version=2) + [Phase(rng.randrange(w), random_angle(rng))]
    wire, other, angle = rng.randrange(w), rng.randrange(w), rng.randrange(1, 65536)
    yield "itself", (2, 2), gates, gates
    yield "no inverters", (1, 2), plain, plain
    yield "inverted", (1, 2), plain, inverted(rng, w, plain)
    yield "inverted first", (2, 1), inverted(rng, w, plain), disguised(rng, w, plain)
    yield "both inverted", (2, 2), inverted(rng, w, gates), disguised(rng, w, inverted(rng, w, gates))
    yield "folded", (2, 2), gates, oracle.fold_gates(w, gates)
    yield "both turned by one angle", (2, 2), inserted(rng, gates, turn(wire, angle)), \
        inserted(rng, gates, turn(other, angle))
    yield "every start turned by 1", (1, 2), plain, inserted(rng, plain, turn(wire, 1))
    yield "every start turned by a half", (2, 1), inserted(rng, inverted(rng, w, plain), turn(wire, 32768)), plain
    yield "every start turned, inverted", (2, 2), inverted(rng, w, gates), inserted(rng, gates, turn(wire, angle))
    yield "one inverter behind", (1, 2), plain, plain + [Inverter(wire)]
    yield "one inverter before", (2, 2), [Inverter(wire)] + gates, gates
    yield "one inverter between", (2, 2), gates, inserted(rng, inverted(rng, w, gates), [Inverter(wire)])
    yield "an inverter and every start turned", (2, 2), gates + [Inverter(wire)], inserted(rng, gates, turn(other, 3))
    yield "last angle up by 1", (2, 2), inverted(rng, w, gates), with_angle_moved(gates, len(gates) - 1, 1)
    yield "other random gates", (2, 1), gates, random_gates(rng, w, 9)
    if w < 7:
        yield "state 0 only, half turn", (1, 2), plain, state_0_only(w, 2 ** (16 - w)) + plain
    if w < 6:
        yield "state 0 only, small", (2, 2), state_0_only(w, 3) + gates, inverted(rng, w, gates)
        yield "last state only, small", (2, 2), last_state_only(w, 3) + gates, inverted(rng, w, gates)
    if w > 1:
        yield "hidden half turns", (2, 2), gates, \
            inverted(rng, w, inserted(rng, gates, hidden_nothing(rng.sample(range(w), 2))))


def inverted_oracles(rng, n):
    """A table of n variables, and (note, gates) for it."""
    w, table = n + 1, odd_table(rng, n)
    gates = oracle.construction(n, table)
    other = inverted(rng, w, gates[:200]) + gates[200:]
    return table, [
        ("built, as version 2", gates), ("inverted", other), ("inverted and folded", oracle.fold_gates(w, other)),
        ("every start turned by 1", inserted(rng, gates, turn(n, 1))),
        ("inverted, every start turned by a half", other + turn(0, 32768)),
        ("an inverter behind", gates + [Inverter(n)]), ("an inverter before", [X] + other),
        ("the target inverted around", [Inverter(n)] + gates + [Inverter(n)]),
    ]


def inverter_verdicts(rng):
    for w in range(1, 11):
        for i, (note, versions, first, second) in enumerate(inverter_pairs(rng, w)):
            rooms = (0, -1) if i % 8 == 0 else (rng.randrange(20),)
            yield from verdict_rooms(f"{w} wires, {note}", w, first, second, rooms=rooms, versions=versions)
    for w in (1, 2, 5, 10):
        for wire in range(w):
            yield from verdict_rooms(f"inverter {wire} of {w}", w, [Inverter(wire)], [], rooms=(0,), versions=(2, 1))
        every = [Inverter(wire) for wire in range(w)]
        yield from verdict_rooms(f"an inverter on each of {w}", w, every, every[:-1], rooms=(0,), versions=(2, 2))
    for n in range(1, 9):
        table, candidates = inverted_oracles(rng, n)
        for note, gates in candidates:
            yield judge(f"{note}, n {n}", n, table, encode(n + 1, gates, version=2), 2 ** (n + 1))
        yield judge(f"no room, n {n}", n, table, encode(n + 1, [Inverter(n)], version=2), 2 ** (n + 1) - 1)


def version_requests():
    for version in VERSIONS:
        cnot, inverter = (raw(2, ["02004000", quad], version=version) for quad in ("01000100", "03010000"))
        yield read(f"version {version}, a CNOT", cnot)
        yield fold(f"version {version}, a CNOT", cnot, 16)
        yield from everywhere(f"version {version}, an inverter", inverter)
        for note, file in (("a CNOT", cnot), ("an inverter", inverter)):
            yield gate_at(f"version {version}, {note}", file, 1)
        for quad in ("03010000", "03010001", "03000100", "03020000", "01000100", "0201ffff", "00010000", "04010000"):
            yield decode(f"version {version}", version, 2, 7, bytes.fromhex(quad))
    for versions in ((1, 1), (1, 2), (2, 1), (2, 2), (2, 3), (3, 2), (3, 1)):
        yield from verdict_rooms("versions {} and {}".format(*versions), 2, [X], [X], rooms=(0,), versions=versions)
    for note, w, number in (("wires, count", 0, 2049), ("count", 2, 2049), ("length", 2, 2), ("gate", 2, 1)):
        yield read(f"version 2, {note} first of what is wrong", raw(w, ["03020100"], version=2, number=number))


def bad_inverter_requests(rng):
    for reason, note, quad in BAD_INVERTERS + OTHER_KINDS:
        yield from reason_requests(rng, 2, reason, f"version 2, {note}", quad)
    for reason, note, quad in KIND_3:
        yield from reason_requests(rng, 1, reason, note, quad)
    for reason, note, quad in BAD_INVERTERS:
        yield decode(f"version 1, {note}", 1, 2, 0, bytes.fromhex(quad))
    for reason, note, quad in ONE_FAULT + MORE_FAULTS:
        if not quad.startswith("03"):
            assert oracle.decode(2, 2, 0, bytes.fromhex(quad)) == oracle.Bad(REASONS[reason]), (note, quad)
            yield decode(f"version 2, {reason}: {note}", 2, 2, 0, bytes.fromhex(quad))
            yield read(f"version 2, {reason}: {note}", raw(2, ["03010000", quad], version=2))
    for note, quad in GOOD_AT_TWO_WIRES + GOOD_PHASES:
        yield decode(f"version 2, {note}", 2, 2, 3, bytes.fromhex(quad))
    for w in (0, 1, 2, 10, 11, 255):
        for wire in (0, max(w - 1, 0), w):
            yield decode(f"version 2, {w} wires", 2, w, rng.choice([0, 2047, 65535]), [3, wire, 0, 0])


def full_of_inverters(rng):
    full, odd = encode(1, [X] * 2048, version=2), encode(1, [X] * 2047, version=2)
    assert oracle.run(full, 0) == (0, 0) and oracle.run(odd, 0) == (1, 0)
    yield read("2,048 inverters", full)
    yield read("2,049 inverters", encode(1, [X] * 2049, version=2))
    yield read("2,048 inverters in version 1", encode(1, [X] * 2048, version=1))
    yield read("2,048 inverters, the last with a spare byte", full[:-1] + b"\1")
    yield run("2,048 inverters", full, 0)
    yield run("2,047 inverters", odd, 0)
    yield count("2,048 inverters", full)
    yield fold("2,048 inverters", full, len(full))
    yield fold("2,048 inverters, one short", full, len(full) - 1)
    yield compare("2,048 inverters against nothing", full, raw(1, []), 2)
    yield compare("nothing against 2,047 inverters", raw(1, []), odd, 2)
    yield listing("2,048 inverters", full, True, len(oracle.listing(full, True)))
    wide = encode(10, [Inverter(i % 10) for i in range(2048)], version=2)
    assert oracle.run(wide, 0) == (255, 0)
    yield run("2,048 inverters, ten wires", wide, 0)
    yield compare("2,048 inverters, ten wires, against nothing", wide, raw(10, []), 1024)
    gates = random_gates(rng, 10, 2047, version=2) + [Phase(9, 5)]
    file = encode(10, gates, version=2)
    yield run("2,048 gates, ten wires", file, 1023)
    yield from fold_rooms("2,048 gates, ten wires", 10, gates, more=(0,), version=2)
    yield compare("2,048 gates, ten wires, last angle up by 1", file,
                  encode(10, with_angle_moved(gates, 2047, 1), version=2), 1024)


def inverters_section(rng):
    yield from hand_requests()
    for w in range(1, 11):
        yield from circuit_requests(rng, f"version 1, {w} wires", w, 2 + 2 * w, version=1)
        yield from circuit_requests(rng, f"version 2, {w} wires", w, 4 + 4 * w, version=2)
    yield from inverter_verdicts(rng)
    yield from version_requests()
    yield from bad_inverter_requests(rng)
    yield from full_of_inverters(rng)


# Section decimals

# The angle of a phase and the fraction listed, by hand: K of one to five digits at both ends, and D of each number of digits
FRACTIONS = [
    (0, "0*pi/1"), (1, "1*pi/32768"), (9, "9*pi/32768"), (10, "5*pi/16384"), (11, "11*pi/32768"), (99, "99*pi/32768"),
    (100, "25*pi/8192"), (101, "101*pi/32768"), (999, "999*pi/32768"), (1001, "1001*pi/32768"),
    (9999, "9999*pi/32768"), (10001, "10001*pi/32768"), (65533, "65533*pi/32768"), (65534, "32767*pi/16384"),
    (65535, "65535*pi/32768"), (32, "1*pi/1024"), (64, "1*pi/512"), (256, "1*pi/128"), (512, "1*pi/64"),
    (2048, "1*pi/16"), (4096, "1*pi/8"), (16384, "1*pi/2"), (32768, "1*pi/1"), (49152, "3*pi/2"), (65504, "2047*pi/1024"),
]


def decimals_section(rng):
    """Fractions by hand, every odd K, and every number of a refused line. K of a listing is odd or 0; section listing has every
    W, wire and D."""
    for angle, fraction in FRACTIONS:
        assert oracle.gate_line(Phase(0, angle)) == f"u1({fraction}) q[0];\n", fraction
        yield from listing_rooms(f"u1({fraction})", 1, [Phase(0, angle)], rooms=(0, 1, 5, -1))
    for first in range(1, 65536, 4096):
        file = encode(1, [Phase(0, angle) for angle in range(first, first + 4096, 2)])
        yield listing(f"every numerator from {first} to {first + 4094}", file, False, 60000)
    for number in range(256):
        length = len(oracle.refused_line(number))
        for extra in (0, 5, -1):
            yield refused_line(f"room {extra:+}", number, length + extra)


# Section loose

HANDED_ON = [X, Cnot(0, 1), X, Cnot(0, 1)]

# Whether some wire of the gates is loose on two wires, by hand
TWO_LOOSE = [
    ("no gates", [], False), ("phases alone", [Phase(0, 5), Phase(1, 7)], False),
    ("one CNOT", [Cnot(0, 1)], True), ("a CNOT twice", [Cnot(0, 1)] * 2, False), ("a CNOT three times", [Cnot(0, 1)] * 3, True),
    ("a CNOT twice around a phase", [Cnot(0, 1), Phase(1, 5), Cnot(0, 1)], False),
    ("a CNOT and the other way round", [Cnot(0, 1), Cnot(1, 0)], True),
    ("three CNOTs that swap two wires", SWAP, True), ("a swap twice", SWAP + SWAP, False),
    ("three times both ways, which comes back", [Cnot(0, 1), Cnot(1, 0)] * 3, False),
    ("X once", [X], True), ("X twice", [X, X], False), ("X on each wire", [X, Inverter(1)], True),
    ("X on each wire twice", [X, Inverter(1)] * 2, False), ("X twice around a phase", [X, Phase(0, 5), X], False),
    ("a flip handed on, all masks back", HANDED_ON, True), ("and taken back", HANDED_ON + [Inverter(1)], False),
    ("a flip on a wire that is swapped back", SWAP + [X] + SWAP, True),
]


def loose_requests(note, w, gates, loose, version, rooms=(0, 7, -1)):
    """With room, with more, with too little and with none, wrapped and plain; loose is as written down, and as every start says."""
    assert oracle.is_loose(w, gates) == loose, note
    assert loose == any(oracle.run_gates(gates, start)[0] != start for start in range(2 ** w)), note
    yield from listing_rooms(f"{note}, {w} wires", w, gates, rooms=rooms, version=version)
    for wrapped in (False, True):
        yield listing(f"{note}, {w} wires, no room", encode(w, gates, version), wrapped, 0)


def one_wire_loose(w, wire):
    """That wire alone is loose: by its mask, by its flip, and by neither any more."""
    if w > 1:
        other = (wire + 1) % w
        yield "mask", 1, [Phase(wire, 3), Cnot(other, wire), Phase(other, 5)], True
        yield "mask, behind the others' twins", 2, [Cnot(wire, other), Cnot(other, wire), Cnot(wire, other)] * 2 + [
            Inverter(other), Cnot(other, wire), Inverter(other)], True
        yield "mask, back", 1, [Cnot(other, wire), Phase(wire, 7), Cnot(other, wire)], False
    yield "flip", 2, [Inverter(wire), Phase(wire, 9)], True
    yield "flip, back", 2, [Inverter(wire), Phase(wire, 9), Inverter(wire)], False


def moves_of(gates):
    return [gate for gate in gates if not isinstance(gate, Phase)]


def loose_section(rng):
    """02 §8: what doesn't come back is not wrapped. Each gate undoes itself, so that gates and then their moves backwards come
    back; without the last of them they do not."""
    for note, gates, loose in TWO_LOOSE:
        versions = (2,) if any(isinstance(gate, Inverter) for gate in gates) else (1, 2)
        for version in versions:
            yield from loose_requests(note, 2, gates, loose, version)
    for note, gates, loose in (("X once", [X], True), ("X twice", [X, X], False)):
        yield from loose_requests(note, 1, gates, loose, 2)
    for w in range(1, 11):
        for wire in sorted({0, w // 2, w - 1}):
            for note, version, gates, loose in one_wire_loose(w, wire):
                yield from loose_requests(f"wire {wire} by {note}", w, gates, loose, version)
        for version in (1, 2):
            gates = random_gates(rng, w, 3 * w, version) + [Cnot(0, w - 1) if w > 1 else Phase(0, 1)]
            back = gates + moves_of(gates)[::-1]
            yield from loose_requests(f"random gates that come back, version {version}", w, back, False, version)
            if moves_of(gates):
                yield from loose_requests(f"without the last, version {version}", w, back[:-1], True, version)
    for n in range(1, 9):
        built = oracle.construction(n, random_table(rng, n))
        yield listing(f"built, n {n}", encode(n + 1, built), True, 65535)
        yield listing(f"folded, n {n}", encode(n + 1, oracle.fold_gates(n + 1, built)), True, 65535)
    yield from full_and_loose(rng)
    for four in ("01000200", "01010100", "04000000", "01000101"):
        bad = encode(2, [Cnot(0, 1)] * 2)[:-4] + bytes.fromhex(four)
        for room in (0, 200):
            yield listing("a bad gate behind loose wires", bad, True, room)


def full_and_loose(rng):
    half = random_gates(rng, 10, 1022, version=2) + [Cnot(8, 9), Inverter(9)]
    moves = moves_of(half)
    full = half + [Phase(9, 3)] * (1024 - len(moves)) + moves[::-1]
    other = full[:-1] + [Inverter(0)]
    assert len(full) == 2048 and not oracle.is_loose(10, full) and oracle.is_loose(10, other)
    for note, gates in (("2,048 gates that come back", full), ("2,048 gates, the last another", other)):
        file, length = encode(10, gates, version=2), len(oracle.listing_text(10, gates, True))
        for room in (length, length - 1):
            yield listing(f"{note}, room {room - length:+}", file, True, room)
        yield listing(f"{note}, plain", file, False, length)


# Section paper

def paper_section(rng):
    """01, "Cases on each side" and the listing's example, one after the other."""
    for n, byte in ((1, 0x00), (2, 0x08), (2, 0x06), (3, 0xE8)):
        yield spectrum("spectra", n, bytes([byte]), 2 ** n)

    built, larger = oracle.build(1, b"\2"), oracle.build(2, b"\x08")
    yield build("built, n 1, byte 02", 1, b"\2", 32)
    yield read("6 gates on 2 wires", built)
    yield count("score 0 by 02 §2", built)
    yield build("built, n 2, byte 08", 2, b"\x08", 64)
    yield read("14 gates", larger)
    yield count("score 7 by 02 §2", larger)
    yield fold("folding to 13, score 7 to 7 by 02 §2", larger, 64)
    folded = oracle.fold(larger)[0]
    yield read("13 gates", folded)
    yield count("score 7", folded)
    yield gate_at("the first gate before folding", larger, 0)
    yield gate_at("the first gate becomes phase 8,192 on wire 2", folded, 0)
    yield judge("the built circuit is the oracle", 2, b"\x08", larger, 8)
    yield judge("the folded circuit is the oracle", 2, b"\x08", folded, 8)

    yield fold("wire 0 by 1 then by 65,535 gives no gate", encode(1, [Phase(0, 1), Phase(0, 65535)]), 16)
    yield fold("gives 14, CNOT, 7, CNOT",
               encode(2, [Phase(1, 5), Cnot(0, 1), Phase(1, 7), Cnot(0, 1), Phase(1, 9)]), 28)

    empty = encode(2, [])
    yield compare("CNOT 0 to 1 differs at 1, ends 3 and 1, phase 0", encode(2, [Cnot(0, 1)]), empty, 4)
    yield compare("CNOT 1 to 0 differs at 2, ends 3 and 2", encode(2, [Cnot(1, 0)]), empty, 4)
    yield compare("the built file differs at 3, phase 32,768", built, empty, 4)
    for a, note in ((32768, "a = 32,768 is Same"), (16384, "a = 16,384 differs at 1, phase 32,768")):
        three = [Phase(0, a), Phase(1, a), Cnot(0, 1), Phase(1, a), Cnot(0, 1)]
        yield compare(note, encode(2, three), empty, 4)

    yield from limit_requests()
    example = b"\1\2"
    yield oracle_listing("the listing's example", example, len(oracle.EXAMPLE_LISTING))
    yield oracle_listing("the listing's example, room one short", example, len(oracle.EXAMPLE_LISTING) - 1)
    yield oracle_listing("an empty input is refused 1", b"", 100)


def limit_requests():
    """01, "Limits", and both sides of the refusals' other bounds."""
    for n in (0, 1, 8, 9):
        table = bytes(oracle.table_length(n))
        yield check(f"n {n}", n, table)
        yield spectrum(f"n {n}", n, table, 256)
        yield build(f"n {n}", n, table, 4096)
        yield judge(f"n {n}", n, table, raw(min(n + 1, 10), []), 1024)
        yield oracle_listing(f"n {n}", bytes([n]) + table, 60000)
    for n, byte in ((1, 0x03), (1, 0x04), (2, 0x0F), (2, 0x10), (3, 0xFF)):
        yield check(f"n {n} byte {byte:02x}", n, bytes([byte]))
        yield build(f"n {n} byte {byte:02x}", n, bytes([byte]), 128)
    for room in (31, 32):
        yield build(f"room {room} for the built file", 1, b"\2", room)

    empty = encode(1, [])
    for note, file in (("7 bytes", empty[:7]), ("8 bytes", empty), ("w 0", raw(0, [])), ("w 10", raw(10, [])),
                       ("w 11", raw(11, [])), ("2,048 gates", encode(1, [Phase(0, 1)] * 2048)),
                       ("2,049 gates", encode(1, [Phase(0, 1)] * 2049)),
                       ("2,048 gates, the last bad", encode(1, [Phase(0, 1)] * 2047 + [Phase(1, 1)])),
                       ("2,048 gates and a byte", encode(1, [Phase(0, 1)] * 2048) + b"\0")):
        yield read(note, file)
        yield read(f"{note}, side 1", file, 1)
        yield run(note, file, 1)
        yield count(note, file)
        yield fold(note, file, 16)
        yield compare(f"{note}, first", file, empty, 1024)
        yield compare(f"{note}, second", empty, file, 1024)
        yield judge(note, 1, b"\2", file, 1024)
        yield listing(note, file, True, 65535)
    for w in (1, 10):
        for start in (0, 2 ** w - 1, 2 ** w, 65535):
            yield run(f"start {start} on {w} wires", raw(w, []), start)
        for room in (2 ** w - 1, 2 ** w):
            yield compare(f"work of {room} on {w} wires", raw(w, []), raw(w, []), room)
    nine = oracle.build(8, bytes(32))
    whole = oracle.parse(nine).gates + [Phase(8, 0)] * 1026
    yield judge("2,048 gates", 8, bytes(32), encode(9, whole), 512)
    yield judge("2,049 gates", 8, bytes(32), encode(9, whole + [Phase(8, 0)]), 512)
    for n, w in ((1, 1), (1, 2), (1, 3), (8, 8), (8, 9), (8, 10)):
        yield judge(f"n {n} and {w} wires", n, bytes(oracle.table_length(n)), raw(w, []), 1024)


SECTIONS = {
    "paper": (100, paper_section), "spectrum": (101, spectrum_section), "circuit": (102, circuit_section),
    "build": (103, build_section), "fold": (104, fold_section), "verdict": (105, verdict_section),
    "listing": (106, listing_section), "table": (107, table_section), "oracle": (108, oracle_section),
    "printout": (109, printout_section), "reasons": (110, reasons_section), "scores": (111, scores_section),
    "inverters": (112, inverters_section), "decimals": (113, decimals_section), "loose": (114, loose_section),
}


def section_requests(name):
    seed, section = SECTIONS[name]
    return list(section(random.Random(seed)))


# The program

def payload_lines(data):
    """The bytes in groups of four, at most twenty groups."""
    if len(data) == 0:
        return []
    groups = [data[i:i + 4].hex() for i in range(0, len(data), 4)]
    return ["    " + " ".join(groups[:20]) + (" .." if len(groups) > 20 else "")]


def show(name, requests):
    for number, request in enumerate(requests, 1):
        print(f"{name} {number} ({request.note}): {request_words(request)}")
        for line in payload_lines(request.first) + payload_lines(request.second):
            print(line)


def main():
    arguments = argparse.ArgumentParser(description="requests and expected output for the vectors program")
    arguments.add_argument("sections", nargs="*", metavar="SECTION", help=" ".join(SECTIONS) + " (none: all)")
    arguments.add_argument("--requests", metavar="FILE")
    arguments.add_argument("--expected", metavar="FILE")
    arguments.add_argument("--show", action="store_true")
    given = arguments.parse_args()
    requests = []
    for name in given.sections or SECTIONS:
        found = section_requests(name)
        if given.show:
            show(name, found)
        requests += found
    if given.requests:
        with open(given.requests, "wb") as out:
            out.write(b"".join(frame(request) for request in requests))
    if given.expected:
        lines = [expected_line(request) for request in requests] + list(totals(requests))
        with open(given.expected, "w", encoding="ascii", newline="\n") as out:
            out.write("\n".join(lines) + "\n")


if __name__ == "__main__":
    main()
