"""The test oracle: document 01, with the requests of 02 that have landed, followed by brute force.

A function that writes takes the room, the number of entries of the lent
slice (None: enough), and returns the entries written at its front.
"""

from collections import namedtuple
from math import gcd

Cnot = namedtuple("Cnot", "control target")
Phase = namedtuple("Phase", "wire angle")
Inverter = namedtuple("Inverter", "wire")
Circuit = namedtuple("Circuit", "version wires gates")
Held = namedtuple("Held", "position gate")
Bad = namedtuple("Bad", "reason")
Different = namedtuple("Different", "state first_end second_end phase")
SAME = "same"


# Numbered refusals, in order of checking

VARS, TABLE, PAD, SHORT, MARK, VERSION, WIRES = 1, 2, 3, 4, 5, 6, 7
COUNT, LENGTH, GATE, STATE, UNLIKE, ROOM = 8, 9, 10, 11, 12, 13
LOOSE = 17  # 02 §8


class Refused(Exception):
    def __init__(self, number, side=0, position=0, reason=0):
        super().__init__(number, side, position, reason)
        self.number, self.side, self.position, self.reason = number, side, position, reason


def check_table(n, table):
    if n == 0 or n > 8:
        raise Refused(VARS)
    if len(table) != table_length(n):
        raise Refused(TABLE)
    if n < 3 and table[0] >= 2 ** 2 ** n:
        raise Refused(PAD)


def check_room(room, length):
    if room is not None and room < length:
        raise Refused(ROOM)


# Numbers and conventions

def table_length(n):
    return 1 if n <= 3 else 2 ** (n - 3)


def f(table, x):
    return table[x // 8] >> x % 8 & 1


def value(table, x):
    """f(x); 0 past the table's end."""
    return f(table, x) if x // 8 < len(table) else 0


def ones(number):
    return bin(number).count("1")


# Spectrum

def spectrum(n, table, room=None):
    check_table(n, table)
    check_room(room, 2 ** n)
    return [sum(-1 if (f(table, x) + ones(k & x)) % 2 else 1 for x in range(2 ** n))
            for k in range(2 ** n)]


def theta(n, table):
    return [s * 2 ** (14 - n) % 65536 for s in spectrum(n, table)]


# The built circuit

def flipped_bit(i, k):
    """d_k for words of i bits."""
    if k == 2 ** i - 1:
        return i - 1
    zeros = 0
    while (k + 1) >> zeros & 1 == 0:
        zeros += 1
    return zeros


def gray_words(i):
    words = [0]
    for k in range(2 ** i - 1):
        words.append(words[k] ^ 1 << flipped_bit(i, k))
    return words


def construction(n, table):
    angles = theta(n, table)
    gates = [Phase(n, 16384)]
    for i in range(n):
        for k, v in enumerate(gray_words(i)):
            gates.append(Phase(i, angles[2 ** i + v]))
            if i > 0:
                gates.append(Cnot(flipped_bit(i, k), i))
    for k, v in enumerate(gray_words(n)):
        gates.append(Phase(n, -angles[v] % 65536))
        gates.append(Cnot(flipped_bit(n, k), n))
    return gates


def build(n, table, room=None):
    check_table(n, table)
    file = encode(n + 1, construction(n, table))
    check_room(room, len(file))
    return file


# Circuit file

def encode(w, gates, version=1):
    file = b"PHG" + version.to_bytes(2, "big") + bytes([w]) + len(gates).to_bytes(2, "big")
    for gate in gates:
        if isinstance(gate, Cnot):
            file += bytes([1, gate.control, gate.target, 0])
        elif isinstance(gate, Inverter):
            file += bytes([3, gate.wire, 0, 0])
        else:
            file += bytes([2, gate.wire]) + gate.angle.to_bytes(2, "big")
    return file


KIND, WIRE, EQUAL, SPARE = 1, 2, 3, 4


def faults(version, w, four):
    """02 §4: all that is wrong with a gate, in the order in which the reasons are tried."""
    kind, second, third, fourth = four
    wires = {1: (second, third), 2: (second,)}
    spare = {1: (fourth,), 2: (), 3: (third, fourth)}
    if version == 2:
        wires[3] = (second,)
    if kind not in wires:
        yield KIND
        return
    if any(wire >= w for wire in wires[kind]):
        yield WIRE
    if kind == 1 and second == third:
        yield EQUAL
    if any(byte != 0 for byte in spare[kind]):
        yield SPARE


def decode(version, w, position, four):
    kind, second, third, fourth = four
    for reason in faults(version, w, four):
        return Bad(reason)
    gates = {1: Cnot(second, third), 2: Phase(second, third * 256 + fourth), 3: Inverter(second)}
    return Held(position, gates[kind])


def version_of(file):
    return file[3] * 256 + file[4]


def gate_at(file, position):
    """The gate at a position of a file; without a kind where its bytes do not all lie in the file."""
    four = file[8 + 4 * position:12 + 4 * position]
    return decode(version_of(file), file[5], position, four) if len(four) == 4 else Bad(KIND)


def parse(file, side=0):
    """The circuit of a file, or its refusal."""
    if len(file) < 8:
        raise Refused(SHORT, side)
    if file[0:3] != b"PHG":
        raise Refused(MARK, side)
    version = version_of(file)
    if version not in (1, 2):
        raise Refused(VERSION, side)
    w = file[5]
    if w == 0 or w > 10:
        raise Refused(WIRES, side)
    number = file[6] * 256 + file[7]
    if number > 2048:
        raise Refused(COUNT, side)
    if len(file) != 8 + 4 * number:
        raise Refused(LENGTH, side)
    gates = []
    for position in range(number):
        start = 8 + 4 * position
        decoded = decode(version, w, position, file[start:start + 4])
        if isinstance(decoded, Bad):
            raise Refused(GATE, side, position, decoded.reason)
        gates.append(decoded.gate)
    return Circuit(version, w, gates)


def read(file, side=0):
    circuit = parse(file, side)
    return circuit.wires, len(circuit.gates)


# Running, counting, folding

def run_gates(gates, start):
    state, total = start, 0
    for gate in gates:
        if isinstance(gate, Cnot):
            if state >> gate.control & 1:
                state ^= 1 << gate.target
        elif isinstance(gate, Inverter):
            state ^= 1 << gate.wire
        elif state >> gate.wire & 1:
            total = (total + gate.angle) % 65536
    return state, total


def run(file, start):
    version, w, gates = parse(file)
    if start >= 2 ** w:
        raise Refused(STATE)
    return run_gates(gates, start)


def parities(w, gates):
    """For each position the mask and the flip on the phase gate's wire there, None at another gate; and the masks and the
    flips at the end."""
    masks, flips = [1 << i for i in range(w)], [0] * w
    met = []
    for gate in gates:
        met.append((masks[gate.wire], flips[gate.wire]) if isinstance(gate, Phase) else None)
        if isinstance(gate, Cnot):
            masks[gate.target] ^= masks[gate.control]
            flips[gate.target] ^= flips[gate.control]
        if isinstance(gate, Inverter):
            flips[gate.wire] ^= 1
    return met, masks, flips


def parities_met(w, gates):
    return parities(w, gates)[0]


# 02 §2: no turn, a quarter, a half, three quarters
FREE_ANGLES = 0, 16384, 32768, 49152


def score(gates):
    return sum(1 for gate in gates if isinstance(gate, Phase) and gate.angle not in FREE_ANGLES)


def count(file):
    """CNOTs, phase gates, score and inverters."""
    gates = parse(file).gates
    cnots, phases, inverters = (sum(1 for gate in gates if isinstance(gate, kind)) for kind in (Cnot, Phase, Inverter))
    return cnots, phases, score(gates), inverters


def fold_gates(w, gates):
    met = parities_met(w, gates)
    folded = []
    for p, gate in enumerate(gates):
        if not isinstance(gate, Phase):
            folded.append(gate)
            continue
        an_earlier_phase_gate_met_this_parity = met[p] in met[:p]
        if an_earlier_phase_gate_met_this_parity:
            continue
        group = [gates[q].angle for q in range(len(gates)) if met[q] == met[p]]
        if sum(group) % 65536 != 0:
            folded.append(Phase(gate.wire, sum(group) % 65536))
    return folded


def fold(file, room=None):
    """The new file with the scores before and after."""
    version, w, gates = parse(file)
    folded = fold_gates(w, gates)
    check_room(room, 8 + 4 * len(folded))
    return encode(w, folded, version), score(gates), score(folded)


# Coefficients and verdict

def coefficients(w, gates):
    met = parities_met(w, gates)
    phases = [(*met[p], gates[p].angle) for p in range(len(gates)) if met[p] is not None]
    found = [sum(angle for mask, flip, angle in phases if flip) % 65536]
    for S in range(1, 2 ** w):
        total = sum(-angle if flip else angle for mask, flip, angle in phases if mask & S == S)
        found.append((-2) ** (ones(S) - 1) * total % 65536)
    return found


def ideal(n, table, state):
    x, y = state % 2 ** n, state >> n
    return state, 32768 * f(table, x) * y


def ideal_coefficients(n, table):
    found = []
    for S in range(2 ** (n + 1)):
        inside = sum(1 for x in range(2 ** n) if f(table, x) == 1 and x & S == x)
        found.append(32768 * inside % 65536 if S >> n & 1 else 0)
    return found


def verdict(w, first_run, second_run):
    for state in range(2 ** w):
        first_end, first_phase = first_run(state)
        second_end, second_phase = second_run(state)
        if (first_end, first_phase) != (second_end, second_phase):
            return Different(state, first_end, second_end, (first_phase - second_phase) % 65536)
    return SAME


def difference(first, second):
    return [(a - b) % 65536 for a, b in zip(first, second)]


def compare(first, second, room=None):
    """The verdict, by running every starting state, and the work entries."""
    version, w, first_gates = parse(first, 0)
    second_version, second_w, second_gates = parse(second, 1)
    if w != second_w:
        raise Refused(UNLIKE)
    check_room(room, 2 ** w)
    found = verdict(w, lambda x: run_gates(first_gates, x), lambda x: run_gates(second_gates, x))
    return found, difference(coefficients(w, first_gates), coefficients(w, second_gates))


def judge(n, table, file, room=None):
    check_table(n, table)
    version, w, gates = parse(file)
    if w != n + 1:
        raise Refused(UNLIKE)
    check_room(room, 2 ** w)
    found = verdict(w, lambda x: run_gates(gates, x), lambda x: ideal(n, table, x))
    return found, difference(coefficients(w, gates), ideal_coefficients(n, table))


# Listing

def gate_line(gate):
    if isinstance(gate, Cnot):
        return f"cx q[{gate.control}],q[{gate.target}];\n"
    if isinstance(gate, Inverter):
        return f"x q[{gate.wire}];\n"
    common = gcd(gate.angle, 32768)
    return f"u1({gate.angle // common}*pi/{32768 // common}) q[{gate.wire}];\n"


def is_loose(w, gates):
    """02 §8, with §12: some wire ends on another mask than its own, or with a flip."""
    met, masks, flips = parities(w, gates)
    return masks != [1 << i for i in range(w)] or any(flips)


def listing_text(w, gates, wrapped):
    text = f'OPENQASM 2.0;\ninclude "qelib1.inc";\nqreg q[{w}];\n'
    around = f"h q[{w - 1}];\n" if wrapped else ""
    return text + around + "".join(gate_line(gate) for gate in gates) + around


def listing(file, wrapped, room=None):
    version, w, gates = parse(file)
    if wrapped and is_loose(w, gates):
        raise Refused(LOOSE)
    text = listing_text(w, gates, wrapped)
    check_room(room, len(text))
    return text.encode("ascii")


def oracle_listing(stdin, room=None):
    """The wrapped listing of the folded circuit for the byte n and then the table."""
    if len(stdin) == 0:
        raise Refused(VARS)
    folded, before, after = fold(build(stdin[0], stdin[1:]))
    return listing(folded, True, room)


def refused_line(number, room=None):
    line = f"refused {number}\n"
    check_room(room, len(line))
    return line.encode("ascii")


def printout(stdin, room=None):
    """What the listing program prints for these bytes on standard input."""
    try:
        text = oracle_listing(stdin)
    except Refused as refused:
        return refused_line(refused.number, room)
    check_room(room, len(text))
    return text


# Cases on each side

EXAMPLE_LISTING = b"""OPENQASM 2.0;
include "qelib1.inc";
qreg q[2];
h q[1];
u1(1*pi/2) q[1];
u1(1*pi/2) q[0];
cx q[0],q[1];
u1(3*pi/2) q[1];
cx q[0],q[1];
h q[1];
"""


def refusal(function, *inputs):
    try:
        function(*inputs)
    except Refused as refused:
        return refused.number, refused.side, refused.position, refused.reason
    return None


def check():
    held = 0

    def holds(found, expected):
        nonlocal held
        assert found == expected, (found, expected)
        held += 1

    byte = bytes.fromhex
    holds(spectrum(1, byte("00")), [2, 0])
    holds(spectrum(2, byte("08")), [2, 2, 2, -2])
    holds(spectrum(2, byte("06")), [0, 0, 0, 4])
    holds(spectrum(3, byte("E8")), [0, 4, 4, 0, 4, 0, 0, -4])

    built = build(1, byte("02"))
    holds(built, byte("50 48 47 00 01 02 00 06  02 01 40 00  02 00 40 00  02 01 00 00"
                      "01 00 01 00  02 01 C0 00  01 00 01 00"))
    holds(count(built), (2, 4, 0, 0))
    larger = build(2, byte("08"))
    holds(read(larger), (3, 14))
    folded, before, after = fold(larger)
    holds(read(folded), (3, 13))
    holds((before, after), (7, 7))
    holds(parse(folded).gates[0], Phase(2, 8192))
    for n in range(1, 9):
        table = bytes([1] + [0] * (table_length(n) - 1))
        holds(read(build(n, table)), (n + 1, 2 ** (n + 2) - 2))
        holds(len(build(n, table)), 2 ** (n + 4))

    holds(fold_gates(1, [Phase(0, 1), Phase(0, 65535)]), [])
    holds(fold_gates(2, [Phase(1, 5), Cnot(0, 1), Phase(1, 7), Cnot(0, 1), Phase(1, 9)]),
          [Phase(1, 14), Cnot(0, 1), Phase(1, 7), Cnot(0, 1)])

    empty = encode(2, [])

    def three_parities(a):
        return encode(2, [Phase(0, a), Phase(1, a), Cnot(0, 1), Phase(1, a), Cnot(0, 1)])

    holds(compare(encode(2, [Cnot(0, 1)]), empty)[0], Different(1, 3, 1, 0))
    holds(compare(encode(2, [Cnot(1, 0)]), empty)[0], Different(2, 3, 2, 0))
    holds(compare(built, empty)[0], Different(3, 3, 3, 32768))
    holds(compare(three_parities(32768), empty)[0], SAME)
    holds(compare(three_parities(16384), empty)[0], Different(1, 1, 1, 32768))

    holds(refusal(build, 8, bytes(32)), None)
    holds(refusal(build, 9, bytes(64)), (VARS, 0, 0, 0))
    holds(refusal(build, 1, byte("04")), (PAD, 0, 0, 0))
    holds(refusal(read, encode(1, [Phase(0, 1)] * 2048)), None)
    holds(refusal(read, encode(1, [Phase(0, 1)] * 2049)), (COUNT, 0, 0, 0))
    holds(refusal(read, empty[:7]), (SHORT, 0, 0, 0))
    holds(refusal(build, 1, byte("02"), 31), (ROOM, 0, 0, 0))
    holds(refusal(build, 1, byte("02"), 32), None)

    holds(printout(byte("01 02")), EXAMPLE_LISTING)
    holds(printout(b""), b"refused 1\n")

    check_inverters(holds)
    check_loose(holds)
    print(f"{held} cases hold: those of document 01, the scores as 02 §2 has them, inverters as 02 §12 has "
          "them, and what is wrapped as 02 §8 has it")


def check_inverters(holds):
    """On one wire, against the empty circuit of either version, and what only version 2 admits."""
    x, a = Inverter(0), 5
    for version in (1, 2):
        empty = encode(1, [], version)

        def against_empty(gates):
            return compare(encode(1, gates, version=2), empty)

        holds(against_empty([x, x]), (SAME, [0, 0]))
        holds(against_empty([x, Phase(0, a), x]), (Different(0, 0, 0, a), [a, 65536 - a]))
        holds(against_empty([x]), (Different(0, 1, 0, 0), [0, 0]))
        holds(against_empty([Phase(0, a), x, Phase(0, a), x]), (Different(0, 0, 0, a), [a, 0]))
        holds(compare(empty, encode(1, [x], version=2)), (Different(0, 0, 1, 0), [0, 0]))

    flipped_again = encode(1, [Phase(0, 1), x, Phase(0, 2), x, Phase(0, 4)], version=2)
    holds(count(flipped_again), (0, 3, 3, 2))
    holds(fold(flipped_again), (encode(1, [Phase(0, 5), x, Phase(0, 2), x], version=2), 3, 2))
    holds(listing(encode(1, [x], version=2), False)[-8:], b"x q[0];\n")
    mixed = [x, Cnot(0, 1), Phase(1, 7), Inverter(1), Phase(1, 100), Cnot(1, 2), Phase(2, 3000), Inverter(2),
             Phase(2, 9)]
    for start in range(8):
        inside = sum(c for S, c in enumerate(coefficients(3, mixed)) if S & start == S)
        holds(run_gates(mixed, start)[1], inside % 65536)

    holds(decode(2, 1, 0, b"\3\0\0\0"), Held(0, x))
    for version in (0, 1, 3, 258):
        holds(decode(version, 1, 0, b"\3\0\0\0"), Bad(KIND))
    holds(refusal(read, encode(1, [x], version=2)), None)
    holds(refusal(read, encode(1, [Phase(0, 1), x], version=1)), (GATE, 0, 1, KIND))
    holds(refusal(read, encode(1, [x], version=258)), (VERSION, 0, 0, 0))


def check_loose(holds):
    """02 §8, and what it asks against every start."""
    x = Inverter(0)
    swap = [Cnot(0, 1), Cnot(1, 0), Cnot(0, 1)]
    handed_on = [x, Cnot(0, 1), x, Cnot(0, 1)]
    for gates, loose in (([], False), ([Cnot(0, 1)], True), ([Cnot(0, 1)] * 2, False), (swap, True), (swap * 2, False),
                         ([x], True), ([x] * 2, False), (handed_on, True), (handed_on + [Inverter(1)], False)):
        file = encode(2, gates, version=2)
        holds(is_loose(2, gates), loose)
        holds(any(run_gates(gates, start)[0] != start for start in range(4)), loose)
        holds(refusal(listing, file, True), (LOOSE, 0, 0, 0) if loose else None)
        holds(refusal(listing, file, True, 0), (LOOSE if loose else ROOM, 0, 0, 0))
        holds(refusal(listing, file, False), None)
    holds(refusal(listing, encode(2, [Cnot(0, 1), Cnot(0, 2)]), True, 0), (GATE, 0, 1, WIRE))


if __name__ == "__main__":
    check()
