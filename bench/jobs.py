#!/usr/bin/env python3
"""Writes large jobs for timing: a circuit, a layout and a table of outcomes.

usage: jobs.py KIND FOLDER [COUNT QUBITS]

KIND is one of
    gates         an OpenQASM 2.0 text of 261,120 random gates on 64 qubits, a T gate in each sixteen, all qubits measured
    wide          a list of 16,384 products of one to four letters on 64 qubits, of which the last 64 are measurements
    qubits        such a list of 4,000 products on 1,024 qubits
    measurements  a list of 16,384 measurements of one or two letters on 64 qubits
    small         the list of `wide` on a small grid
COUNT (gates or products) and QUBITS stand for the numbers above. The grid of at most 64 qubits has 64 x 64 cells, with patches
eight cells apart and eight ports; that of more qubits has 64 x 64 cells too, with patches two cells apart and sixteen ports; that
of `small` has rows of patches with free rows and columns between them, and sixteen ports. Jobs of equal words are equal.
"""

import random
import sys

SIZES = {"gates": (261_120, 64), "wide": (16_384, 64), "qubits": (4_000, 1_024), "measurements": (16_384, 64), "small": (16_384, 64)}


def small_layout(qubits):
    """Patches two cells apart, in rows of 31, and a row of ports below them."""
    per_row = 31
    rows = (qubits + per_row - 1) // per_row
    columns = 2 * per_row + 1
    height = 2 * rows + 1
    lines = [f"layout 1 {height + 2} {columns}"]
    for q in range(qubits):
        cell = (2 * (q // per_row) + 1) * columns + 2 * (q % per_row) + 1
        lines.append(f"patch {q} {cell} h")
    for f in range(16):
        lines.append(f"port {f} {(height + 1) * columns + 2 * f + 1} h 4")
    return lines


def dense_layout(qubits):
    """Patches two cells apart on 64 x 64 cells, and ports in the row above them."""
    lines = ["layout 1 64 64"]
    for q in range(qubits):
        lines.append(f"patch {q} {(2 * (q // 32) + 1) * 64 + 2 * (q % 32) + 1} h")
    for f in range(16):
        lines.append(f"port {f} {4 * f} h 4")
    return lines


def wide_layout(qubits):
    """Patches eight cells apart on 64 x 64 cells."""
    lines = ["layout 1 64 64"]
    for q in range(qubits):
        lines.append(f"patch {q} {(8 * (q // 8) + 4) * 64 + 8 * (q % 8) + 4} {'hv'[q % 2]}")
    for f in range(8):
        lines.append(f"port {f} {63 * 64 + 8 * f + 1} h 4")
    return lines


def letters_of(rng, qubits, most):
    """Letters of a product with one to `most` of them other than I."""
    letters = ["I"] * qubits
    for q in rng.sample(range(qubits), rng.randint(1, min(most, qubits))):
        letters[q] = rng.choice("XYZ")
    return "".join(letters)


def rotations(rng, count, qubits):
    """A list of rotations, of which the last `qubits` products measure Z of each qubit."""
    lines = [f"products 1 {qubits}", f"c c {qubits}"]
    outcomes = ["outcomes 1"]
    for number in range(count - qubits):
        lines.append(f"r {rng.choice('+-')}{letters_of(rng, qubits, 4)}")
        outcomes.append(f"r {number} {rng.randint(0, 1)} {rng.randint(0, 1)}")
    for q in range(qubits):
        lines.append(f"m +{'I' * q}Z{'I' * (qubits - q - 1)} c {q}")
        outcomes.append(f"m {count - qubits + q} {rng.randint(0, 1)}")
    return lines, outcomes


def measurements(rng, count, qubits):
    """A list of measurements, each of a bit of its own in turn."""
    lines = [f"products 1 {qubits}", f"c c {qubits}"]
    outcomes = ["outcomes 1"]
    for number in range(count):
        lines.append(f"m {rng.choice('+-')}{letters_of(rng, qubits, 2)} c {number % qubits}")
        outcomes.append(f"m {number} {rng.randint(0, 1)}")
    return lines, outcomes


def gates(rng, count, qubits):
    """An OpenQASM 2.0 text of gates on one and two qubits."""
    lines = ["OPENQASM 2.0;", 'include "qelib1.inc";', f"qreg q[{qubits}];", f"creg c[{qubits}];"]
    outcomes = ["outcomes 1"]
    for number in range(count):
        a, b = rng.sample(range(qubits), 2)
        if number % 16 == 15:
            lines.append(f"t q[{a}];")
            outcomes.append(f"r {number // 16} {rng.randint(0, 1)} {rng.randint(0, 1)}")
        elif rng.randint(0, 1):
            lines.append(f"cx q[{a}],q[{b}];")
        else:
            lines.append(f"{rng.choice(['h', 's', 'x', 'sdg'])} q[{a}];")
    lines.append("measure q -> c;")
    outcomes += [f"m {count // 16 + q} {rng.randint(0, 1)}" for q in range(qubits)]
    return lines, outcomes


def write(kind, folder, count=None, qubits=None):
    """Writes the job of that kind into the folder, as the files circuit, layout and outcomes."""
    count, qubits = count or SIZES[kind][0], qubits or SIZES[kind][1]
    rng = random.Random(f"{kind} {count} {qubits}")
    circuit, outcomes = {"gates": gates, "measurements": measurements}.get(kind, rotations)(rng, count, qubits)
    layout = small_layout if kind == "small" else wide_layout if qubits <= 64 else dense_layout
    for name, lines in [("circuit", circuit), ("layout", layout(qubits)), ("outcomes", outcomes)]:
        with open(f"{folder}/{name}", "w", encoding="ascii", newline="\n") as file:
            file.write("\n".join(lines) + "\n")


if __name__ == "__main__":
    if len(sys.argv) not in (3, 5) or sys.argv[1] not in SIZES:
        sys.exit(__doc__)
    write(sys.argv[1], sys.argv[2], *map(int, sys.argv[3:]))
