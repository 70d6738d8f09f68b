"""Looks at the bounds that a climb reaches, and times its passes.

usage: climb.py PROGRAM GENERATOR [TRIES]

PROGRAM is the built program of the crate climb_rounds, and GENERATOR a program that is called as
`GENERATOR FOLDER CLASS SIZE SCENARIOS SEED` and writes a model, its changes and each scenario's own model. Of four
classes with 8 scenarios each scenario is climbed from the zero vector with 300 passes, and its bound is held against
the value of the linear relaxation, rounded up, by `glpsol`: how many units it is less. Then a model at the limits (1,000
columns, 1,000 rows, 100,000 entries) and the four classes are timed: the difference between a climb of 19 passes and
one of 9, over the passes and the entries, in nanoseconds of processor time. Both have one correction, the last.
"""
import math
import os
import re
import subprocess
import sys
import tempfile

from limits import ROWS, write_model
from timing import seconds

CLASSES = ["cap", "cov", "mkp", "cut"]
SEEDS = [1, 2, 3]
SCENARIOS = 8
FEW, MANY = 9, 19
WORK = 60_000_000


def bounds(program, model, changes):
    run = subprocess.run([program, model, changes, "300", "1"], capture_output=True, text=True, check=True)
    return [int(line) for line in run.stdout.split()]


def relaxed(model):
    report = model + ".txt"
    subprocess.run(["glpsol", "--nomip", "--freemps", model, "-o", report], stdout=subprocess.DEVNULL, check=True)
    with open(report, encoding="ascii") as text:
        value = re.search(r"^Objective: .* = (\S+)", text.read(), re.MULTILINE).group(1)
    return math.ceil(float(value) - 1e-6)


def entries(model):
    with open(model, encoding="ascii") as text:
        part = text.read().split("COLUMNS")[1].split("RHS")[0]
    lines = [line.split() for line in part.splitlines() if "MARKER" not in line]
    return sum(row not in ("obj", "cost") for fields in lines for row in fields[1::2])


def timed(program, name, model, changes, scenarios, tries):
    count = entries(model)
    rounds = max(1, WORK // (count * MANY * scenarios))
    few, many = [], []
    for _ in range(tries):
        few.append(seconds(program, model, changes, FEW, rounds))
        many.append(seconds(program, model, changes, MANY, rounds))
    time = (min(many) - min(few)) / (rounds * scenarios * (MANY - FEW) * count) * 1e9
    print(f"{name:12} {time:6.2f} ns a pass and entry, {count} entries")


def main():
    program = os.path.abspath(sys.argv[1])
    generator = os.path.abspath(sys.argv[2])
    tries = int(sys.argv[3]) if len(sys.argv) > 3 else 5
    with tempfile.TemporaryDirectory() as folder:
        for kind in CLASSES:
            for seed in SEEDS:
                subprocess.run([sys.executable, generator, folder, kind, "l", str(SCENARIOS), str(seed)], stdout=subprocess.DEVNULL, check=True)
                name = os.path.join(folder, f"{kind}_l_{SCENARIOS}_{seed}")
                reached = bounds(program, f"{name}.mps", f"{name}.chg")
                gaps = [relaxed(f"{name}.s{s}.mps") - bound for s, bound in enumerate(reached)]
                print(f"{kind}_l_{SCENARIOS}_{seed}: below the linear relaxation by", *gaps)
        none = os.path.join(folder, "none.txt")
        with open(none, "w", encoding="ascii"):
            pass
        limits = os.path.join(folder, "limits.mps")
        write_model(limits, [("G", 900_000)] * ROWS)
        timed(program, "limits", limits, none, 1, tries)
        for kind in CLASSES:
            name = os.path.join(folder, f"{kind}_l_{SCENARIOS}_{SEEDS[0]}")
            timed(program, os.path.basename(name), f"{name}.mps", f"{name}.chg", SCENARIOS, tries)


if __name__ == "__main__":
    main()
