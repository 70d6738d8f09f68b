"""Times the calls of bound tightening on a model at the limits: 1,000 columns, 1,000 rows, 100,000 entries.

usage: tighten.py PROGRAM [TRIES]

PROGRAM is the built program of the crate tighten_rounds. Each call is timed as the difference between a run of many
rounds and a run of none, divided by the rounds. `terms` reads each row's terms once, `least` makes each row's least
sum, `replay` applies a step at each row, and `propose` is timed on three boxes: one whose rows allow each of their
sums (wide), one whose rows don't but narrow nothing (close), and one that many rows narrow (narrow). Prints the least
processor time over the tries in microseconds a round, and how many times that of `terms` it is.
"""
import os
import sys
import tempfile

from limits import ROWS, write_model
from timing import seconds

ROUNDS = {"terms": 1000, "least": 1000, "replay": 300, "propose": 300}
ENDS = {"wide": 900_000_000, "close": 4_000_000, "narrow": 20_000}
CASES = [("terms", "wide"), ("least", "wide"), ("replay", "wide"), ("propose", "wide"), ("propose", "close"), ("propose", "narrow")]


def main():
    program = os.path.abspath(sys.argv[1])
    tries = int(sys.argv[2]) if len(sys.argv) > 2 else 7
    with tempfile.TemporaryDirectory() as folder:
        models = {name: os.path.join(folder, f"{name}.mps") for name in ENDS}
        for name, end in ENDS.items():
            write_model(models[name], [("L", end)] * ROWS)
        none = {case: [] for case in CASES}
        many = {case: [] for case in CASES}
        for _ in range(tries):
            for call, name in CASES:
                none[call, name].append(seconds(program, models[name], call, 0))
                many[call, name].append(seconds(program, models[name], call, ROUNDS[call]))
        times = {case: (min(many[case]) - min(none[case])) / ROUNDS[case[0]] * 1e6 for case in CASES}
        for (call, name), time in times.items():
            print(f"{call:8} {name:7} {time:9.1f} us a round, {time / times['terms', 'wide']:5.2f} times `terms`")


if __name__ == "__main__":
    main()
