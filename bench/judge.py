"""Times the judging of a verdict on a model at the limits: 1,000 columns, 1,000 rows, 100,000 entries.

usage: judge.py PROGRAM [TRIES]

PROGRAM is the built program of the crate judge_rounds. The certificate has 128 steps and a vector of 128 entries. Each
call is timed as the difference between a run of many rounds and a run of none, divided by the rounds: `replay` copies
the box and replays the steps, `evaluate` makes the vector's sum, and `judge` judges the verdict of the vector, which
cuts the box to the scenario's bounds, replays the steps and makes the sum. Prints the least processor time over the
tries in microseconds a round, and how many times that of `replay` and `evaluate` together `judge` takes.
"""
import os
import sys
import tempfile

from limits import ROWS, write_model
from timing import seconds

ROUNDS = 1000
CALLS = ["replay", "evaluate", "judge"]
END = 900_000_000


def main():
    program = os.path.abspath(sys.argv[1])
    tries = int(sys.argv[2]) if len(sys.argv) > 2 else 7
    with tempfile.TemporaryDirectory() as folder:
        model = os.path.join(folder, "limits.mps")
        write_model(model, [("L", END)] * ROWS)
        none = {call: [] for call in CALLS}
        many = {call: [] for call in CALLS}
        for _ in range(tries):
            for call in CALLS:
                none[call].append(seconds(program, model, call, 0))
                many[call].append(seconds(program, model, call, ROUNDS))
        times = {call: (min(many[call]) - min(none[call])) / ROUNDS * 1e6 for call in CALLS}
        for call, time in times.items():
            print(f"{call:8} {time:9.1f} us a round")
        print(f"judge takes {times['judge'] / (times['replay'] + times['evaluate']):.2f} times replay and evaluate together")


if __name__ == "__main__":
    main()
