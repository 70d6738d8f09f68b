"""Times the reading of a model at the limits: 1,000 columns, 1,000 rows, 100,000 entries.

usage: read_model.py PROGRAM [ROUNDS]

The model's first row can't be met, so that the search closes its first box and the time is that of the reading, the
building of the model and one look at each row. Prints the median over the rounds in milliseconds.
"""
import os
import statistics
import subprocess
import sys
import tempfile
import time

from limits import ROWS, write_model


def main():
    program = os.path.abspath(sys.argv[1])
    rounds = int(sys.argv[2]) if len(sys.argv) > 2 else 9
    with tempfile.TemporaryDirectory() as folder:
        path = os.path.join(folder, "limits.mps")
        write_model(path, [("G", 10**18)] + [("L", None)] * (ROWS - 1))
        times = []
        for _ in range(rounds):
            start = time.perf_counter()
            run = subprocess.run([program, "solve", path, "-"], capture_output=True)
            times.append((time.perf_counter() - start) * 1000)
            assert run.returncode == 0 and b"Status infeasible" in run.stdout, (run.returncode, run.stderr)
        size = os.path.getsize(path)
    print(f"{size} bytes, {rounds} rounds, median {statistics.median(times):.1f} ms")


if __name__ == "__main__":
    main()
