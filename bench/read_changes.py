"""Times the reading of a file of changes of nearly 16 MB: 64 scenarios over 1,000 columns and 1,000 rows.

usage: read_changes.py PROGRAM [ROUNDS]

The first row of the model can't be met in any scenario, so that each search closes its first box. Prints the medians
over the rounds in milliseconds: with the changes, with an empty file of changes, and the difference, which is the
reading, the building of 64 scenarios and one look at the first row of each.
"""
import os
import statistics
import subprocess
import sys
import tempfile
import time

from limits import COLUMNS, ROWS, write_model

LIMIT = 16_777_216


def write_changes(path):
    """Settings that go round scenarios, columns, rows and kinds, until the file is nearly at its limit."""
    kinds = [("obj column", COLUMNS, 10**9), ("lb column", COLUMNS, 10**6), ("ub column", COLUMNS, 10**6), ("rhs row", ROWS, 10**18)]
    size = 0
    with open(path, "w") as out:
        size += out.write("scenarios 64\n")
        k = 0
        while size < LIMIT - 100:
            word, names, most = kinds[k % 4]
            place = 1 + k * 7 % (names - 1)
            if k % 50 == 0:
                size += out.write(f"scenario {k // 50 % 64}\n")
            size += out.write(f"{word}{place} {k * 1_000_003 % most}\n")
            k += 1
    return size


def median(program, words, rounds):
    times = []
    for _ in range(rounds):
        start = time.perf_counter()
        run = subprocess.run([program, "solve", *words], capture_output=True)
        times.append((time.perf_counter() - start) * 1000)
        assert run.returncode == 0 and b"Status infeasible" in run.stdout, (run.returncode, run.stderr)
    return statistics.median(times)


def main():
    program = os.path.abspath(sys.argv[1])
    rounds = int(sys.argv[2]) if len(sys.argv) > 2 else 9
    with tempfile.TemporaryDirectory() as folder:
        model, changes, empty = (os.path.join(folder, name) for name in ("limits.mps", "changes.txt", "empty.txt"))
        write_model(model, [("G", 10**18)] + [("L", None)] * (ROWS - 1))
        size = write_changes(changes)
        open(empty, "w").close()
        whole = median(program, [model, changes], rounds)
        base = median(program, [model, empty], rounds)
    print(f"{size} bytes, {rounds} rounds, median {whole:.1f} ms, without changes {base:.1f} ms, difference {whole - base:.1f} ms")


if __name__ == "__main__":
    main()
