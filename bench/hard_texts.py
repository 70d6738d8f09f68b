"""Times the program on model texts of nearly 16 MB that could make a reader slow.

usage: hard_texts.py PROGRAM [ROUNDS]

Prints for each text its size, how the program ended and the median over the rounds in milliseconds.
"""
import os
import statistics
import subprocess
import sys
import tempfile
import time

LIMIT = 16_777_216 - 200
HEAD = "ROWS\n N cost\n N dropped\n L row\nCOLUMNS\n M 'MARKER' 'INTORG'\n x cost 1 row 1\n"
BOUNDS = " M 'MARKER' 'INTEND'\nRHS\n rhs row 1\nBOUNDS\n UP b x 1\n"


def repeated(line, room):
    return line * (room // len(line))


def texts():
    room = LIMIT - len(HEAD) - len(BOUNDS)
    yield "one column bounded again and again", HEAD + BOUNDS + repeated(" UP b x 1\n", room) + "ENDATA\n"
    yield "pairs on a dropped row", HEAD + repeated(" x dropped 1\n", room) + BOUNDS + "ENDATA\n"
    yield "empty lines", repeated("\n", room) + HEAD + BOUNDS + "ENDATA\n"
    yield "comment lines", repeated("* a comment\n", room) + HEAD + BOUNDS + "ENDATA\n"
    yield "one line of fields", HEAD + repeated(" x", room) + "\n" + BOUNDS + "ENDATA\n"
    yield "one long name", "ROWS\n N cost\n L " + repeated("r", room) + "\n"
    yield "one number of many digits", HEAD + BOUNDS + " UP b x " + repeated("0", room) + "1\nENDATA\n"
    yield "no end", HEAD + BOUNDS + repeated(" UP b x 1\n", room)


def main():
    program = os.path.abspath(sys.argv[1])
    rounds = int(sys.argv[2]) if len(sys.argv) > 2 else 5
    with tempfile.TemporaryDirectory() as folder:
        path = os.path.join(folder, "model.mps")
        for name, text in texts():
            with open(path, "w") as out:
                out.write(text)
            times = []
            for _ in range(rounds):
                start = time.perf_counter()
                run = subprocess.run([program, "solve", path, "-"], capture_output=True)
                times.append((time.perf_counter() - start) * 1000)
            ended = run.stderr.decode().strip() or "solved"
            print(f"{name}: {len(text)} bytes, status {run.returncode}, {ended}, median {statistics.median(times):.0f} ms")


if __name__ == "__main__":
    main()
