"""Times the reading and the writing of a proof log of 50 MB or more.

usage: tree_log.py PROGRAM [TRIES]

PROGRAM is the built program of the crate log_rounds. The log has 64 scenarios, 1,000 columns and 1,000 rows, and each of
its nodes but the last ones a certificate with 128 steps and a vector of 128 entries. Reading is timed as the difference
between runs that load and read the log and runs that only load it, and writing as the difference between runs that write
it too and runs that read it. Prints the least processor time over the tries as megabytes a second, and the greatest
memory of a run that reads the log, as a multiple of the log's length. A copy must equal the log.
"""
import os
import subprocess
import sys
import tempfile

from limits import ROWS, write_model

COLUMNS = 1000
SCENARIOS = 64
LENGTH = 50_000_000


def certificate(node):
    steps = " ".join(f"{(node + i) % ROWS} {(node * 7 + i) % COLUMNS} {'LU'[i % 2]}" for i in range(128))
    entries = " ".join(f"{i * 7} {-(node * 1009 + i * 37) - 1}" for i in range(128))
    verdicts = " ".join(["b0"] * SCENARIOS)
    return f"steps 128 {steps}\nvector 1024 128 {entries}\nverdicts {verdicts}\n"


def write_text(name):
    """A log whose splits are nodes 0, 1, .. with the children 2k + 1 and 2k + 2."""
    parts = []
    length = 0
    while length < LENGTH:
        parts.append(certificate(len(parts)))
        length += len(parts[-1])
    splits = len(parts)
    nodes = 2 * splits + 1
    point = " ".join(str(j - 500) for j in range(COLUMNS))
    stay = " ".join(map(str, range(SCENARIOS)))
    with open(name, "w") as log:
        log.write(f"scenlog 1\nsize {SCENARIOS} {COLUMNS} {ROWS} {nodes}\n")
        for scenario in range(SCENARIOS):
            log.write(f"claim limit {scenario} -{scenario + 1} {point}\n")
        for k, part in enumerate(parts):
            log.write(f"split {2 * k + 1} {k % COLUMNS} {-k - 1}\nstay {stay}\n{part}")
        for _ in range(splits + 1):
            log.write("rest\n")
        log.write("end\n")


def usage(program, *words):
    """The processor time in seconds and the greatest memory in bytes of a run, and what it printed."""
    with tempfile.TemporaryFile() as out:
        run = subprocess.Popen([program, *words], stdout=out)
        _, status, used = os.wait4(run.pid, 0)
        assert status == 0, status
        out.seek(0)
        return used.ru_utime + used.ru_stime, used.ru_maxrss * 1024, out.read()


def main():
    program = os.path.abspath(sys.argv[1])
    tries = int(sys.argv[2]) if len(sys.argv) > 2 else 5
    with tempfile.TemporaryDirectory() as folder:
        model = os.path.join(folder, "limits.mps")
        log = os.path.join(folder, "long.log")
        write_model(model, [("L", 900_000_000)] * ROWS)
        write_text(log)
        length = os.path.getsize(log)
        runs = {call: [usage(program, model, log, call) for _ in range(tries)] for call in ["load", "read", "copy"]}
        assert runs["copy"][0][2] == open(log, "rb").read()
        times = {call: min(run[0] for run in of_call) for call, of_call in runs.items()}
        model_time = min(usage(program, model, small_log(folder), "copy")[0] for _ in range(tries))
        read = times["read"] - times["load"]
        written = times["copy"] - times["read"] - model_time
        memory = max(run[1] for run in runs["read"])
        print(f"length {length / 1e6:.1f} MB")
        print(f"read   {length / 1e6 / read:.1f} MB/s")
        print(f"write  {length / 1e6 / written:.1f} MB/s")
        print(f"memory {memory / length:.2f} times the length")


def small_log(folder):
    """A log of one node, for the time that the model takes."""
    name = os.path.join(folder, "short.log")
    with open(name, "w") as log:
        log.write(f"scenlog 1\nsize 1 {COLUMNS} {ROWS} 1\nclaim infeasible\nrest\nend\n")
    return name


if __name__ == "__main__":
    main()
