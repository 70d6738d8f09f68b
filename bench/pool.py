"""Counts the work of settling a node beside the work of probing it.

usage: pool.py PROGRAM GENERATOR

PROGRAM is the built program of the crate solve_rounds, and GENERATOR a program that is called as
`GENERATOR FOLDER CLASS SIZE SCENARIOS SEED` and writes a model and its changes. Each run goes through valgrind's callgrind,
which counts instructions, so other work on the machine doesn't matter; `probe` and `settle` are kept out of line, so that
their calls are counted. Prints for each model the nodes, and the instructions of probing and of settling as shares of the
run, and of settling as a share of probing; then the parts of probing, as far as the compiler keeps them out of line.
"""
import os
import re
import subprocess
import sys
import tempfile
from collections import Counter

MODELS = ["cap l 8 1", "cov l 8 1", "gap m 64 1", "gen m 64 1"]
RUN, PROBE, SETTLE = "::run_alone", "::probe", "::settle"
PARTS = {
    "climbs": "::climb_next", "the promise's totals": "::total_of", "levels": "::raise_by", "dives": "::dive_open",
    "splits": "::split_of", "verdicts": "::judge_live",
}


def counted(profile):
    """The instructions of all calls of each function, with those of the functions that it calls, by name."""
    names, calls = {}, Counter()
    callee = None
    called = False
    with open(profile) as lines:
        for line in lines:
            if found := re.match(r"(c?fn)=\((\d+)\)(?: (.*))?", line):
                kind, number, name = found.groups()
                if name:
                    names[number] = name
                if kind == "cfn":
                    callee = names[number]
            elif line.startswith("calls="):
                called = True
            elif called and (cost := re.match(r"\S+ (?:\S+ )?(\d+)$", line)):
                calls[callee] += int(cost.group(1))
                called = False
    return calls


def instructions(calls, ending):
    return sum(count for name, count in calls.items() if name.endswith(ending))


def main():
    program = os.path.abspath(sys.argv[1])
    generator = os.path.abspath(sys.argv[2])
    # Without this a byte that is set to zero would count as an instruction.
    environment = {**os.environ, "GLIBC_TUNABLES": "glibc.cpu.hwcaps=-ERMS"}
    with tempfile.TemporaryDirectory() as folder:
        for model in MODELS:
            words = model.split()
            subprocess.run([sys.executable, generator, folder, *words], stdout=subprocess.DEVNULL, check=True)
            name = os.path.join(folder, "_".join(words))
            profile = name + ".callgrind"
            run = subprocess.run(
                ["valgrind", "--quiet", "--tool=callgrind", f"--callgrind-out-file={profile}"]
                + [program, name + ".mps", name + ".chg", "100001"],
                capture_output=True, text=True, env=environment, check=True,
            )
            calls = counted(profile)
            total, probing, settling = (instructions(calls, ending) for ending in (RUN, PROBE, SETTLE))
            nodes = run.stdout.split()[0]
            print(
                f"{'_'.join(words)}: {nodes} nodes, probing {probing / total:.1%}, settling {settling / total:.1%}, "
                f"{settling / probing:.1%} of probing"
            )
            parts = {part: instructions(calls, ending) for part, ending in PARTS.items()}
            print("  of probing: " + ", ".join(f"{part} {count / probing:.1%}" for part, count in parts.items() if count))


main()
