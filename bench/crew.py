#!/usr/bin/env python3
"""Times one worker against several on one tree.

usage: crew.py PROGRAM GENERATOR [--classes C,..] [--sizes Z,..] [--scenarios N,..] [--seeds K,..] [--workers W,..]
               [--tries T] [--least MS] [--limit S]

PROGRAM is the built program of the crate scenopt, and GENERATOR a program that is called as
`GENERATOR FOLDER CLASS SIZE SCENARIOS SEED` and writes a model and its changes. For each instance it prints the wall
time of one worker in milliseconds, the median over the tries, and how much faster each number of workers was. Instances
where one worker takes less than the least time are left out. Then it prints the geometric means. The statuses and
values of all runs must be the same; `DIFFER` stands where they are not. Use a machine that does nothing else.
"""
import argparse
import math
import os
import statistics
import subprocess
import sys
import tempfile
import time


def answers(report):
    kept = ("ScenarioNumber", "Status", "ScenNObjVal")
    return [line for line in report.split("\n") if line.split(" ")[0] in kept]


def timed(program, model, changes, workers, tries, limit):
    """The median wall time and the answers, or None where a run didn't end within the limit."""
    times, told = [], None
    for _ in range(tries):
        begun = time.perf_counter()
        try:
            done = subprocess.run([program, "solve", model, changes, "--workers", str(workers)], capture_output=True, timeout=limit)
        except subprocess.TimeoutExpired:
            return None
        times.append(time.perf_counter() - begun)
        told = answers(done.stdout.decode("latin1"))
    return statistics.median(times), told


def main():
    parser = argparse.ArgumentParser()
    parser.add_argument("program")
    parser.add_argument("generator")
    parser.add_argument("--classes", default="gen,cov,lot,inf,gap,cap")
    parser.add_argument("--sizes", default="m,l")
    parser.add_argument("--scenarios", default="8,64")
    parser.add_argument("--seeds", default="1,2")
    parser.add_argument("--workers", default="2,4")
    parser.add_argument("--tries", type=int, default=3)
    parser.add_argument("--least", type=float, default=50)
    parser.add_argument("--limit", type=float, default=10)
    args = parser.parse_args()
    crews = [int(number) for number in args.workers.split(",")]
    factors = {number: [] for number in crews}
    for kind in args.classes.split(","):
        for size in args.sizes.split(","):
            for scenarios in args.scenarios.split(","):
                for seed in args.seeds.split(","):
                    with tempfile.TemporaryDirectory() as folder:
                        subprocess.run([sys.executable, args.generator, folder, kind, size, scenarios, seed], check=True, stdout=subprocess.DEVNULL)
                        stem = os.path.join(folder, f"{kind}_{size}_{scenarios}_{seed}")
                        model, changes = f"{stem}.mps", f"{stem}.chg"
                        one = timed(args.program, model, changes, 1, args.tries, args.limit)
                        if one is None or one[0] * 1000 < args.least:
                            continue
                        line = f"{kind} {size} {scenarios} {seed}  one {one[0] * 1000:.0f} ms"
                        for number in crews:
                            crew = timed(args.program, model, changes, number, args.tries, args.limit)
                            if crew is None:
                                line += f"  {number}: cut off"
                                continue
                            factors[number].append(one[0] / crew[0])
                            line += f"  {number}: {one[0] / crew[0]:.2f}" + ("" if crew[1] == one[1] else " DIFFER")
                        print(line, flush=True)
    for number in crews:
        if factors[number]:
            mean = math.exp(sum(map(math.log, factors[number])) / len(factors[number]))
            print(f"{number} workers: {mean:.2f} times as fast, over {len(factors[number])} instances")


if __name__ == "__main__":
    main()
