"""Counts the nodes of a run and times it, beside a solver that takes each scenario by itself.

usage: run.py PROGRAM GENERATOR [--classes C,..] [--sizes Z,..] [--scenarios N,..] [--seeds K,..] [--tries T]
              [--nodes NODES] [--limit S] [--peers glpk,cuts] [--peer-limit S] [--named] [--other WORD..]

PROGRAM is the built program of the crate solve_rounds, and GENERATOR a program that is called as
`GENERATOR FOLDER CLASS SIZE SCENARIOS SEED` and writes a model, its changes and one model a scenario. For each class,
size, number of scenarios and seed it prints the nodes of the tree, the scenarios that are optimal, infeasible and a
limit, the time, what all scenarios cost against the model alone, and how much faster than the peers the run was: the
better one of `glpsol` and `glpsol --cuts` over ours. `DIFFER` stands where they found another value. Then it prints a
line for each class and number of scenarios, with the geometric mean of that and the target. With --named it counts the
nodes of the named instances instead.

Times are processor times in milliseconds, the median over the tries, less the start-up of the process, which is the
time on a model of one column (a peer's is taken again beside each of its runs). Limits are processor times too, in whole
seconds. A peer has the limit for a scenario, and three times as much for all; where one is cut off, the factor is at
least what is printed (`>`). A run of ours that needs more than its limit is told as `cut off`, and counts with the time
that it took. OTHER with its words, if given, is called as `OTHER WORD.. MODEL CHANGES`, and what it prints as `nodes N`
and its time, with its start-up, stand beside ours.
"""
import argparse
import math
import os
import re
import resource
import statistics
import subprocess
import sys
import tempfile

CLASSES = ["gen", "cov", "lot", "inf", "gap", "cap", "shf", "mkp", "cut"]
TARGETS = {
    64: dict(gen=2, cov=2, lot=2, inf=2.5, gap=1.1, cap=0.85, shf=0.95, mkp=0.5, cut=0.2),
    8: dict(gen=2.5, cov=1.1, lot=0.9, inf=0.6, gap=0.7, cap=0.45, shf=0.4, mkp=0.25, cut=0.1),
}
NAMED = [
    ("gap l 8 1", 500),
    ("lot l 8 1", 1_000),
    ("cap l 8 1", 400),
    ("cov l 8 1", 300),
    ("gap m 64 1", 1_200),
    ("gen m 64 1", 200),
]
LEAST_TIME = 0.0002
ONE_COLUMN = """NAME one
ROWS
 N obj
 L r
COLUMNS
    MARKER 'MARKER' 'INTORG'
    x obj -1
    x r 1
    MARKER 'MARKER' 'INTEND'
RHS
    rhs r 1
BOUNDS
 UP bnd x 1
ENDATA
"""


def call(words, limit):
    """The processor time, the text that is written, and whether the process ended well within the limit."""
    with tempfile.TemporaryFile() as out:
        # No function runs between fork and exec, since that would copy this process at the cost of the other one.
        run = subprocess.Popen([str(word) for word in words], stdout=out, stderr=subprocess.DEVNULL)
        seconds = math.ceil(limit)
        resource.prlimit(run.pid, resource.RLIMIT_CPU, (seconds, seconds + 1))
        _, status, usage = os.wait4(run.pid, 0)
        run.returncode = status
        out.seek(0)
        text = out.read().decode("latin1")
    return usage.ru_utime + usage.ru_stime, text, os.WIFEXITED(status) and os.WEXITSTATUS(status) == 0


def timed(words, limit, tries):
    """As `call`, with the median of the times; a long run is made once."""
    time, text, ended = call(words, limit)
    times = [time]
    while len(times) < tries and time < 1:
        times.append(call(words, limit)[0])
    return statistics.median(times), text, ended


def glpk_value(text):
    """What `glpsol` says of a model: its value, `inf`, or `?`."""
    if "INTEGER OPTIMAL" in text:
        found = re.findall(r"\+\s*\d+: (?:>>>>>|mip =)\s+(-?[\d.]+(?:e[+-]?\d+)?)", text)
        return str(round(float(found[-1]))) if found else "?"
    if any(word in text for word in ("NO PRIMAL FEASIBLE", "NO INTEGER FEASIBLE", "PROBLEM HAS NO")):
        return "inf"
    return "?"


class Peers:
    """The solvers that take each scenario by itself."""

    def __init__(self, names, limit, one):
        self.names = names
        self.limit = limit
        self.one = one

    def total(self, name, files, tries):
        """The time on all files, the values, and whether all were solved."""
        options = ["--cuts"] if name == "cuts" else []
        spent, values = 0.0, []
        for file in files:
            time, text, _ = timed(["glpsol", "--freemps", file, *options], self.limit, tries)
            spent += time - timed(["glpsol", "--freemps", self.one], self.limit, tries)[0]
            values.append(glpk_value(text))
            if spent > 3 * self.limit:
                break
        return spent, values, len(values) == len(files) and "?" not in values

    def best(self, files, tries):
        """The least time of a peer, whether it solved all, and the values that some peer found."""
        totals = [self.total(name, files, tries) for name in self.names]
        solved = [(spent, True) for spent, _, is_all in totals if is_all]
        best = min(solved or [(spent, False) for spent, _, _ in totals])
        return *best, [values for _, values, _ in totals]


class Ours:
    def __init__(self, program, nodes, limit, tries, start):
        self.program, self.nodes, self.limit, self.tries, self.start = program, nodes, limit, tries, start

    def run(self, model, changes):
        """The time, and where the run ended, the counts and the values."""
        time, text, ended = timed([self.program, model, changes, self.nodes], self.limit, self.tries)
        time = max(time - self.start, LEAST_TIME)
        if not ended:
            return time, None, []
        first, second = text.splitlines()
        return time, [int(word) for word in re.findall(r"\d+", first)], second.split()[1:]


def generated(generator, folder, words):
    """The model, the changes and the scenarios' models."""
    subprocess.run([sys.executable, generator, folder, *words], stdout=subprocess.DEVNULL, check=True)
    path = os.path.join(folder, "_".join(words))
    files = [f"{path}.s{k}.mps" for k in range(int(words[2]))]
    return path + ".mps", path + ".chg", files


def differ(values, others):
    return any("?" not in pair and pair[0] != pair[1] for pair in zip(values, others))


def other_text(words, model, changes, args):
    time, text, _ = timed([*words, model, changes], args.limit, args.tries)
    nodes = re.search(r"nodes (\d+)", text)
    return f"; the other one {nodes.group(1) if nodes else '?'} nodes, {1000 * time:.1f} ms"


def measure(args, ours, peers, folder, words):
    """Prints the line of an instance, and returns how much faster ours was, and the cost against one scenario."""
    model, changes, files = generated(args.generator, folder, words)
    time, counts, values = ours.run(model, changes)
    alone, alone_counts, _ = ours.run(model, "-")
    cost = time / alone if counts and alone_counts else float("nan")
    line = "%-12s " % "_".join(words)
    if counts:
        line += "%6d nodes %2d/%2d/%2d %9.1f ms, %5.1f times one" % (*counts, 1000 * time, cost)
    else:
        line += "cut off after %.1f ms" % (1000 * time)
    factor = float("nan")
    if peers.names:
        spent, is_all, told = peers.best(files, args.tries if len(files) < 20 else 1)
        factor = max(spent, LEAST_TIME) / time
        line += ", peers %9.1f ms, factor %s%.2f" % (1000 * spent, "" if is_all else ">", factor)
        if any(differ(values, other) for other in told):
            line += " DIFFER"
    if args.other:
        line += other_text(args.other, model, changes, args)
    print(line, flush=True)
    return factor, cost


def mean(numbers):
    numbers = [number for number in numbers if number > 0]
    return math.exp(statistics.fmean(map(math.log, numbers))) if numbers else float("nan")


def measure_classes(args, ours, peers, folder):
    table = []
    for kind in args.classes.split(","):
        for count in map(int, args.scenarios.split(",")):
            found = [
                measure(args, ours, peers, folder, [kind, size, str(count), seed])
                for size in args.sizes.split(",")
                for seed in args.seeds.split(",")
            ]
            factor, cost = mean(f for f, _ in found), mean(c for _, c in found)
            target = TARGETS.get(count, {}).get(kind)
            line = f"{kind} {count:2} scenarios: factor {factor:.2f}, cost {cost:.1f} of one"
            if target is not None:
                line += f", target {target} " + ("met" if factor >= target else "missed")
            table.append(line)
    print("\n".join(table), flush=True)


def judged(counts, target):
    """What is said of a number of nodes, where each scenario must be closed."""
    nodes, _, _, limits = counts
    if limits or nodes > 2 * target:
        return "missed"
    return "met" if nodes <= target else "within twice"


def count_named(args, ours, folder):
    for name, target in NAMED:
        words = name.split()
        model, changes, _ = generated(args.generator, folder, words)
        time, counts, _ = ours.run(model, changes)
        line = "%-12s " % "_".join(words)
        if counts:
            line += "%6d nodes %2d/%2d/%2d %9.1f ms" % (*counts, 1000 * time)
            line += ", target %5d nodes: %s" % (target, judged(counts, target))
        else:
            line += "cut off after %.1f ms" % (1000 * time)
        print(line + (other_text(args.other, model, changes, args) if args.other else ""), flush=True)


def main():
    parse = argparse.ArgumentParser(usage=__doc__)
    parse.add_argument("program")
    parse.add_argument("generator")
    parse.add_argument("--classes", default=",".join(CLASSES))
    parse.add_argument("--sizes", default="s,m,l")
    parse.add_argument("--scenarios", default="8,64")
    parse.add_argument("--seeds", default="501,502,503,504")
    parse.add_argument("--tries", type=int, default=3)
    parse.add_argument("--nodes", type=int, default=100_001)
    parse.add_argument("--limit", type=float, default=60)
    parse.add_argument("--peers", default="glpk,cuts")
    parse.add_argument("--peer-limit", type=float, default=10)
    parse.add_argument("--named", action="store_true")
    parse.add_argument("--other", nargs="+")
    args = parse.parse_args()
    args.program, args.generator = os.path.abspath(args.program), os.path.abspath(args.generator)
    with tempfile.TemporaryDirectory() as folder:
        one = os.path.join(folder, "one.mps")
        with open(one, "w") as file:
            file.write(ONE_COLUMN)
        start = timed([args.program, one, "-", 1], args.limit, 9)[0]
        ours = Ours(args.program, args.nodes, args.limit, args.tries, start)
        if args.named:
            count_named(args, ours, folder)
            return
        names = [name for name in args.peers.split(",") if name]
        peers = Peers(names, args.peer_limit, one)
        measure_classes(args, ours, peers, folder)


if __name__ == "__main__":
    main()
