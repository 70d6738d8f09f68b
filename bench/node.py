"""Times the work at a node, beside a search that may be given for comparison.

usage: node.py PROGRAM GENERATOR [TRIES [OTHER WORD..]]

PROGRAM is the built program of the crate node_rounds, and GENERATOR a program that is called as
`GENERATOR FOLDER CLASS SIZE SCENARIOS SEED` and writes a model and its changes. Of four classes in two sizes with 8
scenarios each, the program searches with at most NODES nodes. Prints for each model the nodes that were worked on and
made, how many scenarios were closed, and the processor time of a node in microseconds: that of ROUNDS searches less
that of none, over the nodes, the least over the tries. OTHER with its words, if given, is called as
`OTHER WORD.. MODEL CHANGES` and prints `settled N`, the number of its nodes; its time a node is printed too, which is that of
its whole run over the nodes.

Then, for each of nine classes in the same sizes, the program works on the root alone: a line says how many of the
scenarios one probe closed there, and the last line how many of all.
"""
import os
import re
import subprocess
import sys
import tempfile

from timing import seconds

CLASSES = ["cap", "cov", "gap", "lot"]
ROOT_CLASSES = ["gen", "mkp", "cov", "gap", "cap", "shf", "lot", "inf", "cut"]
SIZES = ["m", "l"]
SCENARIOS = 8
SEED = 1
NODES = 2_000
ROUNDS = 3


def generated(generator, folder, kind, size):
    """The name of a model, and the files of the model and of its changes."""
    words = [kind, size, str(SCENARIOS), str(SEED)]
    subprocess.run([sys.executable, generator, folder, *words], stdout=subprocess.DEVNULL, check=True)
    name = "_".join(words)
    return name, *(os.path.join(folder, name + end) for end in (".mps", ".chg"))


def searched(program, model, changes, nodes=NODES):
    """The nodes worked on and made, and the scenarios closed."""
    run = subprocess.run([program, model, changes, str(nodes), "1"], capture_output=True, text=True, check=True)
    first, *scenarios = run.stdout.splitlines()
    worked, made = map(int, re.match(r"(\d+) of (\d+) nodes", first).groups())
    return worked, made, sum(line.endswith("closed") for line in scenarios)


def node_time(program, model, changes, worked, tries):
    none = min(seconds(program, model, changes, NODES, 0) for _ in range(tries))
    some = min(seconds(program, model, changes, NODES, ROUNDS) for _ in range(tries))
    return (some - none) / (ROUNDS * worked) * 1e6


def other_time(words, model, changes, tries):
    """The nodes of the other search, and its time a node in microseconds."""
    run = subprocess.run([*words, model, changes], capture_output=True, text=True, check=True)
    settled = int(re.search(r"settled (\d+)", run.stdout).group(1))
    return settled, min(seconds(*words, model, changes) for _ in range(tries)) / settled * 1e6


def print_nodes(program, generator, folder, tries, other):
    for kind in CLASSES:
        for size in SIZES:
            name, model, changes = generated(generator, folder, kind, size)
            worked, made, closed = searched(program, model, changes)
            time = node_time(program, model, changes, worked, tries)
            line = f"{name:10} {worked:5} of {made:5} nodes, {closed} of {SCENARIOS} closed, {time:7.1f} us a node"
            if other:
                settled, rate = other_time(other, model, changes, tries)
                line += f"; the other one {settled:5} nodes, {rate:7.1f} us"
            print(line, flush=True)


def print_roots(program, generator, folder):
    all_closed = all_scenarios = 0
    for kind in ROOT_CLASSES:
        for size in SIZES:
            name, model, changes = generated(generator, folder, kind, size)
            worked, _, closed = searched(program, model, changes, nodes=1)
            assert worked == 1, worked
            all_closed += closed
            all_scenarios += SCENARIOS
            print(f"{name:10} {closed} of {SCENARIOS} closed at the root", flush=True)
    print(f"{all_closed} of {all_scenarios} closed at the root, {100 * all_closed / all_scenarios:.0f} %")


def main():
    program = os.path.abspath(sys.argv[1])
    generator = os.path.abspath(sys.argv[2])
    tries = int(sys.argv[3]) if len(sys.argv) > 3 else 3
    other = sys.argv[4:]
    with tempfile.TemporaryDirectory() as folder:
        print_nodes(program, generator, folder, tries, other)
        print_roots(program, generator, folder)


if __name__ == "__main__":
    main()
