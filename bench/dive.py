"""Rates and times the dives into the root boxes of a model's scenarios.

usage: dive.py PROGRAM FOLDER [TRIES]

PROGRAM is the built program of the crate dive_rounds. FOLDER has pairs NAME.mps (in the free layout or with fields
parted by blanks) and NAME.chg. Each scenario is dived into twice: by costs (cost), and near a point that is made here by
an augmented Lagrangian descent of the linear relaxation (near). Each point is checked here against the bounds and rows.
As the points of one scenario may do for others, the best of all points for each scenario is rated too (each).

FOLDER/best.txt may have lines NAME VALUE.. with the best value of each scenario in the form that is minimised, `inf`
where none is feasible and `?` where it isn't known. Where a value isn't known, the better of the two dives takes its
place, and a scenario without a point in either dive counts as one that may have none.

Prints for each model and each kind of dive how many scenarios have a point, of how many that may have one, the mean
distance of its value from the best one in percent, and the least processor time over the tries in microseconds a dive.
"""
import os
import subprocess
import sys
import tempfile

ONE = 1 << 14
ROUNDS = 20
PASSES = 300


def read_model(name):
    """Columns as [cost, low, high], rows as (sense, right-hand side, terms), and whether it is a maximum."""
    columns, rows, column_at, row_at, part, sign = [], [], {}, {}, "", 1
    for line in open(name):
        fields = line.split()
        if not fields or line.startswith("*"):
            continue
        if not line[0].isspace():
            part = fields[0]
        elif part == "OBJSENSE":
            sign = -1 if fields[0] == "MAX" else 1
        elif part == "ROWS":
            row_at[fields[1]] = len(rows) if fields[0] != "N" else None
            if fields[0] != "N":
                rows.append([fields[0], 0, {}])
        elif part == "COLUMNS" and "'MARKER'" not in fields:
            if fields[0] not in column_at:
                column_at[fields[0]] = len(columns)
                columns.append([0, 0, 1])
            for row, number in zip(fields[1::2], fields[2::2]):
                if row_at[row] is None:
                    columns[column_at[fields[0]]][0] = sign * int(number)
                else:
                    rows[row_at[row]][2][column_at[fields[0]]] = int(number)
        elif part == "RHS":
            for row, number in zip(fields[1::2], fields[2::2]):
                rows[row_at[row]][1] = int(number)
        elif part == "BOUNDS":
            columns[column_at[fields[2]]][1 if fields[0] == "LO" else 2] = int(fields[3])
    return columns, rows, column_at, row_at, sign


def read_scenarios(name, columns, rows, column_at, row_at, sign):
    """The columns and rows of each scenario."""
    scenarios = []
    for line in open(name):
        fields = line.split()
        if not fields or fields[0] == "scenarios":
            continue
        if fields[0] == "scenario":
            scenarios.append(([list(column) for column in columns], [list(row) for row in rows]))
        elif fields[0] == "rhs":
            scenarios[-1][1][row_at[fields[1]]][1] = int(fields[2])
        else:
            place = {"obj": 0, "lb": 1, "ub": 2}[fields[0]]
            scenarios[-1][0][column_at[fields[1]]][place] = int(fields[2]) * (sign if place == 0 else 1)
    return scenarios


def near_point(columns, rows):
    """A point near a best one of the linear relaxation, by descent along single columns and multipliers of the rows."""
    by_column = [[] for _ in columns]
    for i, (_, _, terms) in enumerate(rows):
        for j, a in terms.items():
            by_column[j].append((i, a))
    free = [j for j, (_, low, high) in enumerate(columns) if low < high]
    x = [float(low if cost > 0 else high if cost < 0 else (low + high) / 2) for cost, low, high in columns]
    if not free:
        return x
    cost = max(0.5, sum(abs(columns[j][0]) for j in free) / len(free))
    width = sum(columns[j][2] - columns[j][1] for j in free) / len(free)
    norms = [sum(a * a for j, a in terms.items() if columns[j][1] < columns[j][2]) or 1 for _, _, terms in rows]
    density = max(1, sum(1 for norm in norms if norm > 1)) / len(free)
    weight = [cost / (width * density * norm) for norm in norms]
    sums = [sum(a * x[j] for j, a in terms.items()) for _, _, terms in rows]
    multipliers = [0.0] * len(rows)

    def pull(i):
        value = multipliers[i] + weight[i] * (rows[i][1] - sums[i])
        return value if rows[i][0] == "E" else max(0.0, value) if rows[i][0] == "G" else min(0.0, value)

    for _ in range(PASSES):
        for j in free:
            slope, bend = columns[j][0], 0.0
            for i, a in by_column[j]:
                value = pull(i)
                if value:
                    slope -= a * value
                    bend += weight[i] * a * a
            low, high = columns[j][1], columns[j][2]
            new = min(high, max(low, x[j] - slope / bend)) if bend else low if slope > 0 else high if slope < 0 else x[j]
            if new != x[j]:
                for i, a in by_column[j]:
                    sums[i] += a * (new - x[j])
                x[j] = new
        multipliers = [pull(i) for i in range(len(rows))]
    return x


def point_of(line):
    """The numbers of a printed point, None where there is none."""
    return None if line in ("stuck", "empty") else [int(number) for number in line.split()]


def is_feasible(columns, rows, point):
    if len(point) != len(columns) or not all(low <= number <= high for number, (_, low, high) in zip(point, columns)):
        return False
    for sense, side, terms in rows:
        total = sum(a * point[j] for j, a in terms.items())
        if not (total <= side if sense == "L" else total >= side if sense == "G" else total == side):
            return False
    return True


def value_at(columns, point):
    return sum(cost * number for number, (cost, _, _) in zip(point, columns))


def value_of(columns, rows, line):
    """The value of a printed point, which must be feasible, None where there is none."""
    point = point_of(line)
    assert point is None or is_feasible(columns, rows, point)
    return None if point is None else value_at(columns, point)


def shared(scenarios, lines):
    """For each scenario the least value of all points of all dives that are feasible for it, None where there is none."""
    points = [point for line in lines if (point := point_of(line)) is not None]
    best = []
    for columns, rows in scenarios:
        values = [value_at(columns, point) for point in points if is_feasible(columns, rows, point)]
        best.append(min(values) if values else None)
    return best


def dives(program, model, changes, near, tries):
    """The printed lines, and the processor time of a dive in microseconds."""
    times = {0: [], ROUNDS: []}
    for _ in range(tries):
        for rounds in times:
            run = subprocess.Popen([program, model, changes, near, str(rounds)], stdout=subprocess.PIPE)
            text = run.stdout.read()
            _, status, usage = os.wait4(run.pid, 0)
            assert status == 0, status
            times[rounds].append(usage.ru_utime + usage.ru_stime)
    lines = text.decode().splitlines()
    return [line.strip() for line in lines], (min(times[ROUNDS]) - min(times[0])) / ROUNDS / len(lines) * 1e6


def rate(name, kind, values, best, time):
    may = [s for s in range(len(best)) if best[s] is not None]
    found = [s for s in may if values[s] is not None]
    gaps = [(values[s] - best[s]) / max(1, abs(best[s])) for s in found]
    gap = f"{100 * sum(gaps) / len(gaps):6.2f} %" if gaps else "       -"
    print(f"{name:14} {kind:5} {len(found):3} of {len(may):3}  {gap}  {time:8.0f} us")
    return len(found), len(may)


def main():
    program, folder = os.path.abspath(sys.argv[1]), sys.argv[2]
    tries = int(sys.argv[3]) if len(sys.argv) > 3 else 3
    known = {}
    if os.path.exists(os.path.join(folder, "best.txt")):
        known = {line.split()[0]: line.split()[1:] for line in open(os.path.join(folder, "best.txt"))}
    totals = {"cost": [0, 0], "near": [0, 0], "each": [0, 0]}
    for name in sorted(name[:-4] for name in os.listdir(folder) if name.endswith(".chg")):
        model, changes = os.path.join(folder, name + ".mps"), os.path.join(folder, name + ".chg")
        parts = read_model(model)
        scenarios = read_scenarios(changes, *parts)
        with tempfile.NamedTemporaryFile("w", suffix=".near") as near:
            for columns, rows in scenarios:
                near.write(" ".join(str(round(number * ONE)) for number in near_point(columns, rows)) + "\n")
            near.flush()
            answers = {"cost": dives(program, model, changes, "-", tries), "near": dives(program, model, changes, near.name, tries)}
        values = {kind: [value_of(*scenario, line) for scenario, line in zip(scenarios, lines)] for kind, (lines, _) in answers.items()}
        values["each"] = shared(scenarios, answers["cost"][0] + answers["near"][0])
        answers["each"] = (None, answers["cost"][1] + answers["near"][1])
        best = []
        for s, word in enumerate(known.get(name, ["?"] * len(scenarios))):
            found = [values[kind][s] for kind in values if values[kind][s] is not None]
            best.append(int(word) if word not in ("?", "inf") else min(found) if found and word == "?" else None)
        for kind in answers:
            found, may = rate(name, kind, values[kind], best, answers[kind][1])
            totals[kind][0] += found
            totals[kind][1] += may
    for kind, (found, may) in totals.items():
        print(f"{'all':14} {kind:5} {found:3} of {may:3}")


if __name__ == "__main__":
    main()
