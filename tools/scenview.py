#!/usr/bin/env python3
"""Makes one HTML page of a report of scenopt and, where given, of the log of the same run.

usage: scenview.py REPORT [LOG]

The page goes to standard output. It needs no network and no other file.

UNPROVED: unlike the program, this tool is not proved. It shows what the two files say and checks their form, and that
they belong together; it doesn't check that the answers are right. That is done by `scenopt check`.

It reads exactly the formats of docs/FORMATS.md. Anything else is refused with a message on standard error and status 1;
words that are no call end with status 2.
"""
import html
import os
import re
import sys

SCENARIOS, COLUMNS, ROWS, NODES, STEPS, ENTRIES, NAME_BYTES = 64, 1000, 1000, 100_001, 128, 128, 255
VALUE, NUMBER, MULTIPLIER, SCALE = 2**60, 10**6, 2**40, 2**20
DRAWN_NODES = 300
SCENARIOS_A_TABLE = 8
NUMBER_TEXT = re.compile(rb"0|-?[1-9][0-9]*")
INFINITE = {b"inf": "min", b"-inf": "max"}


class Refused(Exception):
    """The text is no report or no log, or the two don't belong together."""


class Lines:
    """The lines of a file, one after the other, with the number of the last one for messages."""

    def __init__(self, file, what):
        self.file, self.what, self.number = file, what, 0

    def refuse(self, why):
        raise Refused("%s line %d: %s" % (self.what, self.number, why))

    def next(self, wanted):
        """The parts of the next line, which are parted by single spaces."""
        line = self.file.readline()
        self.number += 1
        if not line.endswith(b"\n"):
            self.refuse("the file ends before the end of this line, which should be: %s" % wanted)
        parts = line[:-1].split(b" ")
        if b"" in parts:
            self.refuse("single spaces must part the words of the line, which should be: %s" % wanted)
        return parts

    def end(self):
        self.number += 1
        if self.file.read(1):
            self.refuse("the file should end before this line")

    def whole(self, part, least, most, what):
        """A canonical whole number within two limits."""
        if len(part) > 20 or not NUMBER_TEXT.fullmatch(part) or not least <= int(part) <= most:
            self.refuse("%s should be a whole number from %d to %d" % (what, least, most))
        return int(part)


# ------------------------------------------------------------------------------------------------ reading a report


class Answer:
    """What a report or a log says of one scenario. A value or a point that is not there is None."""

    def __init__(self, status, value=None, bound=None, point=None, name=b"-"):
        self.status, self.value, self.bound, self.point, self.name = status, value, bound, point, name


class Report:
    def __init__(self, implied, stated, answers, columns, direction):
        self.implied, self.stated, self.answers = implied, stated, answers
        self.columns, self.direction = columns, direction


def field(lines, word):
    parts = lines.next("%s and one word" % word)
    if len(parts) != 2 or parts[0] != word.encode():
        lines.refuse("should be: %s and one word" % word)
    return parts[1]


def same_direction(lines, direction, found):
    if direction and found and direction != found:
        lines.refuse("earlier lines are those of a %simum" % direction)
    return direction or found


def read_report(file):
    lines = Lines(file, "report")
    implied = lines.whole(field(lines, "ImpliedBinary"), 0, COLUMNS, "the number of implied binary columns")
    stated = lines.whole(field(lines, "NumScenarios"), 0, SCENARIOS, "the number of scenarios")
    answers, columns, direction, ahead = [], None, None, None
    for k in range(max(stated, 1)):
        number = ahead if ahead is not None else field(lines, "ScenarioNumber")
        ahead = None
        if lines.whole(number, 0, SCENARIOS, "the scenario's number") != k:
            lines.refuse("scenario %d should come here" % k)
        answer, direction = read_head(lines, direction)
        if stated == 0 and answer.name != b"-":
            lines.refuse("without scenarios there is no name")
        if answer.value is not None:
            last = k + 1 == max(stated, 1)
            names, answer.point, ahead = read_point(lines, columns, last)
            columns = names if columns is None else columns
        answers.append(answer)
    if ahead is None:
        lines.end()
    if columns is not None and implied > len(columns):
        raise Refused("report line 1: there are only %d columns" % len(columns))
    return Report(implied, stated, answers, columns, direction)


def read_head(lines, direction):
    """The four lines of a scenario between its number and its point."""
    name = field(lines, "ScenNName")
    if len(name) > NAME_BYTES or b"\t" in name or b"\r" in name:
        lines.refuse("a name has at most %d bytes and no blank" % NAME_BYTES)
    status = field(lines, "Status")
    if status not in (b"optimal", b"infeasible", b"limit"):
        lines.refuse("the status should be optimal, infeasible or limit")
    value, found = value_of(lines, field(lines, "ScenNObjVal"))
    direction = same_direction(lines, direction, found)
    if (status == b"optimal" and value is None) or (status == b"infeasible" and value is not None):
        lines.refuse("the value does not fit the status")
    bound, found = value_of(lines, field(lines, "ScenNObjBound"))
    direction = same_direction(lines, direction, found)
    if status == b"limit":
        if bound is None:
            lines.refuse("a limit has a bound")
        if value is not None and value != bound:
            direction = same_direction(lines, direction, "min" if bound < value else "max")
    elif bound != value:
        lines.refuse("the bound should be the value")
    return Answer(status.decode(), value, bound, None, name), direction


def value_of(lines, part):
    if part in INFINITE:
        return None, INFINITE[part]
    return lines.whole(part, -VALUE, VALUE, "a value"), None


def read_point(lines, columns, last):
    """The lines of a point, and the number of the scenario behind it, which was read to find the point's end."""
    names, seen, point = [], set(), []
    while columns is None or len(point) < len(columns):
        if columns is None and last and at_end(lines):
            return names, point, b""
        parts = lines.next("ScenNX, a column and a number")
        if columns is None and not last and len(parts) == 2 and parts[0] == b"ScenarioNumber":
            return names, point, parts[1]
        if len(parts) != 3 or parts[0] != b"ScenNX":
            lines.refuse("should be: ScenNX, a column and a number")
        name = parts[1]
        if len(name) > NAME_BYTES or b"\t" in name or b"\r" in name:
            lines.refuse("a name has at most %d bytes and no blank" % NAME_BYTES)
        if columns is not None and name != columns[len(point)]:
            lines.refuse("the columns should be those of the first point, in its order")
        if columns is None and (name in seen or len(names) == COLUMNS):
            lines.refuse("a report has at most %d columns, each once" % COLUMNS)
        seen.add(name)
        names.append(name)
        point.append(lines.whole(parts[2], -NUMBER, NUMBER, "a column's number"))
    return names, point, None


def at_end(lines):
    at = lines.file.tell()
    more = lines.file.read(1)
    lines.file.seek(at)
    return not more


# --------------------------------------------------------------------------------------------------- reading a log


class Node:
    """A node of the tree: its kind, the live scenarios, their verdicts, who goes on, and its place in the tree."""

    def __init__(self, kind):
        self.kind, self.verdicts, self.stay = kind, [], ()
        self.child = self.column = self.at = None
        self.parent, self.depth, self.live, self.branch = None, 0, (), None


class Log:
    def __init__(self, claims, columns, rows, nodes):
        self.claims, self.columns, self.rows, self.nodes = claims, columns, rows, nodes


def read_log(file):
    lines = Lines(file, "log")
    if lines.next("scenlog 1") != [b"scenlog", b"1"]:
        lines.refuse("should be: scenlog 1")
    parts = lines.next("size and four numbers")
    if len(parts) != 5 or parts[0] != b"size":
        lines.refuse("should be: size and four numbers")
    limits = ((1, SCENARIOS, "scenarios"), (0, COLUMNS, "columns"), (0, ROWS, "rows"), (1, NODES, "nodes"))
    size = [lines.whole(p, a, b, "the number of " + what) for p, (a, b, what) in zip(parts[1:], limits)]
    claims = [read_claim(lines, size[1]) for _ in range(size[0])]
    nodes = [read_node(lines, size) for _ in range(size[3])]
    if lines.next("end") != [b"end"]:
        lines.refuse("should be: end")
    lines.end()
    place_nodes(nodes, size[0])
    return Log(claims, size[1], size[2], nodes)


def read_claim(lines, columns):
    parts = lines.next("a claim")
    number = lambda part: lines.whole(part, -VALUE, VALUE, "a value")
    if parts == [b"claim", b"infeasible"]:
        return Answer("infeasible")
    if parts[:3] == [b"claim", b"limit", b"none"] and len(parts) == 4:
        return Answer("limit", None, number(parts[3]))
    words = {b"optimal": 3, b"limit": 4}.get(parts[1]) if len(parts) > 1 and parts[0] == b"claim" else None
    if words is None or len(parts) != words + columns:
        lines.refuse("should be a claim: infeasible, optimal V X.., limit none B or limit V B X.., for %d columns" % columns)
    value, bound = number(parts[2]), number(parts[words - 1])
    point = [lines.whole(part, -NUMBER, NUMBER, "a column's number") for part in parts[words:]]
    return Answer(parts[1].decode(), value, bound, point)


def read_node(lines, size):
    parts = lines.next("rest, leaf, or split and three numbers")
    if parts == [b"rest"]:
        return Node("rest")
    if parts == [b"leaf"]:
        node = Node("leaf")
    elif len(parts) == 4 and parts[0] == b"split":
        node = Node("split")
        node.child = lines.whole(parts[1], 1, size[3] - 2, "the first child")
        node.column = lines.whole(parts[2], 0, size[1] - 1, "the column")
        node.at = lines.whole(parts[3], -NUMBER, NUMBER, "the number of a split")
        node.stay = read_stay(lines, size[0])
    else:
        lines.refuse("should be: rest, leaf, or split and three numbers")
    read_certificate(lines, node, size)
    return node


def read_stay(lines, scenarios):
    parts = lines.next("stay and scenarios")
    if len(parts) < 2 or parts[0] != b"stay":
        lines.refuse("should be: stay and scenarios")
    stay = tuple(lines.whole(part, 0, scenarios - 1, "a scenario") for part in parts[1:])
    if any(a >= b for a, b in zip(stay, stay[1:])):
        lines.refuse("the scenarios should rise")
    return stay


def read_certificate(lines, node, size):
    """A certificate. Steps and vectors are read for their form alone, since no picture shows them."""
    scenarios, columns, rows = size[:3]
    parts = lines.next("steps")
    if parts[0] != b"steps" or len(parts) < 2 or len(parts) != 2 + 3 * lines.whole(parts[1], 0, STEPS, "the number of steps"):
        lines.refuse("should be: steps, their number, and a row, a column and L or U for each")
    for row, column, end in zip(parts[2::3], parts[3::3], parts[4::3]):
        lines.whole(row, 0, rows - 1, "a row")
        lines.whole(column, 0, columns - 1, "a column")
        if end not in (b"L", b"U"):
            lines.refuse("a step ends with L or U")
    parts = lines.next("vector or verdicts")
    for _ in range(2):
        if parts[0] == b"vector":
            read_vector(lines, parts, rows)
            parts = lines.next("vector or verdicts")
    if parts[0] != b"verdicts" or not 2 <= len(parts) <= 1 + scenarios:
        lines.refuse("should be: verdicts, one for each live scenario")
    node.verdicts = [read_verdict(lines, word, rows) for word in parts[1:]]


def read_vector(lines, parts, rows):
    if len(parts) < 3 or len(parts) != 3 + 2 * lines.whole(parts[2], 0, ENTRIES, "the number of entries"):
        lines.refuse("should be: vector, a scale, a number, and a row and a multiplier for each entry")
    lines.whole(parts[1], 0, SCALE, "the scale")
    last = -1
    for row, multiplier in zip(parts[3::2], parts[4::2]):
        last = lines.whole(row, last + 1, rows - 1, "a row, which should rise,")
        if lines.whole(multiplier, -MULTIPLIER, MULTIPLIER, "a multiplier") == 0:
            lines.refuse("a multiplier is not 0")


def read_verdict(lines, word, rows):
    kind, number = word[:1], word[1:]
    if kind in (b"e", b"p") and not number:
        return kind.decode()
    if kind == b"m":
        return "m%d" % lines.whole(number, 0, rows - 1, "a row")
    if kind in (b"f", b"b"):
        return kind.decode() + "%d" % lines.whole(number, 0, 9, "the number of a vector")
    lines.refuse("a verdict should be e, p, or m, f or b and a number")


def place_nodes(nodes, scenarios):
    """Hands each node its parent, its depth, its branch and its live scenarios."""
    nodes[0].live = tuple(range(scenarios))
    for number, node in enumerate(nodes):
        wrong = lambda why: Refused("log node %d: %s" % (number, why))
        if number > 0 and node.parent is None:
            raise wrong("no earlier node leads to it")
        if node.kind == "rest":
            continue
        if len(node.verdicts) != len(node.live):
            raise wrong("it has %d live scenarios and %d verdicts" % (len(node.live), len(node.verdicts)))
        if node.kind == "leaf":
            continue
        if not set(node.stay) <= set(node.live):
            raise wrong("a scenario goes on that is not live")
        for side in (0, 1):
            child = nodes[node.child + side]
            if node.child + side <= number or child.parent is not None:
                raise wrong("it leads to node %d, which has its place already" % (node.child + side))
            child.parent, child.depth, child.live = number, node.depth + 1, node.stay
            child.branch = (node.column, side, node.at + side)


def belong_together(report, log):
    """Refuses a log whose claims are not the report's answers. A log states the value that is minimised, so the two also
    tell the direction where a value is not 0."""
    if len(log.claims) != len(report.answers):
        raise Refused("the log has %d scenarios and the report %d" % (len(log.claims), len(report.answers)))
    if report.columns is not None and log.columns != len(report.columns):
        raise Refused("the log has %d columns and the report %d" % (log.columns, len(report.columns)))
    signs = {"min": (1,), "max": (-1,), None: (1, -1)}[report.direction]
    pairs = list(zip(log.claims, report.answers))
    for k, (claim, answer) in enumerate(pairs):
        if (claim.status, claim.point) != (answer.status, answer.point):
            raise Refused("scenario %d: the log claims another answer than the report has" % k)
    turned = lambda number, sign: None if number is None else sign * number
    agrees = lambda c, a, sign: (turned(c.value, sign), turned(c.bound, sign)) == (a.value, a.bound)
    fit = [sign for sign in signs if all(agrees(c, a, sign) for c, a in pairs)]
    if not fit:
        raise Refused("the log claims other values than the report has")
    if len(fit) == 1:
        report.direction = "min" if fit[0] == 1 else "max"


# --------------------------------------------------------------------------------------------------- making a page


def shown(name, most=None):
    """A name as text that can be printed, different for different names unless it is cut to a number of characters."""
    text = []
    for char in name.decode("utf-8", "surrogateescape"):
        code = ord(char)
        if 0xDC80 <= code <= 0xDCFF:
            text.append("\\x%02x" % (code - 0xDC00))
        elif char == "\\":
            text.append("\\\\")
        elif not char.isprintable():
            text.append("\\u%04x" % code if code < 0x10000 else "\\U%08x" % code)
        else:
            text.append(char)
    if most and len(text) > most:
        text = text[: most - 1] + ["…"]
    return html.escape("".join(text))


def grouped(number, plus=False):
    """A number with thin spaces between groups of three digits, and a true minus sign."""
    text = ("{:+,}" if plus and number else "{:,}").format(number)
    return text.replace(",", "\u202f").replace("-", "\u2212")


def ranges(numbers):
    """Rising numbers in short: 0-3, 7."""
    parts = []
    for number in numbers:
        if parts and parts[-1][1] == number - 1:
            parts[-1][1] = number
        else:
            parts.append([number, number])
    return ", ".join("%d" % a if a == b else "%d\u2013%d" % (a, b) for a, b in parts) or "none"


def title_of(k, answer, most=None):
    return "%d" % k if answer.name == b"-" else "%d <bdi>%s</bdi>" % (k, shown(answer.name, most))


def difference(answer, base):
    return answer.value - base.value if answer.value is not None and base.value is not None else None


def differing(answer, base):
    if answer.point is None or base.point is None:
        return None
    return [j for j, (a, b) in enumerate(zip(answer.point, base.point)) if a != b]


def scenario_table(report):
    base, limits = report.answers[0], any(a.status == "limit" for a in report.answers)
    heads = ["Scenario", "Status", "Value"] + ["Bound"] * limits + ["Difference to 0", "Columns that differ from 0"]
    # The roles keep this a table for screen readers where narrow windows show it as cards.
    out = ['<table class="cards" role="table"><caption>Scenarios side by side</caption><thead role="rowgroup"><tr role="row">']
    out += ['<th scope="col" role="columnheader">%s</th>' % head for head in heads]
    out.append('</tr></thead><tbody role="rowgroup">')
    for k, answer in enumerate(report.answers):
        gap, other = difference(answer, base), differing(answer, base)
        cells = [answer.status, "none" if answer.value is None else grouped(answer.value)]
        if limits:
            cells.append("none" if answer.bound is None else grouped(answer.bound))
        cells.append("\u2013" if gap is None else grouped(gap, True))
        cells.append("\u2013" if other is None else "%d of %d" % (len(other), len(answer.point)))
        out.append('<tr class="%s" role="row"><th scope="row" role="rowheader">%s</th>' % (answer.status, title_of(k, answer)))
        out += ['<td role="cell" data-label="%s">%s</td>' % pair for pair in zip(heads[1:], cells)]
        out.append("</tr>")
    out.append("</tbody></table>")
    return "".join(out)


def bars(report, title, numbers, plus):
    """A picture with one bar for each number, drawn in percents of the width so that letters keep their size."""
    known = [n for n in numbers if n is not None]
    least, most = min([0] + known), max([0] + known)
    span = (most - least) or 1
    place = lambda n: 100.0 * (n - least) / span
    out = ['<svg class="bars" role="img" aria-label="%s: one bar for each scenario; the numbers stand in the table above." '
           'width="100%%" height="%d">' % (title, 40 * len(numbers) + 4)]
    out.append('<line x1="%.3f%%" x2="%.3f%%" y1="0" y2="%d"/>' % (place(0), place(0), 40 * len(numbers) + 4))
    for k, (answer, number) in enumerate(zip(report.answers, numbers)):
        top = 40 * k
        label = "%d" % k if answer.name == b"-" else "%d %s" % (k, shown(answer.name, 24))
        text = (answer.status if answer.value is None else "not comparable") if number is None else grouped(number, plus)
        mark = " (limit)" if answer.status == "limit" and number is not None else ""
        out.append('<text x="3" y="%d">%s: %s%s</text>' % (top + 14, label, text, mark))
        if number is not None:
            at, wide = place(min(number, 0)), 100.0 * abs(number) / span
            out.append('<rect class="%s" x="%.3f%%" y="%d" width="%.3f%%" height="14"/>' % (answer.status, at, top + 19, wide))
    out.append("</svg>")
    return "".join(out)


def point_tables(report):
    """The columns that are not the same in all points: a table for each few scenarios, so that it fits a page."""
    points = [a.point for a in report.answers if a.point is not None]
    if not points:
        return "<p>No scenario has a point.</p>"
    varied = [j for j in range(len(report.columns)) if len({p[j] for p in points}) > 1]
    same = [j for j in range(len(report.columns)) if points[0][j] and j not in set(varied)]
    zero = len(report.columns) - len(varied) - len(same)
    out = []
    base = report.answers[0].point
    if varied and base is not None and len(report.answers) > 1:
        out.append("<p>An equals sign stands where a column is as in scenario 0.</p>")
    others = list(range(1 if base is not None else 0, len(report.answers)))
    others = [k for k in others if report.answers[k].point is not None]
    for first in range(0, len(others), SCENARIOS_A_TABLE):
        if varied:
            out.append(point_table(report, varied, others[first:first + SCENARIOS_A_TABLE]))
    if same:
        names = ", ".join("<bdi>%s</bdi>\u00a0%s" % (shown(report.columns[j]), grouped(points[0][j])) for j in same)
        out.append("<p>The same in all points: %s.</p>" % names)
    if zero:
        out.append("<p>0 in all points: %d of %d columns.</p>" % (zero, len(report.columns)))
    return "".join(out)


def point_table(report, varied, scenarios):
    base = report.answers[0].point
    heads = ([0] if base is not None else []) + scenarios
    label = "Points of scenarios %s" % ranges(heads)
    out = ['<div class="wide" tabindex="0" role="region" aria-label="%s"><table class="points"><caption>%s</caption>' % (label, label)]
    out.append('<thead><tr><th scope="col">Column</th>')
    out += ['<th scope="col">%s</th>' % title_of(k, report.answers[k], 16) for k in heads]
    out.append("</tr></thead><tbody>")
    for j in varied:
        out.append('<tr><th scope="row"><bdi>%s</bdi></th>' % shown(report.columns[j]))
        for k in heads:
            number = report.answers[k].point[j]
            as_base = base is not None and k > 0 and number == base[j]
            out.append("<td>%s</td>" % ("=" if as_base else grouped(number)))
        out.append("</tr>")
    out.append("</tbody></table></div>")
    return "".join(out)


REASONS = {"e": "tightening leaves no point", "m": "a row can't be met", "f": "multipliers leave no point",
           "b": "bound", "p": "a single point"}


def branch_text(report, node, most):
    if node.branch is None:
        return "all points"
    column, side, at = node.branch
    name = "column %d" % column if report.columns is None else shown(report.columns[column], most)
    return "%s %s %s" % (name, "\u2264\u2265"[side], grouped(at))


def ended(node):
    """The live scenarios that don't go on, in words, by the kind of their verdicts."""
    kinds = {}
    for scenario, verdict in zip(node.live, node.verdicts):
        if scenario not in node.stay:
            kinds.setdefault(REASONS[verdict[0]], []).append(scenario)
    return "; ".join("%s (%s)" % (ranges(kinds[why]), why) for why in REASONS.values() if why in kinds)


def outcome_text(node):
    if node.kind == "rest":
        return "not searched"
    end = ended(node)
    text = ["end %s" % end] if end else []
    return "; ".join(text + (["go on %s" % ranges(node.stay)] if node.kind == "split" else []))


def drawn_nodes(nodes):
    """Numbers of nodes in the order of a walk down the tree, to the greatest depth at which they aren't too many."""
    count = {}
    for node in nodes:
        count[node.depth] = count.get(node.depth, 0) + 1
    depth, total = 0, 1
    while depth + 1 in count and total + count[depth + 1] <= DRAWN_NODES:
        depth += 1
        total += count[depth]
    order, stack = [], [0]
    while stack:
        number = stack.pop()
        order.append(number)
        node = nodes[number]
        if node.kind == "split" and node.depth < depth:
            stack += [node.child + 1, node.child]
    return order


def tree_picture(report, log, order):
    """An outline: a line for each node, with a square for each scenario, filled where it goes on from there."""
    size = 9 if len(log.claims) <= 16 else 6
    row, indent = 26 + size, 16
    place = {number: i for i, number in enumerate(order)}
    deepest = max(log.nodes[number].depth for number in order)
    texts = ["node %d: %s. Live %s; %s" % (number, branch_text(report, log.nodes[number], 24),
             ranges(log.nodes[number].live), outcome_text(log.nodes[number])) for number in order]
    width = deepest * indent + 24 + max(7 * max(len(html.unescape(text)) for text in texts), (size + 2) * len(log.claims))
    height = row * len(order) + 4
    out = ['<svg class="tree" role="img" aria-label="The tree of %d nodes; the table below says the same in words." '
           'width="%d" height="%d" viewBox="0 0 %d %d">' % (len(order), width, height, width, height)]
    for i, number in enumerate(order):
        node, x, y = log.nodes[number], log.nodes[number].depth * indent + 8, row * i + 12
        if node.parent is not None:
            out.append('<path d="M%d %dV%dH%d"/>' % (x - indent, row * place[node.parent] + 16, y, x))
        out.append('<circle class="%s" cx="%d" cy="%d" r="4"/><text x="%d" y="%d">%s</text>' % (node.kind, x, y, x + 9, y + 4, texts[i]))
        live, stay = set(node.live), set(node.stay)
        for k in range(len(log.claims)):
            if k in live:
                kind = "stay" if k in stay else "open" if node.kind == "rest" else "end"
                out.append('<rect class="%s" x="%d" y="%d" width="%d" height="%d"/>' % (kind, x + 9 + (size + 2) * k, y + 10, size, size))
    out.append("</svg>")
    return "".join(out)


def tree_part(report, log):
    order = drawn_nodes(log.nodes)
    kinds = [node.kind for node in log.nodes]
    out = ["<h2>Tree</h2><p>%d nodes: %d splits, %d leaves, %d not searched. A node serves all its live scenarios. "
           "There is a square for each of them, in the order of their numbers: filled where the scenario goes on to both "
           "children, hollow where it ends, dashed where the node was not searched.</p>"
           % (len(kinds), kinds.count("split"), kinds.count("leaf"), kinds.count("rest"))]
    if len(order) < len(kinds):
        out.append("<p>The first %d levels are drawn, which are %d nodes.</p>" % (1 + max(log.nodes[n].depth for n in order), len(order)))
    out.append('<div class="wide" tabindex="0" role="region" aria-label="Drawing of the tree">%s</div>' % tree_picture(report, log, order))
    out.append('<details><summary>The tree in words</summary><div class="wide" tabindex="0" role="region" aria-label="The tree in words">'
               "<table><thead><tr>")
    out += ['<th scope="col">%s</th>' % head for head in ("Node", "Parent", "Branch", "Live scenarios", "What happens")]
    out.append("</tr></thead><tbody>")
    for number in order:
        node = log.nodes[number]
        parent = "\u2013" if node.parent is None else "%d" % node.parent
        cells = (parent, branch_text(report, node, None), ranges(node.live), outcome_text(node))
        out.append('<tr><th scope="row">%d</th>%s</tr>' % (number, "".join("<td>%s</td>" % cell for cell in cells)))
    out.append("</tbody></table></div></details>")
    return "".join(out)


STYLE = """
body{font:16px/1.45 system-ui,sans-serif;color:#000;background:#fff;max-width:70rem;margin:0 auto;padding:0 1rem 2rem}
h1{font-size:1.5rem;overflow-wrap:anywhere}h2{font-size:1.2rem;margin-top:2rem}
p,bdi{overflow-wrap:anywhere}.note{border-left:4px solid #555;padding-left:.75rem}
table{border-collapse:collapse;width:100%}caption{text-align:left;font-weight:bold;padding:.4rem 0}
th,td{border:1px solid #777;padding:.25rem .5rem;text-align:left;vertical-align:top}thead th{background:#eee}
td{font-variant-numeric:tabular-nums}.points td{text-align:right}.infeasible td{font-style:italic}
.points{width:auto}.points th{max-width:16rem;min-width:6rem;font-weight:normal;overflow-wrap:anywhere}
.points th:first-child{min-width:8.5rem;position:sticky;left:0;background:#eee}
.wide{overflow-x:auto;margin-bottom:1rem}.wide:focus{outline:2px solid #000}
svg text{font:13px system-ui,sans-serif;fill:#000;stroke:#fff;stroke-width:4px;paint-order:stroke}svg{display:block}
.bars rect{fill:#444;stroke:#000}.bars rect.limit{fill:#fff;stroke-dasharray:4 3}.bars line{stroke:#000;stroke-width:2}
.tree path{fill:none;stroke:#777}.tree circle{fill:#fff;stroke:#000;stroke-width:1.5}.tree circle.split{fill:#000}
.tree circle.rest{stroke-dasharray:2 2}.tree rect{fill:#fff;stroke:#000}.tree rect.stay{fill:#000}.tree rect.open{stroke-dasharray:2 2}
summary{cursor:pointer;padding:.4rem 0}
@media (max-width:640px){.cards thead{position:absolute;clip-path:inset(50%);width:1px;height:1px;overflow:hidden}
.cards,.cards caption,.cards tbody,.cards tr,.cards th,.cards td{display:block}.cards tr{border:1px solid #777;margin-bottom:.6rem}
.cards th,.cards td{border:0;padding:.15rem .6rem}.cards th{background:#eee}.cards td:before{content:attr(data-label) ": "}}
@media print{body{max-width:none;font-size:11pt}.wide{overflow:visible}.points th:first-child{position:static}.tree{max-width:100%;height:auto}
.points{font-size:8pt}tr,svg.bars{break-inside:avoid}}
"""


def page(report, log, title):
    answers, base = report.answers, report.answers[0]
    counts = ["%d %s" % (n, s) for s in ("optimal", "infeasible", "limit") for n in [sum(a.status == s for a in answers)] if n]
    direction = {"min": " The value is minimised.", "max": " The value is maximised.", None: ""}[report.direction]
    out = ['<!DOCTYPE html>\n<html lang="en"><head><meta charset="utf-8">'
           '<meta name="viewport" content="width=device-width,initial-scale=1">'
           "<title>%s</title><style>%s</style></head><body><main>" % (title, STYLE)]
    out.append("<h1>%s</h1>" % title)
    out.append("<p>%d %s: %s.%s</p>" % (len(answers), "scenario" if len(answers) == 1 else "scenarios", ", ".join(counts), direction))
    if report.implied:
        out.append("<p>%d integer columns have no line of bounds, so they are 0 or 1.</p>" % report.implied)
    out.append('<p class="note">This page was made by an unproved tool. It shows what the files say; '
               "<code>scenopt check</code> says whether a log shows its answers to be right.</p>")
    out.append(scenario_table(report))
    if any(a.value is not None for a in answers):
        out += ["<h2>Values</h2>", bars(report, "Values", [a.value for a in answers], False)]
    if len(answers) > 1 and base.value is not None:
        out += ["<h2>Differences to scenario 0</h2>", bars(report, "Differences to scenario 0", [difference(a, base) for a in answers], True)]
    out += ["<h2>Points</h2>", point_tables(report)]
    if log is not None:
        out.append(tree_part(report, log))
    out.append("</main></body></html>\n")
    return "".join(out)


def make_page(report_path, log_path):
    with open(report_path, "rb") as file:
        report = read_report(file)
    log = None
    if log_path is not None:
        with open(log_path, "rb") as file:
            log = read_log(file)
        belong_together(report, log)
    return page(report, log, shown(os.fsencode(report_path)))


def main(words):
    if not 1 <= len(words) <= 2 or any(word.startswith("-") for word in words):
        sys.stderr.write("usage: scenview.py REPORT [LOG]\n")
        return 2
    try:
        text = make_page(words[0], words[1] if len(words) == 2 else None)
        sys.stdout.buffer.write(text.encode("utf-8"))
        sys.stdout.buffer.flush()
    except Refused as refused:
        sys.stderr.write("scenview: %s\n" % refused)
        return 1
    except OSError as fault:
        sys.stderr.write("scenview: %s\n" % fault)
        return 1
    return 0


if __name__ == "__main__":
    sys.exit(main(sys.argv[1:]))
