"""Tests of scenview.py: `python3 tools/test_scenview.py`, from any folder."""
import html.parser
import io
import os
import subprocess
import sys
import tempfile
import unittest

HERE = os.path.dirname(os.path.abspath(__file__))
MODELS = os.path.join(HERE, "..", ".ci", "models")
sys.path.insert(0, HERE)
import scenview  # noqa: E402


def model(name):
    with open(os.path.join(MODELS, name), "rb") as file:
        return file.read()


def made(report, log=None):
    """The page of two texts."""
    answers = scenview.read_report(io.BytesIO(report))
    tree = None
    if log is not None:
        tree = scenview.read_log(io.BytesIO(log))
        scenview.belong_together(answers, tree)
    return scenview.page(answers, tree, "test")


class Page(html.parser.HTMLParser):
    """The elements and texts of a page; fails where an element is closed that isn't the open one."""

    def __init__(self, text):
        super().__init__()
        self.open, self.seen, self.texts, self.attributes = [], [], [], []
        self.feed(text)
        self.close()
        assert not self.open, self.open

    def handle_starttag(self, tag, attrs):
        self.seen.append(tag)
        self.attributes += attrs
        if tag != "meta":
            self.open.append(tag)

    def handle_startendtag(self, tag, attrs):
        self.seen.append(tag)
        self.attributes += attrs

    def handle_endtag(self, tag):
        assert self.open.pop() == tag, tag

    def handle_data(self, data):
        self.texts.append(data)


def large_report():
    lines = [b"ImpliedBinary 0", b"NumScenarios 64"]
    for k in range(64):
        lines += [b"ScenarioNumber %d" % k, b"ScenNName s%d" % k, b"Status optimal", b"ScenNObjVal %d" % (k * k), b"ScenNObjBound %d" % (k * k)]
        lines += [b"ScenNX column%d %d" % (j, (j * k) % 7) for j in range(1000)]
    return b"\n".join(lines) + b"\n"


def one_column(name, scenario=b"-", stated=1):
    lines = [b"ImpliedBinary 0", b"NumScenarios %d" % stated, b"ScenarioNumber 0", b"ScenNName " + scenario, b"Status optimal",
             b"ScenNObjVal 3", b"ScenNObjBound 3", b"ScenNX " + name + b" 3"]
    return b"\n".join(lines) + b"\n"


class Reports(unittest.TestCase):
    def refused(self, text, message, log=None):
        with self.assertRaises(scenview.Refused) as caught:
            made(text, log)
        self.assertIn(message, str(caught.exception))

    def test_each_worked_report_makes_a_page(self):
        for name in sorted(os.listdir(MODELS)):
            if name.endswith(".report"):
                with self.subTest(name):
                    Page(made(model(name)))

    def test_scenarios_stand_side_by_side(self):
        text = " ".join(Page(made(model("s4.report"))).texts)
        for part in ("3 optimal, 1 infeasible", "The value is minimised", "\u22127", "\u22123", "+3", "2 of 2", "1 of 2"):
            self.assertIn(part, text)

    def test_a_limit_shows_its_bound(self):
        page = made(model("parity1.report"))
        self.assertIn(">Bound<", page)
        self.assertIn("1 limit", page)

    def test_64_scenarios_of_1000_columns(self):
        page = Page(made(large_report()))
        self.assertEqual(page.seen.count("table"), 1 + 8)
        self.assertEqual(sum(text == "column999" for text in page.texts), 8)

    def test_a_maximum_is_told(self):
        text = model("s4.report").replace(b" inf\n", b" -inf\n")
        self.assertIn("The value is maximised", made(text))

    def test_every_front_is_refused(self):
        text = model("s4.report")
        for end in range(len(text)):
            with self.subTest(end):
                self.refused(text[:end], "report line ")

    def test_other_texts_are_refused(self):
        text = model("s4.report")
        for old, new, message in [
            (b"ImpliedBinary 0", b"ImpliedBinary 1001", "report line 1: "),
            (b"ImpliedBinary 0", b"ImpliedBinary 3", "report line 1: "),
            (b"NumScenarios 4", b"NumScenarios 65", "report line 2: "),
            (b"NumScenarios 4", b"NumScenarios 3", "report line 24: "),
            (b"NumScenarios 4", b"NumScenarios 04", "report line 2: "),
            (b"NumScenarios 4", b"NumScenarios  4", "report line 2: "),
            (b"ScenarioNumber 1", b"ScenarioNumber 2", "report line 10: scenario 1"),
            (b"ScenNName -", b"ScenNName", "report line 4: "),
            (b"ScenNName -", b"ScenNName a b", "report line 4: "),
            (b"ScenNName -", b"ScenNName " + b"n" * 256, "report line 4: "),
            (b"Status optimal", b"Status Optimal", "report line 5: "),
            (b"Status optimal", b"Status infeasible", "report line 6: "),
            (b"ScenNObjVal -7", b"ScenNObjVal -7.0", "report line 6: "),
            (b"ScenNObjVal -7", b"ScenNObjVal -0", "report line 6: "),
            (b"ScenNObjVal -7", b"ScenNObjVal 1152921504606846977", "report line 6: "),
            (b"ScenNObjBound -7", b"ScenNObjBound -8", "report line 7: "),
            (b"ScenNX x 1\n", b"", "report line 14: "),
            (b"ScenNX y 2\n", b"ScenNX x 2\n", "report line 9: "),
            (b"ScenNX y 2\n", b"ScenNX y 1000001\n", "report line 9: "),
            (b"ScenNX y 2\n", b"ScenNX y 2\r\n", "report line 9: "),
            (b"ScenNObjVal inf", b"ScenNObjVal -inf", "report line 28: "),
        ]:
            with self.subTest(new):
                self.assertIn(old, text)
                self.refused(text.replace(old, new, 1), message)
        self.refused(text + b"\n", "report line 29: ")
        self.refused(model("m1.mps"), "report line 1: ")
        self.refused(model("s4.log"), "report line 1: ")

    def test_a_bound_on_the_wrong_side_is_refused(self):
        text = model("s4.report").replace(b"Status optimal\nScenNObjVal -7\nScenNObjBound -7", b"Status limit\nScenNObjVal -7\nScenNObjBound -6")
        self.refused(text, "earlier lines are those of a maximum")


class Names(unittest.TestCase):
    def test_markup_is_escaped(self):
        for name in (b"<script>alert(1)</script>", b"\"'><img/src=x>", b"&lt;", b"</svg>", b"</title>"):
            for text in (one_column(name), one_column(b"x", name)):
                page = Page(made(text))
                self.assertNotIn("script", page.seen)
                self.assertNotIn("img", page.seen)
                self.assertIn(name.decode(), page.texts)

    def test_a_name_of_255_bytes(self):
        name = b"n" * 255
        self.assertIn(name.decode(), Page(made(one_column(name, name))).texts)

    def test_bytes_that_are_not_utf8_and_signs_that_do_not_print(self):
        for name, shown in [(b"\xff\xfea", "\\xff\\xfea"), (b"a\x00b\x1b", "a\\u0000b\\u001b"), ("\u202eab".encode(), "\\u202eab"),
                            (b"\\xff", "\\\\xff"), ("Bänke".encode(), "Bänke"), (b"\xed\xb2\x80", "\\xed\\xb2\\x80"), (b"\x0b\x0c", "\\u000b\\u000c")]:
            with self.subTest(name):
                page = made(one_column(name, name))
                page.encode("utf-8")
                self.assertEqual(Page(page).texts.count(shown), 2)

    def test_long_names_are_cut_in_pictures_alone(self):
        self.assertEqual(scenview.shown(b"<" * 30, 24), "&lt;" * 23 + "…")


class Logs(unittest.TestCase):
    def refused(self, log, message):
        with self.assertRaises(scenview.Refused) as caught:
            made(model("s4.report"), log)
        self.assertIn(message, str(caught.exception))

    def test_each_worked_log_makes_a_tree(self):
        page = made(model("s4.report"), model("s4.log"))
        Page(page)
        self.assertIn("node 0: all points. Live 0–3; end 3 (tightening leaves no point); 0–2 (bound)", page)
        page = made(model("parity.report"), model("parity.log"))
        Page(page)
        self.assertIn("node 1: column 0 ≤ 0. Live 0; end 0 (a row can't be met)", page)
        self.assertIn("3 nodes: 1 splits, 2 leaves, 0 not searched", page)

    def test_a_log_tells_the_direction(self):
        text = one_column(b"x")
        log = b"scenlog 1\nsize 1 1 0 1\nclaim optimal -3 3\nleaf\nsteps 0\nverdicts p\nend\n"
        self.assertNotIn("maximised", made(text))
        self.assertIn("The value is maximised", made(text, log))
        self.assertIn("The value is minimised", made(text, log.replace(b"-3", b"3")))

    def test_every_front_is_refused(self):
        text = model("s4.log")
        for end in range(len(text)):
            with self.subTest(end):
                self.refused(text[:end], "log line ")

    def test_other_texts_are_refused(self):
        text = model("s4.log")
        for old, new, message in [
            (b"scenlog 1", b"scenlog 2", "log line 1: "),
            (b"size 4 2 1 1", b"size 4 3 1 1", "log line 3: "),
            (b"size 4 2 1 1", b"size 4 2 1 2", "log line 12: "),
            (b"size 4 2 1 1", b"size 65 2 1 1", "log line 2: "),
            (b"claim optimal -7 1 2", b"claim optimal -7 1", "log line 3: "),
            (b"claim infeasible", b"claim", "log line 6: "),
            (b"leaf", b"leaf 1", "log line 7: "),
            (b"leaf", b"split 1 0 0", "log line 7: "),
            (b"steps 2", b"steps 3", "log line 8: "),
            (b"0 1 U\n", b"0 1 V\n", "log line 8: "),
            (b"vector 2 1 0 -3", b"vector 2 1 0 0", "log line 9: "),
            (b"vector 2 1 0 -3", b"vector 2 1 1 -3", "log line 9: "),
            (b"verdicts b0 b0 b1 e", b"verdicts b0 b0 b1", "log node 0: "),
            (b"verdicts b0 b0 b1 e", b"verdicts b0 b0 b1 x", "log line 11: "),
            (b"verdicts b0 b0 b1 e", b"verdicts b0 b0 b1 e0", "log line 11: "),
            (b"end\n", b"end\nend\n", "log line 13: "),
        ]:
            with self.subTest(new):
                self.assertIn(old, text)
                self.refused(text.replace(old, new, 1), message)

    def test_a_list_that_is_no_tree_is_refused(self):
        text = model("parity.log")
        for old, new, message in [
            (b"split 1 0 0\nstay 0", b"split 1 0 0\nstay 0 0", "log line 5: "),
            (b"size 1 3 1 3", b"size 1 3 1 4", "log line "),
            (b"leaf", b"split 1 1 0\nstay 0", "log node 1: "),
        ]:
            with self.subTest(new):
                self.assertIn(old, text)
                with self.assertRaises(scenview.Refused) as caught:
                    made(model("parity.report"), text.replace(old, new, 1))
                self.assertIn(message, str(caught.exception))

    def test_another_run_is_refused(self):
        text = model("s4.log")
        self.refused(text.replace(b"claim optimal -7 1 2", b"claim optimal -7 1 1"), "scenario 0: ")
        self.refused(text.replace(b"claim optimal -7 1 2", b"claim optimal -8 1 2"), "other values")
        self.refused(model("parity.log"), "1 scenarios and the report 4")

    def test_a_large_tree_is_cut(self):
        nodes, lines = 4001, [b"scenlog 1", b"size 1 1 0 4001", b"claim infeasible"]
        for i in range(nodes):
            if 2 * i + 2 < nodes:
                lines += [b"split %d 0 5" % (2 * i + 1), b"stay 0", b"steps 0", b"verdicts e"]
            else:
                lines.append(b"rest")
        report = b"ImpliedBinary 0\nNumScenarios 0\nScenarioNumber 0\nScenNName -\nStatus infeasible\nScenNObjVal inf\nScenNObjBound inf\n"
        page = made(report, b"\n".join(lines) + b"\nend\n")
        Page(page)
        self.assertIn("The first 8 levels are drawn, which are 255 nodes.", page)


class Calls(unittest.TestCase):
    def call(self, *words):
        run = subprocess.run([sys.executable, os.path.join(HERE, "scenview.py"), *words], capture_output=True)
        return run.returncode, run.stdout, run.stderr.decode()

    def test_a_page_that_needs_nothing_else(self):
        status, out, err = self.call(os.path.join(MODELS, "s4.report"), os.path.join(MODELS, "s4.log"))
        self.assertEqual((status, err), (0, ""))
        page = Page(out.decode())
        self.assertFalse({"script", "img", "link", "iframe"} & set(page.seen))
        self.assertFalse([value for name, value in page.attributes if name in ("src", "href", "style")])
        self.assertNotIn("url(", out.decode())
        labels = [value for name, value in page.attributes if name == "aria-label"]
        self.assertEqual(page.seen.count("svg"), 3)
        self.assertEqual(sum(label.startswith(("Values:", "Differences to scenario 0:", "The tree of 1 nodes")) for label in labels), 3)

    def test_refusals(self):
        with tempfile.TemporaryDirectory() as folder:
            cut = os.path.join(folder, "cut.report")
            with open(cut, "wb") as file:
                file.write(model("s4.report")[:-2])
            status, out, err = self.call(cut)
            self.assertEqual((status, out), (1, b""))
            self.assertTrue(err.startswith("scenview: report line 28: the file ends"), err)
        self.assertEqual(self.call(os.path.join(MODELS, "none"))[0], 1)
        self.assertEqual(self.call()[0], 2)


if __name__ == "__main__":
    unittest.main()
