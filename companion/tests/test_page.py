"""The HTML page: that it asks for nothing from outside, escapes what it shows, and says what a picture leaves out; and both
layouts of the picture."""

import re
import unittest
from html.parser import HTMLParser
from unittest import mock

from helpers import POOL_CUT, POOL_CUT_ANSWER, TWO_LINES, TWO_LINES_ANSWER, TWO_LINES_TOLD, ReportTest, winter_day

from gasday_report import layout
from gasday_report.layout import Edge, Node, plain, read_plain
from gasday_report.picture import MOST_PLACES, PART_PLACES, beside

WINTER_TOLD = "best,,,,,,,\n"
REQUESTS = {"src", "href", "srcset", "action", "data", "background", "poster", "xlink:href"}


class Page(HTMLParser):
    """The tags of a page with their attributes, and the text outside of scripts and styles."""

    def __init__(self, text: str) -> None:
        super().__init__()
        self.tags: list[tuple[str, dict[str, str]]] = []
        self.words: list[str] = []
        self.inside: list[str] = []
        self.feed(text)

    def handle_starttag(self, tag: str, attrs: list[tuple[str, str | None]]) -> None:
        self.tags.append((tag, {name: value or "" for name, value in attrs}))
        if tag in ("script", "style"):
            self.inside.append(tag)

    def handle_endtag(self, tag: str) -> None:
        if self.inside and self.inside[-1] == tag:
            self.inside.pop()

    def handle_data(self, data: str) -> None:
        if not self.inside:
            self.words.append(data)


class Tables(HTMLParser):
    """The tables of a page by their names: of each the titles, and rows with the words of their cells."""

    def __init__(self, text: str) -> None:
        super().__init__()
        self.rows: dict[str, list[list[str]]] = {}
        self.classes: dict[str, list[str]] = {}
        self.name = ""
        self.feed(text)

    def handle_starttag(self, tag: str, attrs: list[tuple[str, str | None]]) -> None:
        names = dict(attrs)
        if tag == "div" and names.get("class") == "table":
            self.name = names["id"] or ""
            self.rows[self.name], self.classes[self.name] = [], []
        elif tag == "tr" and self.name:
            self.rows[self.name].append([])
            self.classes[self.name].append(names.get("class") or "")
        elif tag in ("td", "th") and self.name:
            self.rows[self.name][-1].append("")

    def handle_endtag(self, tag: str) -> None:
        if tag == "table":
            self.name = ""

    def handle_data(self, data: str) -> None:
        if self.name and self.rows[self.name] and self.rows[self.name][-1]:
            self.rows[self.name][-1][-1] += data


class Pages(ReportTest):
    def page(self, question: str, answer: str, told: str, status: int = 0) -> str:
        return self.report(question, answer, told, "--format", "html", status=status)[0]

    def test_nothing_from_outside(self) -> None:
        for words in ((*winter_day(), WINTER_TOLD), (POOL_CUT, POOL_CUT_ANSWER, "cut,60,,,,,,\n")):
            text = self.page(*words)
            for tag, attributes in Page(text).tags:
                self.assertFalse(REQUESTS & set(attributes), tag)
                self.assertNotIn(tag, ("link", "img", "iframe", "object", "embed", "form", "base"))
            self.assertIsNone(re.search(r"https?:|url\(|@import|fetch\(|XMLHttpRequest|import\(", text))
            self.assertIn("default-src 'none'", text)

    def test_names_are_escaped(self) -> None:
        """No valid name has such letters, but a fake program lets one pass."""
        spoiled = "<script>x&\"'</script>"
        field = '"' + spoiled.replace('"', '""') + '"'
        question = TWO_LINES
        for name in ("OPR", "R1", "DEMO"):
            question = question.replace(f",{name},", f",{field},")
        question = question.replace(",A,", f",{field},")
        text = self.page(question, TWO_LINES_ANSWER, TWO_LINES_TOLD)
        self.assertEqual(text.count("<script"), 1)
        self.assertNotIn("x&\"", text)
        page = Page(text)
        self.assertIn(spoiled, "".join(page.words))
        self.assertEqual(Tables(text).rows["lines"][1][1], spoiled)

    def test_verdicts_and_hashes_stand_at_the_top(self) -> None:
        words = "".join(Page(self.page(*winter_day(), WINTER_TOLD)).words)
        for first, second in (("PASS", "The pipeline"), ("SHA-256", "The pipeline"), ("certificate.py", "The pipeline")):
            self.assertLess(words.index(first), words.index(second))

    def test_lines_of_the_table(self) -> None:
        lines = Tables(self.page(TWO_LINES, TWO_LINES_ANSWER, TWO_LINES_TOLD)).rows["lines"]
        self.assertEqual(lines[1], ["1", "R1", "D1", "1", "0", "80", "80", "0", ""])
        self.assertEqual(lines[2][:8], ["2", "R1", "D1", "4", "0", "50", "20", "30"])
        shown, _, hidden = lines[2][8].partition("show the arithmetic")
        self.assertEqual(shown, "other gas of class 4 or higher goes first; S1 is full, 100 of 100")
        self.assertNotIn("tenth", shown)
        self.assertIn("of class 4 and tenth 5", hidden)

    def test_who_shares_what_is_full(self) -> None:
        rows = Tables(self.page(TWO_LINES, TWO_LINES_ANSWER, TWO_LINES_TOLD)).rows["sharing"]
        self.assertEqual(rows[1:], [["S1", "100", "100", "1", "1", "R1", "D1", "0", "80"],
                                    ["S1", "100", "100", "4", "2", "R1", "D1", "0", "20"]])

    def test_digits_are_grouped(self) -> None:
        rows = Tables(self.page(*winter_day(), WINTER_TOLD)).rows
        self.assertEqual(rows["elements"][3][5:8], ["80,000", "80,000", "0"])

    def test_bumped_lines_are_marked(self) -> None:
        tables = Tables(self.page(TWO_LINES, TWO_LINES_ANSWER + "bumped,2,7,,,,,\n", TWO_LINES_TOLD))
        self.assertEqual([row[8] for row in tables.rows["lines"]], ["bumped by", "0", "7"])
        self.assertEqual(tables.classes["lines"], ["", "", "m0 short m1 bumped"])

    def test_the_picture(self) -> None:
        text = self.page(*winter_day(), WINTER_TOLD)
        groups = {attributes["data-name"]: attributes["class"] for tag, attributes in Page(text).tags
                  if "data-name" in attributes and not attributes["class"].startswith("label")}
        # TRUNK-2 carries 78584 of 80000, MILL-LATERAL 9416 of 20000, and CITY-UTILITY all of its 50000.
        self.assertTrue(groups["TRUNK-1"].endswith("full") and groups["CITY-UTILITY"].endswith("full"))
        self.assertTrue(groups["TRUNK-2"].endswith("high") and groups["MILL-LATERAL"].endswith("low"))
        self.assertIn("MERGE-POOL", groups)
        self.assertNotIn("too large for a picture", text)

    def test_the_cut_is_marked(self) -> None:
        text = self.page(POOL_CUT, POOL_CUT_ANSWER, "cut,60,,,,,,\n")
        inside = sorted(attributes.get("data-name", "place") for tag, attributes in Page(text).tags
                        if tag == "g" and "inside" in attributes["class"])
        self.assertEqual(inside, ["D1", "R1", "place", "place"])

    def test_a_fail_shows_no_table(self) -> None:
        text = self.page(TWO_LINES, TWO_LINES_ANSWER, "broken,Shape,,,,,,\n", status=1)
        self.assertIn("FAIL", text)
        self.assertNotIn("<script", text)

    def test_a_large_pipeline_is_drawn_in_part(self) -> None:
        """A chain of 100 places whose gas enters at place 60: the part must hold where it flows, and first of all the one
        segment that is full."""
        rows = [f"segment,S{k},L{k},L{k + 1},{5 if k == 95 else 9},,,\n" for k in range(99)]
        rows += ["point,R1,receipt,L60,OP,9,,\n", "point,D1,delivery,L99,OP,9,,\n", "question,CHAIN,1,1,,,,\n"]
        rows.append("line,R1,D1,1,0,5,,\n")
        text = self.page("".join(rows), "sched,1,5,,,,,\n", "best,,,,,,,\ntotal,1,5,,,,,\n")
        self.assertIn(f"{PART_PLACES} of 100 places with 0 of 2 points and pools", text)
        places = re.findall(r"<title>place (L\d+)</title>", text)
        self.assertEqual(len(places), PART_PLACES)
        self.assertTrue({"L95", "L96"} <= set(places))
        self.assertNotIn("L60", places)
        self.assertGreater(100, MOST_PLACES)
        self.assertEqual(len(Tables(text).rows["elements"]), 1 + 101)

    def test_trouble_that_is_far_apart_is_joined(self) -> None:
        """Both full segments, ten places from one another, and the way between them."""
        rows = [f"segment,S{k},L{k},L{k + 1},{5 if k in (70, 80) else 9},,,\n" for k in range(99)]
        rows += ["point,R1,receipt,L60,OP,9,,\n", "point,D1,delivery,L99,OP,9,,\n", "question,CHAIN,1,1,,,,\n"]
        text = self.page("".join(rows) + "line,R1,D1,1,0,5,,\n", "sched,1,5,,,,,\n", "best,,,,,,,\ntotal,1,5,,,,,\n")
        places = set(re.findall(r"<title>place (L\d+)</title>", text))
        self.assertTrue({f"L{k}" for k in range(70, 82)} <= places)


class Layouts(unittest.TestCase):
    NODES = (Node("a", 60, 26), Node("b", 60, 26), Node("c", 60, 26), Node("d", 60, 26), Node("pool", 60, 32, "b"),
             Node("receipt", 60, 32, "b"))
    EDGES = (Edge("a", "b", 5), Edge("b", "c", 5), Edge("b", "d", 5), Edge("b", "pool", 0), Edge("receipt", "b", 0))

    def test_plain_layers_follow_the_gas(self) -> None:
        places = plain(self.NODES, self.EDGES).nodes
        x = {key: place[0] for key, place in places.items()}
        self.assertTrue(x["a"] < x["b"] < x["c"] == x["d"] and x["pool"] == x["b"] == x["receipt"])
        for one in places.values():
            for other in places.values():
                self.assertTrue(one == other or abs(one[0] - other[0]) >= 60 or abs(one[1] - other[1]) >= 32)

    def test_plain_stands_in_where_there_is_no_dot(self) -> None:
        with mock.patch("shutil.which", return_value=None):
            made = layout.laid_out(self.NODES, self.EDGES)
        self.assertFalse(made.by_dot)
        self.assertEqual(set(made.nodes), {"a", "b", "c", "d", "pool", "receipt"})

    def test_labels_stand_beside_thick_lines(self) -> None:
        """A label above a line of 40 stands beyond its edge, 20 from its middle, and one far away stays."""
        line = [(0.0, 100.0), (30.0, 100.0), (60.0, 100.0), (90.0, 100.0)]
        x, y = beside((45, 95), line, 40)
        self.assertTrue(abs(x - 45) < 1 and 100 - y > 20 + 9)
        self.assertEqual(beside((45, 20), line, 40), (45, 20))

    def test_what_dot_prints(self) -> None:
        """Inches from below become 72 to an inch from above."""
        text = ("graph 1 3 2\nnode n0 0.5 1.5 0.8 0.4 \"\" solid box black lightgrey\n"
                "node n1 2.5 0.5 0.8 0.4 \"\" solid box black lightgrey\n"
                "edge n0 n1 4 0.9 1.5 1 1 2 1 2.1 0.5 \"xx\\nx\" 1.5 1.25 solid black\nstop\n")
        made = read_plain(text, self.NODES[:2])
        self.assertEqual((made.width, made.height), (216, 144))
        self.assertEqual(made.nodes, {"a": (36, 36), "b": (180, 108)})
        points, label = made.curves["a", "b"]
        self.assertEqual((points[1], label), ((72, 72), (108, 54)))


if __name__ == "__main__":
    unittest.main()
