"""The page in a real browser: a desk, a phone, print, and no script."""

import unittest
from typing import Any, ClassVar

from browser import CHROMIUM, Browser
from day_helpers import DayTest
from helpers import winter_day

DESK, PHONE = (1280, 900), (390, 844)
LINES = 250
# Lines of 1001 to 1250 from R1 to D1, all of which have what they asked for; S1 and S10 differ in a letter.
QUESTION = ("segment,S1,A,B,1000000,,,\nsegment,S10,B,C,1000000,,,\npoint,R1,receipt,A,OPR,1000000,,\n"
            "point,D1,delivery,C,OPD,1000000,,\nquestion,DEMO,1,1,,,,\n"
            + "".join(f"line,R1,D1,{1 + k % 4},0,{1000 + k},,\n" for k in range(1, LINES + 1)))
ANSWER = "".join(f"sched,{k},{1000 + k},,,,,\n" for k in range(1, LINES + 1))

SEEN = "[...document.querySelectorAll('#{} tbody tr')].filter(row => row.getBoundingClientRect().height > 0).length"
LINE_ROWS, ELEMENT_ROWS = SEEN.format("lines"), SEEN.format("elements")
TOO_WIDE = "document.documentElement.scrollWidth - window.innerWidth"
# How much of a picture's parts stands outside of what is seen of it, in pixels; below 0 it has a margin.
CUT_OFF = """Math.max(...[...document.querySelectorAll('.picture')].map(frame => {
  const outer = frame.querySelector('svg').getBoundingClientRect();
  return Math.max(...[...frame.querySelectorAll('svg > g')].map(part => { const inner = part.getBoundingClientRect();
    return Math.max(outer.left - inner.left, inner.right - outer.right, outer.top - inner.top, inner.bottom - outer.bottom); }));
}))"""


def filtered(words: str) -> str:
    """Filters the lines by these words, and tells how many are seen."""
    return (f"(() => {{ const field = document.querySelector('#lines input[type=search]'); field.value = '{words}';"
            f" field.dispatchEvent(new Event('input')); return {LINE_ROWS}; }})()")


@unittest.skipUnless(CHROMIUM, "Chromium is not installed")
class Pages(DayTest):
    browser: ClassVar[Browser]

    @classmethod
    def setUpClass(cls) -> None:
        cls.browser = Browser()
        cls.addClassCleanup(cls.browser.__exit__, None, None, None)

    def page(self, size: tuple[int, int] = DESK, script: bool = True, question: str = QUESTION, answer: str = ANSWER) -> None:
        out, error, status = self.report(question, answer, "best,,,,,,,\n", "--format", "html")
        self.assertEqual((error, status), ("", 0))
        self.browser.media("")
        self.browser.open(self.path("page.html", out), *size, script=script)

    def day_page(self, size: tuple[int, int], script: bool = True) -> None:
        out, error, status = self.day("--format", "html")
        self.assertEqual((error, status), ("", 0))
        self.browser.media("")
        self.browser.open(self.path("day.html", out), *size, script=script)

    def value(self, expression: str) -> Any:
        return self.browser.value(expression)

    def tearDown(self) -> None:
        self.assertEqual(self.browser.faults(), [])

    def test_rows_in_pages(self) -> None:
        self.page()
        buttons = "['Back', 'Next'].map(name => [...document.querySelectorAll('#lines .tools button')]" \
                  ".find(one => one.textContent === name).disabled)"
        self.assertEqual((self.value(LINE_ROWS), self.value(buttons)), (100, [True, False]))
        turn = "[...document.querySelectorAll('#lines .tools button')].find(one => one.textContent === 'Next').click()"
        self.value(turn)
        self.assertEqual((self.value(LINE_ROWS), self.value(buttons)), (100, [False, False]))
        self.value(turn)
        self.assertEqual((self.value(LINE_ROWS), self.value(buttons)), (50, [False, True]))

    def test_filter(self) -> None:
        """Digits are found with their comma and without; of several words all are wanted."""
        self.page()
        for words, count in (("1,017", 1), ("1017", 1), ("r1 1,017", 1), ("1,017 1,018", 0), ("nothing", 0), ("r1 d1", 100)):
            self.assertEqual(self.value(filtered(words)), count, words)

    def test_sorting(self) -> None:
        self.page()
        self.value("document.querySelectorAll('#lines th button')[6].click()")
        self.assertEqual(self.value("document.querySelector('#lines tbody tr').cells[6].textContent"), "1,250")

    def test_a_picture_fits_and_is_zoomed_and_dragged(self) -> None:
        for size in (DESK, PHONE):
            self.page(size)
            self.assertLess(self.value(CUT_OFF), -1, size)
            self.page(size, question=winter_day()[0], answer=winter_day()[1])
            self.assertLess(self.value(CUT_OFF), -1, size)
        self.page(question=winter_day()[0], answer=winter_day()[1])
        box = "document.querySelector('.picture svg').getAttribute('viewBox').split(' ').map(Number)"
        first = self.value(box)
        self.value("document.querySelector('.zoom button').click()")
        nearer = self.value(box)
        self.assertLess(nearer[2], first[2])
        self.value("document.querySelector('.picture').scrollIntoView({block: 'center'})")
        x, y, width, height = self.value("(() => { const at = document.querySelector('.picture').getBoundingClientRect();"
                                         " return [at.x, at.y, at.width, at.height]; })()")
        self.browser.drag((x + width / 2, y + height - 6), (x + width / 2 - 60, y + height - 6))
        self.assertGreater(self.value(box)[0], nearer[0])

    def test_a_click_and_a_key_show_an_element_alone(self) -> None:
        self.page()
        self.assertEqual(self.value(ELEMENT_ROWS), 4)
        self.value("document.querySelector('svg .edge[data-name=S1]').dispatchEvent(new MouseEvent('click'))")
        self.assertEqual((self.value(ELEMENT_ROWS), self.value("document.querySelector('#elements .chip').textContent")),
                         (1, "only S1 \u00d7"))
        self.value("document.querySelector('#elements .chip').click()")
        self.assertEqual(self.value(ELEMENT_ROWS), 4)
        self.value("document.querySelector('.picture').focus()")
        self.browser.press("Tab")
        self.assertEqual(self.value("document.activeElement.getAttribute('data-name')"), "S1")
        self.assertNotEqual(self.value("getComputedStyle(document.activeElement).outlineStyle"), "none")
        self.browser.press("Enter")
        self.assertEqual(self.value(ELEMENT_ROWS), 1)

    def test_no_page_is_wider_than_its_window(self) -> None:
        for size in (DESK, PHONE):
            self.page(size)
            self.assertLessEqual(self.value(TOO_WIDE), 0, size)
            self.day_page(size)
            self.assertLessEqual(self.value(TOO_WIDE), 0, size)

    def test_rows_are_cards_on_a_phone(self) -> None:
        """An empty cell takes no room, and a card is no higher than its cells."""
        self.page(PHONE)
        told = self.value("""(() => { const row = document.querySelector('#lines tbody tr'), cells = [...row.cells];
          const heights = cells.map(cell => cell.getBoundingClientRect().height);
          return [row.getBoundingClientRect().height - heights.reduce((a, b) => a + b), heights[8],
            getComputedStyle(cells[1], '::before').content, row.cells[8].textContent,
            getComputedStyle(document.querySelector('#lines thead')).display]; })()""")
        blank, empty, title, why, heads = told
        self.assertLess(blank, 20)
        self.assertEqual((empty, title, why, heads), (0, '"from"', "", "none"))

    def test_print(self) -> None:
        """All rows, no controls, and the whole picture, though it was zoomed."""
        self.page()
        self.value("document.querySelector('.zoom button').click();"
                   " window.addEventListener('beforeprint', () => { window.box = document.querySelector('.picture svg')"
                   ".getAttribute('viewBox'); })")
        drawn = self.value("(() => { const at = document.querySelector('.picture svg > g').parentNode.getBBox();"
                           " return [at.width, at.height]; })()")
        self.assertTrue(self.browser.pdf().startswith(b"%PDF"))
        box = [float(word) for word in self.value("window.box").split()]
        self.assertTrue(box[2] >= drawn[0] and box[3] >= drawn[1])
        self.browser.media("print")
        self.assertEqual(self.value(LINE_ROWS), LINES)
        shown = "[...document.querySelectorAll('.tools, .zoom')].filter(one => getComputedStyle(one).display !== 'none').length"
        self.assertEqual(self.value(shown), 0)

    def test_without_script(self) -> None:
        self.page(script=False)
        self.browser.ask("Emulation.setScriptExecutionDisabled", value=False)
        self.assertEqual(self.value(LINE_ROWS), LINES)
        self.assertEqual(self.value("document.querySelectorAll('.tools, .zoom').length"), 0)
        self.assertLess(self.value(CUT_OFF), -1)

    def test_a_gas_day(self) -> None:
        self.day_page(DESK)
        self.assertEqual(self.value("document.querySelectorAll('.picture').length"), 2)
        self.assertEqual(self.value(SEEN.format("lines-2-2")), 2)
        self.assertLess(self.value(CUT_OFF), -1)
        arithmetic = "document.querySelector('#lines-2-2 details li').checkVisibility()"
        self.assertFalse(self.value(arithmetic))
        self.value("document.querySelector('#lines-2-2 summary').click()")
        self.assertTrue(self.value(arithmetic))


if __name__ == "__main__":
    unittest.main()
