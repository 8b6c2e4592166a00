"""The independent check on the acceptance cases of `check best` and `check cut`, whose answers were worked out for the
program. Left out are the order of rows, and the program's own limit of a price's size: docs/CERTIFICATES.md has neither."""

import re
import unittest
from pathlib import Path

from helpers import TOP, split

import certificate

CASES = TOP / "tests" / "cases"
LEFT_OUT = (r"fault,\d+,Order", "broken,PriceTooLarge")


def parts_of(path: Path) -> dict[str, str]:
    parts = re.split(rb"(?m)^-- ([a-z]+)( escaped)? --\n", path.read_bytes())
    named = {}
    for name, escaped, data in zip(parts[1::3], parts[2::3], parts[3::3], strict=True):
        plain = data.replace(b"\n", b"").decode("unicode_escape").encode("latin-1") if escaped else data
        named[name.decode()] = plain.decode("latin-1")
    return named


def told(text: str, is_cut: bool) -> list[str]:
    """The first row's fields as the program would tell them; of a text that can't be read only that."""
    try:
        question_text, answer_text = split(text)
        question = certificate.Question(question_text)
        answer = certificate.Answer(answer_text, question)
        answer.is_cut = is_cut
        certificate.verdict_of(question, answer)
    except certificate.Unreadable:
        return ["fault"]
    except certificate.Wrong as wrong:
        return ["broken", wrong.name, str(wrong.item or "")]
    return ["cut", str(certificate.sums_of(certificate.crossing_of(question, answer.members))[3])] if is_cut else ["best"]


class Cases(unittest.TestCase):
    def compare(self, group: str) -> None:
        paths, compared = sorted((CASES / group).glob("*.case")), 0
        for path in paths:
            parts = parts_of(path)
            want = parts["stdout"].split("\n")[0]
            if "stdin" in parts and not any(re.match(pattern, want) for pattern in LEFT_OUT):
                got = told(parts["stdin"], group == "check-cut")
                self.assertEqual(got, want.split(",")[:len(got)], path.name)
                compared += 1
        self.assertGreater(compared, len(paths) * 3 // 4)

    def test_check_best(self) -> None:
        self.compare("check-best")

    def test_check_cut(self) -> None:
        self.compare("check-cut")


if __name__ == "__main__":
    unittest.main()
