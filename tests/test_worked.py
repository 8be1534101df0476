#!/usr/bin/env python3
"""tools/worked.py --check finds each wrong figure of docs/ARITHMETIC.md, in blocks and in prose.

    python3 tests/test_worked.py
"""

import contextlib
import io
import sys
import unittest
from pathlib import Path

from toolcase import ROOT, folder, holds

sys.path.insert(0, str(ROOT / "tools"))

import worked

PAGE = (ROOT / "docs" / "ARITHMETIC.md").read_text()
WRONG = (
    ("= 81188", "= 81189"),
    ("−6262, 12800 left over", "−6263, 12800 left over"),
    ("s and K are 0", "s and K are 77"),
    ("<!-- worked: step-2 -->\n", ""),
    ("285 · 367 / 400 = 261", "285 · 367 / 400 = 262"),
    ("99 > 91: 0", "99 > 91: 211"),
    ("0 + 20000 = 20000", "0 + 20000 = 20001"),
    ("50000 + 20300 − 50 = 170250", "50000 − 50 = 149950"),
    ("0.40625", "0.40624"),
    ("1/3, 4/3", "1/3, 5/3"),
    ("1001  −50050", "1000  −50050"),
    ("16505206062 = 6991255705", "16505206062 = 6991255706"),
    (" 94169707219      5", " 94169707219      6"),
    ("per cell m (40)", "per cell m (32)"),
    ("49900 = 100100", "49900 = 100099"),
    ("is handed on", "is lost"),
    ("B 2 187 13\n", "B 1 811 88\n"),
    ("\ndrop of 7     1 8", "\ndrop of 7     1 7"),
    ("the share is 150", "the share is 151"),
    ("       49901       −49901", "       49901        49901"),
    ("above 65,535 or kept already", "above 65,536 or kept already"))


def said_of(page):
    """What the check says of a page: nothing where it holds."""
    with folder() as made, contextlib.redirect_stdout(io.StringIO()):
        path = Path(made, "page.md")
        path.write_text(page)
        try:
            worked.check(path)
        except SystemExit as found:
            return str(found.code)
    return ""


class Worked(unittest.TestCase):
    def test_wrong_figures(self):
        holds(not said_of(PAGE), "the page as it is")
        for old, new in WRONG:
            holds(old in PAGE, f"'{old}' is not in the page")
            holds(said_of(PAGE.replace(old, new)), f"'{new}' for '{old}' is not found")
        print(f"{len(WRONG)} wrong figures, each found")


if __name__ == "__main__":
    unittest.main()
