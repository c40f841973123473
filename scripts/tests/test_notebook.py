"""What docs/notebook.md prints is printed by its lines."""

import doctest
import os
import re
import unittest

from common import HAS_PROGRAM, PROGRAM, TOP


@unittest.skipUnless(HAS_PROGRAM, "the program isn't built")
class Notebook(unittest.TestCase):
    def test_page(self):
        page = (TOP / "docs" / "notebook.md").read_text(encoding="utf-8")
        lines = "\n".join(re.findall(r"(?ms)^```python\n(.*?)^```$", page))
        test = doctest.DocTestParser().get_doctest(lines, {}, "docs/notebook.md", None, 0)
        os.environ["PALP"] = PROGRAM
        before = os.getcwd()
        os.chdir(TOP)
        try:
            self.assertEqual(doctest.DocTestRunner(verbose=False).run(test).failed, 0)
        finally:
            os.chdir(before)


if __name__ == "__main__":
    unittest.main()
