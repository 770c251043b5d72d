"""python/README.md: its Python is what comes out."""
import contextlib
import doctest
import re
import textwrap
import unittest

from . import REPOSITORY

TEXT = (REPOSITORY / "python" / "README.md").read_text(encoding="utf-8")


class Readme(unittest.TestCase):
    def test_python(self) -> None:
        block = re.search(r"(?:^    .*\n)*^    >>> (?:.*\n)(?:^    .*\n)*", TEXT, re.MULTILINE)[0]
        test = doctest.DocTestParser().get_doctest(textwrap.dedent(block), {}, "README", None, 0)
        with contextlib.chdir(REPOSITORY):
            failed, tried = doctest.DocTestRunner(optionflags=doctest.IGNORE_EXCEPTION_DETAIL).run(test)
        self.assertEqual((failed, tried), (0, 5))
