"""The examples in the docstrings of the package's types."""

import asyncio
import doctest
import unittest

from ways import crackd, wants_library, wants_program

TYPES = [it for it in (getattr(crackd, name) for name in crackd.__all__) if isinstance(it, type)]
PUBLIC = [it for it in TYPES if not issubclass(it, Exception)]
SERVED = [crackd.AsyncTable, crackd.Client, crackd.Server]


class Docstrings(unittest.TestCase):
    """Each public type but the errors has an example, which prints what stands below it."""

    def check(self, types):
        names = {"crackd": crackd, "asyncio": asyncio}
        for it in types:
            with self.subTest(it.__name__):
                test = doctest.DocTestParser().get_doctest(it.__doc__, names, it.__name__, None, None)
                self.assertNotEqual(test.examples, [])
                said = []
                result = doctest.DocTestRunner().run(test, out=said.append)
                self.assertEqual((result.failed, "".join(said)), (0, ""))

    @wants_library
    def test_types_of_tables_in_this_process(self):
        self.check([it for it in PUBLIC if it not in SERVED])

    @wants_program
    def test_types_of_tables_on_a_server(self):
        self.check(SERVED)

    def test_there_are_such_types(self):
        self.assertEqual(set(SERVED) - set(PUBLIC), set())
        self.assertGreater(len(PUBLIC), len(SERVED) + 4)


if __name__ == "__main__":
    unittest.main()
