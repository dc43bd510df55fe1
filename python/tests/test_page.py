"""The programs of docs/PYTHON.md, run one after the other over a server."""

import asyncio
import decimal
import importlib.util
import os
import pathlib
import re
import tempfile
import unittest

from ways import wants_library, wants_numpy, wants_program

import crackd

PAGE = pathlib.Path(crackd.__file__).resolve().parents[2] / "docs" / "PYTHON.md"
FILES = {
    "trades.csv": "time;volume;price\n2026-11-26 09:30;5;12.34\n2026-11-26 09:31;7;12.40\n",
    "more.csv": "2026-11-26 09:32,1,x,1250\n",
}


@wants_library
@wants_program
@wants_numpy
class Page(unittest.TestCase):
    """Its programs share their names, as in one session of Python."""

    def setUp(self):
        room = tempfile.TemporaryDirectory()
        self.addCleanup(room.cleanup)
        self.addCleanup(os.chdir, os.getcwd())
        os.chdir(room.name)
        for name, text in FILES.items():
            pathlib.Path(name).write_text(text, encoding="utf-8")

    def test_its_programs_run(self):
        text = PAGE.read_text(encoding="utf-8")
        frames, files, rows, server, notebook = re.findall(r"```python\n(.*?)```", text, re.DOTALL)
        names = {"crackd": crackd}
        if importlib.util.find_spec("pandas") is not None:
            exec(frames, names)
            for each in re.findall(r"```python needs=pandas\n(.*?)```", text, re.DOTALL):
                # what a comment says is what the line returns
                form = r"(?m)^    (.+?) +# ([\[(0-9][^:\n]*|Decimal[^,\n]*).*$"
                each, told = re.subn(form, r"    check((\1), \2)", each)
                self.assertGreater(told, 1)
                check = lambda found, wanted: self.assertEqual(getattr(found, "tolist", lambda: found)(), wanted)
                exec(each, {**names, "check": check, "Decimal": decimal.Decimal})
        exec(files, names)
        self.assertEqual((names["table"].count(), names["table"].sum()), (3, decimal.Decimal("1274.74")))
        with crackd.Table.load("rows.npy") as loaded:
            self.assertEqual((len(loaded), loaded.sum()), (500_000, 500_000 * 499_999 // 2))
        exec(rows, names)
        self.assertEqual(sorted(names["table"].select().keys.tolist()), [9, 10**9])
        self.assertEqual((names["table"].sum(), len(names["old"]), len(names["new"])), (175, 2, 2))
        with crackd.serve(workers=1) as served:
            exec(server.replace("4000", str(served.port)), names)
            names["table"].insert(5, 7)
            exec(notebook, names)
            self.assertTrue(names["image"].startswith("<svg "))
            names["table"].close()
            self.assertEqual(asyncio.run(names["ask"]()), 1)


if __name__ == "__main__":
    unittest.main()
