"""The wheel that `pip install ./python` builds."""

import base64
import csv
import hashlib
import importlib.util
import pathlib
import re
import subprocess
import sys
import tempfile
import unittest
import venv
import zipfile

from ways import crackd

TOP = pathlib.Path(crackd.__file__).resolve().parents[1]


class Wheel(unittest.TestCase):
    """What it contains, and what it says that it needs."""

    def setUp(self):
        room = tempfile.TemporaryDirectory()
        self.addCleanup(room.cleanup)
        self.room = pathlib.Path(room.name)
        self.wheel = self.built("build_wheel")

    def built(self, call):
        """The wheel that a function of the backend makes."""
        code = f"import backend; print(backend.{call}({str(self.room)!r}))"
        ran = subprocess.run([sys.executable, "-c", code], cwd=TOP, capture_output=True, text=True, check=True)
        return self.room / ran.stdout.strip()

    def text(self, name):
        with zipfile.ZipFile(self.wheel) as wheel:
            return wheel.read(f"crackd-{crackd.__version__}.dist-info/{name}").decode("utf-8")

    def test_it_needs_nothing_but_for_an_extra(self):
        needs = [it for it in self.text("METADATA").splitlines() if it.startswith(("Requires-Dist", "Provides-Extra"))]
        wanted = []
        for extra, names in {"cluster": ("numpy", "dask", "distributed"), "pandas": ("numpy", "pandas")}.items():
            wanted += [f"Provides-Extra: {extra}", *(f'Requires-Dist: {it}; extra == "{extra}"' for it in names)]
        self.assertEqual(needs, wanted)

    def test_its_version_is_that_of_the_package(self):
        self.assertIn(f"\nVersion: {crackd.__version__}\n", self.text("METADATA"))
        if crackd.library.find_library() is not None:
            self.assertEqual(crackd.version().split()[:2], ["crackd", crackd.__version__])

    def test_its_tag_says_what_the_library_needs(self):
        with zipfile.ZipFile(self.wheel) as wheel:
            libraries = b"".join(wheel.read(it) for it in wheel.namelist() if it.endswith(".so"))
        versions = [int(it) for it in re.findall(rb"GLIBC_2\.(\d+)", libraries)]
        tag = re.search(r"^Tag: py3-none-(\S+)$", self.text("WHEEL"), re.MULTILINE)[1]
        self.assertTrue(self.wheel.name.endswith(f"-{tag}.whl"))
        if not libraries:
            self.assertEqual(tag, "any")
        elif versions:
            self.assertRegex(tag, r"^manylinux_2_\d+_\w+$")
            self.assertGreaterEqual(int(tag.split("_")[2]), max(versions))

    def test_each_file_is_as_the_record_says(self):
        with zipfile.ZipFile(self.wheel) as wheel:
            for path, digest, size in csv.reader(self.text("RECORD").splitlines()):
                if digest:
                    found = hashlib.sha256(wheel.read(path)).digest()
                    self.assertEqual(digest, "sha256=" + base64.urlsafe_b64encode(found).rstrip(b"=").decode("ascii"))
                    self.assertEqual(int(size), len(wheel.read(path)))

    @unittest.skipIf(importlib.util.find_spec("ensurepip") is None, "pip can't be installed")
    def test_pip_installs_it(self):
        venv.create(self.room / "venv", with_pip=True)
        python = self.room / "venv" / "bin" / "python"
        pip = [python, "-m", "pip", "install", "--quiet", "--no-index", "--disable-pip-version-check"]
        for words, where in (([TOP], self.room / "venv"), (["-e", TOP], TOP)):
            with self.subTest(words):
                ran = subprocess.run([*pip, *words], capture_output=True, text=True, check=False)
                self.assertEqual(ran.returncode, 0, ran.stderr)
                said = subprocess.check_output([python.with_name("crackd"), "--version"], cwd="/", text=True)
                self.assertTrue(f"{said.rstrip()} ".startswith(f"crackd {crackd.__version__} "), said)
                code = "import crackd; print(crackd.__file__)"
                path = subprocess.check_output([python, "-c", code], cwd="/", text=True)
                self.assertTrue(path.startswith(f"{where}/"), path)

    def test_it_has_each_module(self):
        modules = {it.relative_to(TOP).as_posix() for it in (TOP / "crackd").rglob("*.py")}
        with zipfile.ZipFile(self.wheel) as wheel:
            self.assertLessEqual(modules | {"crackd/py.typed"}, set(wheel.namelist()))
        code = f"import sys; sys.path.insert(0, {str(self.wheel)!r}); import crackd; print(crackd.__file__)"
        ran = subprocess.run([sys.executable, "-c", code], cwd="/", capture_output=True, text=True, check=True)
        self.assertEqual(ran.stdout, f"{self.wheel}/crackd/__init__.py\n")


if __name__ == "__main__":
    unittest.main()
