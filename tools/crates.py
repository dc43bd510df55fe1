"""The crates that crates.txt lists: what they use, their files, checksums of all that a proof depends on, and the
arguments with which the toolchain's compiler, `rattle`, works on a crate."""

import dataclasses
import functools
import hashlib
import os
import pathlib
import shutil
import sys

TOP = pathlib.Path(__file__).resolve().parent.parent
PARTS = ("src", "specs", "proofs")
# the line of crates.txt after which no crate is proved begins so
NOT_PROVED = "\n# not proved"


@dataclasses.dataclass(frozen=True)
class Crate:
    """A crate: its name, its line in crates.txt, the names of the crates and of the toolchain's libraries there, and
    whether it is proved, as all that users run is."""

    name: str
    line: str
    uses: tuple
    of_kit: tuple
    is_proved: bool = True

    @property
    def folder(self):
        return TOP / "crates" / self.name

    @property
    def out(self):
        return self.folder / "out"

    @property
    def library(self):
        """Where its library is kept, once it was proved."""
        return self.out / "proved" / (f"lib{self.name}.a" if self.is_static else f"{self.name}.rlib")

    @property
    def stamp(self):
        return self.out / "proved" / "stamp"

    @property
    def is_program(self):
        return (self.folder / "src" / "main.rt").exists()

    @property
    def is_static(self):
        """Whether it is a static library, for programs in C."""
        return "staticlib" in self.line.partition(":")[0].split()

    def sources(self):
        """The files that a check of the crate reads, in the order of their paths."""
        return sorted(it for part in PARTS for it in (self.folder / part).rglob("*") if it.is_file())


def read(path):
    return path.read_text(encoding="utf-8")


def parsed(text):
    """The lines of a crates.txt by the names of their crates, in order: each line, and the words after its colon."""
    lines = [it.partition("#")[0].strip() for it in text.splitlines()]
    return {line.split(":")[0].split()[0]: (line, line.partition(":")[2].split()) for line in lines if line}


@functools.lru_cache(maxsize=None)
def listed():
    """All crates by name, in the order of crates.txt, where each comes after those that it uses."""
    text = read(TOP / "crates.txt")
    lines, proved = parsed(text), parsed(text.partition(NOT_PROVED)[0])
    own = lambda words: tuple(it for it in words if it in lines)
    of_kit = lambda words: ("std", *(it for it in words if it not in lines))
    return {it: Crate(it, line, own(words), of_kit(words), it in proved) for it, (line, words) in lines.items()}


def proved():
    """The crates that are proved: all that users run."""
    return [it for it in listed().values() if it.is_proved]


@functools.lru_cache(maxsize=None)
def below(name):
    """The crates below a crate, each after those that it uses itself."""
    used = {one for it in listed()[name].uses for one in (it, *(crate.name for crate in below(it)))}
    return [crate for crate in listed().values() if crate.name in used]


def with_below(names):
    """These crates and those below them, each after those that it uses."""
    wanted = {crate.name for name in names for crate in [*below(name), listed()[name]]}
    return [crate for crate in listed().values() if crate.name in wanted]


def known(names):
    """These names, of which each must be that of a crate."""
    unknown = [it for it in names if it not in listed()]
    return sys.exit(f"no crate of crates.txt: {' '.join(unknown)}") if unknown else names


@functools.lru_cache(maxsize=None)
def kit(path=""):
    """The folder of the toolchain, or a file in it."""
    rt = shutil.which("rt")
    if not rt:
        sys.exit("the command rt isn't installed: CONTRIBUTING.md lists what is needed")
    return pathlib.Path(os.path.realpath(rt)).parent.parent / path


def rattle_words(verb, crate, library=lambda crate: crate.library):
    """The words by which `rattle check` or `rattle build` works on a crate in its folder, over the libraries that are
    kept of those below it, or those that a function returns."""
    words = [kit("bin/rattle"), verb, "--crate-name", crate.name]
    words.append("src/main.rt" if crate.is_program else "src/lib.rt")
    libraries = {it: kit(f"rlibs/{it}.rlib") for it in crate.of_kit}
    libraries |= {it: library(listed()[it]) for it in crate.uses}
    for name, path in libraries.items():
        words += ["--extern", f"{name}={path}"]
    for folder in [kit("rlibs"), *(library(it).parent for it in below(crate.name))]:
        words += ["-L", f"dependency={folder}"]
    words += ["--antt-project", kit("rattle/logic/antt-project.json"), "--logic-built", kit("logic_built")]
    return words + (["--crate-type", "staticlib"] if crate.is_static else [])


def sum_of_texts(texts):
    return hashlib.sha256("\n".join(texts).encode()).hexdigest()


@functools.lru_cache(maxsize=None)
def own_sum(name):
    """A sum of a crate's line and files."""
    crate = listed()[name]
    of_file = lambda it: f"{it.relative_to(crate.folder)} {hashlib.sha256(it.read_bytes()).hexdigest()}"
    return sum_of_texts([crate.line, *map(of_file, crate.sources())])


def kit_sum():
    """A sum of the line that names the toolchain."""
    return sum_of_texts([read(kit("KIT-ID"))])


@functools.lru_cache(maxsize=None)
def sum_of(name):
    """A sum of all that a crate's proof depends on: the toolchain, its line and its files, and the same for the crates
    below it."""
    return sum_of_texts([kit_sum(), own_sum(name), *map(sum_of, listed()[name].uses)])


def forget_sums():
    """Has the sums of files that may have changed taken again."""
    own_sum.cache_clear()
    sum_of.cache_clear()
