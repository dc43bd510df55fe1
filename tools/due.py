"""Finds the must-fail edits that are due: those that wait since an earlier run had no time for them, those of crates
that changed since a commit whose edits were tried, and a tenth of the others.

tools/edits-tried names that commit in its first line, and in the lines below it the edits that wait.

A crate has changed if its own text has changed (sources, definitions or proofs), or what a crate below it states: its
definitions, its types, its functions' contracts, and the statements of its laws. Bodies of functions, proofs of laws,
imports and comments don't matter to the crates above. In a crate that hasn't changed, edits that are new or have
changed themselves are due too.
"""

import hashlib
import pathlib
import re
import subprocess
import tempfile

import crates

COMMENT = re.compile(r"(?m)[ \t]*(?://|--).*$")
IMPORT = re.compile(r"(?m)^(?:pub(?:\([^)]*\))?\s+|ghost\s+|\s)*(?:use|mod)\b.*$")
# a function's body, after the last line of its signature and contract
BODY = re.compile(
    r"(?m)^( *)((?:pub(?:\([^)]*\))? )?(?:const )?(?:unsafe )?(?:extern \S+ )?fn .*|(?:\) *(?:->.*)?)?)"
    r"\{\n(?:.*\n)*?\1\}$"
)
# the equations of a law, after its statement
EQUATIONS = re.compile(r"(?m)^[^\s:=][^:=\n]*=.*\n(?:\s.*\n)*")
# files of proofs that no other file can cite
OF_FUNCTIONS = ("Answers.antt", "Invariants.antt", "Proof.antt")


def git(*words):
    """What git says about the checkout; nothing if there is none."""
    ran = subprocess.run(["git", *words], cwd=crates.TOP, capture_output=True, check=False)
    return ran.stdout if ran.returncode == 0 else b""


def texts(folder):
    """The texts of a crate's files, by path, without blank lines and comments, on which no proof depends."""
    files = [it for part in crates.PARTS for it in (folder / part).rglob("*") if it.is_file()]
    lines = lambda it: (line.rstrip() for line in COMMENT.sub("", it.read_text(errors="replace")).splitlines())
    return {str(it.relative_to(folder)): "".join(f"{line}\n" for line in lines(it) if line) for it in files}


def stated(of_files):
    """What a crate's texts, by path, state: without imports, bodies, proofs, spaces and line ends."""
    shorten = {"src": lambda it: BODY.sub(r"\1\2{", it), "proofs": lambda it: EQUATIONS.sub("", it)}
    kept = [(path, text) for path, text in sorted(of_files.items()) if not path.endswith(OF_FUNCTIONS)]
    said = [shorten.get(path.partition("/")[0], str)(text) for path, text in kept]
    return "".join(IMPORT.sub("", "".join(said)).split())


def changed_crates(before):
    """The names of the crates whose text, or what a crate below them states, differs from that of another checkout."""
    found, restated = set(), set()
    lines = crates.parsed((before / "crates.txt").read_text())
    for crate in crates.listed().values():
        old, new = texts(before / "crates" / crate.name), texts(crate.folder)
        is_own = old != new or lines.get(crate.name, ("",))[0] != crate.line
        if is_own and stated(old) != stated(new):
            restated.add(crate.name)
        if is_own or restated.intersection(it.name for it in crates.below(crate.name)):
            found.add(crate.name)
    return found


def known(tried):
    """The commit that a file names, if it is an ancestor of this one, and the labels of the edits that wait."""
    commit, *waiting = tried.read_text().split() if tried.exists() else [""]
    is_known = commit and git("merge-base", commit, "HEAD").decode().strip() == commit
    return commit if is_known else "", waiting


def note(tried, commit, waiting):
    """Writes the commit whose edits were tried, but for those that wait."""
    tried.write_text("".join(f"{it}\n" for it in [commit, *waiting]))


def is_drawn(edit, commit):
    """Whether an edit belongs to the tenth that a commit draws."""
    return hashlib.sha256(f"{commit} {edit.label}".encode()).digest()[0] * 10 < 256


def due(every, tried):
    """The edits that are due by what a file says, those that wait first, then those of changed crates, and a line of
    text."""
    commit, waiting = known(tried)
    head = git("rev-parse", "HEAD").decode().strip()
    first = [it for it in every if it.label in waiting]
    if not commit:
        rest = [it for it in every if it not in first]
        return [*first, *rest], "edits: there is no commit whose edits were all tried, so all are due"
    with tempfile.TemporaryDirectory(prefix="crackd-due-") as room:
        files = git("archive", commit, "crates", "crates.txt")
        subprocess.run(["tar", "-x", "-C", room], input=files, check=True)
        changed = changed_crates(pathlib.Path(room))
        place = lambda top, it: pathlib.Path(top) / "crates" / it.crate / "must-fail" / it.name
        text = lambda path: path.read_bytes() if path.exists() else b""
        is_new = lambda it: text(place(room, it)) != text(place(crates.TOP, it))
        own = [it for it in every if it not in first and (it.crate in changed or is_new(it))]
    others = [it for it in every if it not in first and it not in own and is_drawn(it, head)]
    of = ", ".join(sorted(changed & {it.crate for it in own})) or "none"
    said = f"edits: {len(first)} waited for a run to try them, {len(own)} are due, new ones or of crates that changed"
    return [*first, *own, *others], f"{said} since {commit[:12]} ({of}), and {len(others)} are drawn from the others"
