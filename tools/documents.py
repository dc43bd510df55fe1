#!/usr/bin/env python3
"""Lists the faults of the documents:

- A rule of docs/SPECIFICATION.md that no case shows. The word after a § marks the rule before it. This word must be
  part of the name of a case of acceptance/cases, of a section of a page of acceptance/pages, of a test of acceptance/
  or of the crates of tests (there with underscores), or of a `name:` in a table of a test. Each item of a list and each
  row of a table of rules must have a mark.
- A name in backquotes in PROOFS' section 'What is only tested' that isn't a link to a file with this name, or to a file
  that contains this test.
- A name of code in a crate's section of PROOFS that is neither in the crate's texts nor a function or type elsewhere.
- A link to a file that doesn't exist, or to a heading that a page doesn't have.
- A type of EXAMPLES whose comment has no example, and an example in a comment that no test has. Between two lines of an
  example, `// ..` stands for what was left out.
"""

import re
import sys

from crates import PARTS, TOP, read

RULES, PROOFS = "docs/SPECIFICATION.md", "docs/PROOFS.md"
MARK = re.compile(r"§([\w-]+)")
# the files and the patterns of names that show rules
SHOWN = {
    "acceptance/cases/*.cases": r"^== (\S+)",
    "acceptance/pages/*.txt": r"^## (.+)",
    "acceptance/test_*.py": r"^\s*def test_(\w+)",
    "crates/*_tests/src/**/*.rt": r"^\s*(?:#\[test\]\s*fn |name: \")(\w[\w ]*)",
}
# the first cells of the tables whose rows are rules
TABLES = ("No.", "Statement", "Exit", "Step")
ITEM = re.compile(r"(?:- |\d+\. )")
TESTED = "## What is only tested\n"
LINKED = re.compile(r"\[`([\w.]+)`\]\(\.\./([^)]*)\)|`(\w*[_.][\w.]*)`")
SECTION = re.compile(r"^## (crackd?_\w+)\n(.*?)(?=^## )", re.MULTILINE | re.DOTALL)
QUOTED = re.compile(r"`([^`]+)`")
NAME = re.compile(r"[A-Za-z_][\w-]*")
DEFINED = re.compile(r"\b(?:fn|pub struct|pub enum|pub trait) (\w+)")
# words in sections that aren't names of code: words of statements and policies, and a crate of the toolchain
PLAIN = {"quit", "policy", "auto", "csv"}
# the public types of libraries for programs, by the file that has them
EXAMPLES = {
    "crates/crack_core/src/cores.rt": ["Core"],
    "crates/crack_core/src/step.rt": ["Job", "Done"],
    "crates/crack_session/src/feeding.rt": ["Session"],
    "crates/crack_session/src/session.rt": ["SessionEnd"],
    "crates/crack_session/src/desk.rt": ["Desk"],
    "crates/crack_table/src/opening.rt": ["UnnamedTable"],
    "crates/crack_table/src/table.rt": ["Table"],
    "crates/crack_table/src/gathering.rt": ["Gathered"],
    "crates/crack_table/src/gate.rt": ["Gate"],
    "crates/crack_worker_desk/src/desk.rt": ["WorkerDesk"],
    "include/crackd.h": ["crackd_handle", "crackd_totals"],
}
# where the code of examples is run
RUN = ["crates/*_tests/src/**/*.rt", "acceptance/c/*.c", "docs/C.md"]
SHOWN_TYPE = re.compile(
    r"An example, from a test:\n(?:///)?\n(.*?)(?:^/// ```\n(?:#[^\n]*\n)*pub \w+|\*/\ntypedef struct \{[^}]*\}) (\w+)",
    re.DOTALL | re.MULTILINE,
)
LINK = re.compile(r"\]\(([^)\s]+)\)")
HEADING = re.compile(r"^#+ (.*)$", re.MULTILINE)


def rules(text):
    """The items of lists and the rows of tables that are rules, each with the number of its first line."""
    found, table, before = [], False, ""
    for number, line in enumerate(text.splitlines(), 1):
        cell = line.strip("|").split("|")[0].strip()
        if line.startswith("|") and not before.startswith("|"):
            table = cell in TABLES
        elif ITEM.match(line) or (table and line.startswith("|") and cell.strip("-")):
            found.append((number, line))
        elif line.startswith("  ") and before:
            found[-1] = (found[-1][0], f"{found[-1][1]}\n{line}")
        before = line
    return found


def rule_faults(top):
    """The rules without a mark, and the marks that no case has."""
    text = read(top / RULES)
    shown = [re.findall(it, read(path), re.MULTILINE) for pattern, it in SHOWN.items() for path in top.glob(pattern)]
    known = {re.sub("[ _]", "-", it) for names in shown for it in names}
    wrong = [(number, f"this rule has no mark: {it[:60]}") for number, it in rules(text) if not MARK.search(it)]
    marks = [(number, it) for number, line in enumerate(text.splitlines(), 1) for it in MARK.findall(line)]
    wrong += [(number, f"no case's name has {it}") for number, it in marks if not any(it in name for name in known)]
    return [f"{RULES}:{number}: {why}" for number, why in wrong]


def lost_tests(text, top):
    """The names of tests in a page that aren't links to a file of this name, or to one that has this test."""
    for name, path, bare in LINKED.findall(text.partition(TESTED)[2].partition("\n## ")[0]):
        is_file = path.endswith(f"/{name}")
        if not path or not (is_file or re.search(rf"\b(?:fn|def) {name}\b", read(top / path))):
            yield f"{PROOFS}: {name or bare} isn't a link to a test"


def strangers(text, top):
    """The names in crates' sections of a page that don't exist, each with its crate."""
    sources = {it: read(it) for part in PARTS for it in top.glob(f"crates/*/{part}/**/*") if it.is_file()}
    known = PLAIN.union(*(DEFINED.findall(said) for it, said in sources.items() if it.suffix == ".rt"))
    for crate, section in SECTION.findall(text):
        own = set().union(*(NAME.findall(said) for it, said in sources.items() if top / "crates" / crate in it.parents))
        named = {name for quoted in QUOTED.findall(section) for name in NAME.findall(quoted)}
        yield from (f"{PROOFS}: {crate} has no {it}" for it in sorted(named - own - known))


def example_faults(top, types):
    """The types without an example, and the examples with lines that no test has."""
    lines = lambda text: "\n".join(it.strip() for it in text.splitlines())
    tests = [lines(read(path)) for pattern in RUN for path in sorted(top.glob(pattern))]
    for file, names in types.items():
        shown = {name: text for text, name in SHOWN_TYPE.findall(read(top / file))}
        yield from (f"{file}: {it} has no example" for it in names if it not in shown)
        for name, text in shown.items():
            code = re.sub(r"^ *(?:///(?: ```)?) ?", "", text, flags=re.MULTILINE)
            for part in code.split("// ..\n"):
                if not any(lines(part).strip() in it for it in tests):
                    yield f"{file}: no test has the example of {name}: {part.strip().splitlines()[0]}"


def broken_links(top):
    """The links that lead nowhere, each with the page that has it."""
    anchors = lambda text: {re.sub(r"[^\w\- ]", "", it.lower()).replace(" ", "-") for it in HEADING.findall(text)}
    for page in [*sorted(top.glob("*.md")), *sorted(top.glob("docs/*.md"))]:
        for link in (it for it in LINK.findall(read(page)) if "://" not in it):
            path, _, anchor = link.partition("#")
            target = (page.parent / path).resolve() if path else page
            if not target.exists() or (anchor and anchor not in anchors(read(target))):
                yield f"{page.relative_to(top)} leads to {link}"


def faults(top=TOP, types=EXAMPLES):
    """All that is wrong, a line each."""
    proofs = read(top / PROOFS)
    texts = [*rule_faults(top), *lost_tests(proofs, top), *strangers(proofs, top), *broken_links(top)]
    return [*texts, *example_faults(top, types)]


if __name__ == "__main__":
    found = faults()
    print("\n".join(found) or "each rule has a case, each name and link leads somewhere, and each example is in a test")
    sys.exit(1 if found else 0)
