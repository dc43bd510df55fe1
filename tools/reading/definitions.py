"""The definitions of specs/ as items, with what each of them cites, and the names that a text cites.

Each item has a name: `crack_part.Parts.IsSound` is a definition, `crack_part::partition::Partition` a type. Names are
resolved by the file's own definitions and its `use` lines; names that a text binds itself, and fields after a full
stop, aren't items. Nothing outside the repository's crates is an item.
"""

import dataclasses
import pathlib
import re
import typing

# The first line of a module of definitions that nobody has to read to know what is promised.
PRIVATE = "-- What private clauses alone cite."
NAME = r"[^\s(){}\[\];,.]+"
WORD = re.compile(rf"(\.?)({NAME})")
USE = re.compile(r"^\s*(?:ghost )?use Rattle\.([\w.]+?)(?:\.\{([^}]*)\})?(?: as (\S+?))?;?\s*$")
KEYWORD = r"(?:abbrev|unfoldable|opaque|pub|record|data)\s+"
HEAD = re.compile(rf"^(?:(?={KEYWORD})(?:{KEYWORD})*({NAME})|({NAME}) : )")
NO_DEFINITION = re.compile(r"^(?:use|pub mod|module)\s")
CONSTRUCTOR = re.compile(rf"^  ({NAME}) : ")
FIELD = re.compile(rf"(?m)^\s+(?:pub )?({NAME}) : ")
BINDERS = re.compile(r"λ\s*((?:[^().]|\([^()]*\))*?)\.(?=\s|$)")
TYPED = re.compile(r"[({]([^(){}:≡=]+?) : ")
LET = re.compile(rf"\blet ({NAME}) ")
# a quoted part, or a comment
PASSED_OVER = re.compile(r'(?m)"(?:\\.|[^"\\\n])*"|(?:--|//).*$')
ASSIGNED = re.compile(r"(?m)(?:[{;]|^)\s*(\w+) =(?=\s)")


class Clause(typing.NamedTuple):
    """A clause of a call: whether callers must fulfil it, its name, its lines, and what it cites."""

    is_required: bool
    name: str
    lines: tuple
    cites: frozenset


@dataclasses.dataclass(frozen=True, eq=False)
class Item:
    """What a crate defines under one name. Its numbered lines are those that count; comments, and the first lines of a
    function, are kept separately. It cites other items by their names. A call has its path after its crate, without
    modules, what its signature cites, and its clauses."""

    name: str
    kind: str
    crate: str
    path: pathlib.Path
    lines: tuple
    beside: tuple = ()
    cites: frozenset = frozenset()
    is_public: bool = False
    called: tuple = ()
    signature: frozenset = frozenset()
    clauses: tuple = ()

    @property
    def first(self):
        """The number of the first line that isn't a comment."""
        return min(number for number, line in (*self.lines, *self.beside) if not line.lstrip().startswith(("--", "//")))

    @property
    def short(self):
        """The last part of its name."""
        return self.name.rpartition(".")[2]


def with_clauses(call, clauses):
    """A call with these clauses."""
    lines, cites = tuple(line for it in clauses for line in it.lines), (it.cites for it in clauses)
    return dataclasses.replace(call, lines=lines, cites=call.signature.union(*cites), clauses=clauses)


def is_private(path):
    """Whether a module of definitions says in its first line that only private clauses cite it."""
    return path.read_text(encoding="utf-8").startswith(PRIVATE + "\n")


def named_by(crate, module, name=""):
    """The item that a name in a module of definitions means. A module below `declared` is that of a type or of
    constants of src/."""
    first, *parts = module.split(".")
    if first != "declared":
        return f"{crate}.{module}.{name}"
    return "::".join([crate, *(name if it == "TheConstants" else it for it in parts if it != "TheVariants")])


def used(line):
    """The names that a `use` line imports, each with its item, or, with a full stop after it, with its module."""
    found = USE.match(line)
    if not found:
        return {}
    crate, _, module = found[1].partition(".specs")
    module = module.lstrip(".")
    if found[2] is None:
        return {found[3] or module.rpartition(".")[2]: named_by(crate, module)}
    parted = [re.split(r"\s+as\s+", it.strip()) for it in found[2].split(",")]
    return {it[-1]: named_by(crate, module, it[0]) for it in parted}


def plain(text):
    """A text without comments and quoted parts."""
    return PASSED_OVER.sub(lambda it: '""' if it[0].startswith('"') else "", text)


def bound_in(text):
    """The names that a text binds: variables of λ, of `let` and with a type, fields of a record, and fields that it
    gives values."""
    names = {*FIELD.findall(text), *LET.findall(text), *ASSIGNED.findall(text)}
    for binders in BINDERS.findall(text):
        names.update(re.sub(r"\(([^():]*)(?::[^()]*)?\)", r"\1", binders).split())
    return names.union(*(it.split() for it in TYPED.findall(text)))


def arguments_of(name, lines):
    """The names of a definition's arguments in its equations; a name with a capital letter is a constructor."""
    heads = [line.partition(" = ")[0] for _, line in lines if line.startswith(name + " ")]
    words = {it for head in heads if " : " not in head for it in re.findall(r"[^\s(){}∷,]+", head)[1:]}
    return {it for it in words if not it[0].isupper()}


def cited(text, scope, bound):
    """The items that a text cites: the meanings of its words in a scope, except for bound ones."""
    found, module = set(), ""
    for dot, word in WORD.findall(plain(text)):
        item = module + word if dot and module else "" if dot or word in bound else scope.get(word, "")
        module = item if item.endswith(".") else ""
        if item and not module:
            found.add(item)
    return frozenset(found)


def pieces(text):
    """The definitions of a text in order: the name of each, its lines, and the comments above and in it."""
    found, above, is_inside = [], [], False
    for number, line in enumerate(text.splitlines(), 1):
        is_inside = line.startswith("module ") or (is_inside and line[:1] in ("", " "))
        line = line.removeprefix("  ") if is_inside else line
        head = HEAD.match(line)
        name = head and (head[1] or head[2])
        if not line.strip() or NO_DEFINITION.match(line):
            above = []
        elif line.startswith("--"):
            above.append((number, line))
        elif name and not (found and found[-1][0] == name):
            found.append((name, [(number, line)], above))
            above = []
        elif found:
            found[-1][2 if line.lstrip().startswith("--") else 1].append((number, line))
        else:
            raise ValueError(f"line {number} belongs to no definition: {line}")
    return found


def definitions_in(path, crate, module):
    """The definitions of a file of specs/."""
    text = path.read_text(encoding="utf-8")
    own = pieces(text)
    scope = {name: item for line in text.splitlines() for name, item in used(line).items()}
    for name, lines, _ in own:
        of_data = lines[1:] if re.match(r"(?:pub )?data ", lines[0][1]) else []
        constructors = [found[1] for _, line in of_data if (found := CONSTRUCTOR.match(line))]
        scope.update({it: f"{crate}.{module}.{name}" for it in (name, *constructors)})
    for name, lines, comments in own:
        said = "\n".join(line for _, line in lines)
        cites = cited(said, scope, bound_in(said) | arguments_of(name, lines)) - {scope[name]}
        yield Item(f"{crate}.{module}.{name}", "definition", crate, path, tuple(lines), tuple(comments), cites)


def definitions_of(folder):
    """The definitions of a crate."""
    specs = folder / "specs"
    files = [it for it in sorted(specs.rglob("*.antt")) if it.name != "Lib.antt"]
    modules = [(it, ".".join(it.relative_to(specs).with_suffix("").parts)) for it in files]
    return [it for path, module in modules for it in definitions_in(path, folder.name, module)]
