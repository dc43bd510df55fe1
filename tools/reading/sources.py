"""The files of src/: their functions, types, traits and blocks, and which item each of their names is."""

import collections
import dataclasses
import functools
import pathlib
import re
import typing

from reading import definitions

GHOST = re.compile(r"^    ghost (?!use\b)(\w+)\s*[=:]")
TYPE = re.compile(r"^(pub(?:\([a-z]+\))? )?(struct|enum|union|type|const|static|trait) (\w+)")
RUST_USE = re.compile(r"(?m)^(?:pub(?:\([a-z]+\))? )?use ([\w:]+)::(?:\{([^}]*)\}|([\w ]+))")
IMPORTED = re.compile(r"(\w+)(?: as (\w+))?")
FUNCTION = re.compile(r"^(\s*)(?:pub(?:\([^)]*\))?\s+)?(?:const\s+)?(?:unsafe\s+)?(?:extern\s+\S+\s+)?fn\s+(\w+)")
BLOCK = re.compile(r"^(?:pub(?:\([^)]*\))?\s+)?(?:unsafe\s+)?(impl|trait)\b(.*)")
TRAIT = re.compile(r"(?:<.*?>)? ?(?:(.*) for )?")
CALL = re.compile(r"\b(\w+)(?:::<[^()]*>)?\(|::(\w+)\b")
SKIPPED = re.compile(r"^\s*(?:#|//|$)")
REMARK = re.compile(r"^\s*//")


class Function(typing.NamedTuple):
    """A function: its module's path, its type and that type's trait, if any, and its name."""

    module: tuple
    owner: str
    trait: str
    name: str

    def is_named(self, parts):
        """Whether a check's name for a function, in parts after the crate's, means this one or a closure in it. There a
        method has the module of its type, even if its impl is in another."""
        if not self.owner:
            own = (*self.module, self.name)
            return tuple(parts[: len(own)]) == own
        is_owner = lambda it: it.startswith(self.owner + self.trait) if self.trait else it == self.owner
        return any(is_owner(owner) and name == self.name for owner, name in zip(parts, parts[1:]))


class Block(typing.NamedTuple):
    """An `impl` or a trait: where it is, its type (for a trait the trait itself), its trait with its arguments (for a
    trait none), and the items that its names are."""

    span: range
    is_trait: bool
    owner: str
    trait: str
    scope: dict

    @property
    def title(self):
        return f"{self.owner} as {self.trait}" if self.trait else self.owner


@dataclasses.dataclass(frozen=True)
class Source:
    """A file of src/: its lines, counted from 0, whether its module is public, the words of the `pub use` lines of the
    crate's root, and the items that its names are."""

    crate: str
    path: pathlib.Path
    lines: list
    is_open: bool = False
    handed: set = frozenset()
    scope: dict = dataclasses.field(default_factory=dict)

    @property
    def module(self):
        """The path of its module."""
        parts = self.path.as_posix().rpartition("/src/")[2].removesuffix(".rt").split("/")
        return tuple(it for it in parts if it not in ("lib", "main", "mod"))

    def named(self, *parts):
        """The name of an item of the file."""
        return "::".join([self.crate, *self.module, *parts])

    def types(self):
        """Where types, constants and traits begin: how each is visible, its keyword and its name."""
        return {at: found.groups() for at, line in enumerate(self.lines) if (found := TYPE.match(line))}

    @functools.cached_property
    def blocks(self):
        """The `impl` blocks and the traits. In a trait, the names of its ghost members are the trait's own."""
        found = []
        for at, match in enumerate(map(BLOCK.match, self.lines)):
            if not match:
                continue
            span, is_trait = self.whole(at, ("}",)), match[1] == "trait"
            owner = type_in(match[2].partition(":")[0] if is_trait else match[2])
            inner = [self.lines[it] for it in span]
            scope = {**self.scope, **{it[1]: self.named(owner) for it in map(GHOST.match, inner) if it and is_trait}}
            for it in inner:
                scope.update(definitions.used(it))
            found.append(Block(span, is_trait, owner, TRAIT.match(match[2])[1] or "", scope))
        return found

    def block_at(self, at):
        """The block in which a line is, or None."""
        return next((it for it in self.blocks if at in it.span), None)

    def function_at(self, at):
        """The function in which a line is, or None."""
        indent = len(self.lines[at]) - len(self.lines[at].lstrip())
        rows = ((row, FUNCTION.match(self.lines[row])) for row in range(at, -1, -1))
        row, found = next(((row, it) for row, it in rows if it and (row == at or len(it[1]) < indent)), (0, None))
        block = self.block_at(row) if found else None
        if not found or (found[1] and not block):
            return None
        owner, trait = (block.owner, type_in(block.trait)) if block else ("", "")
        return Function(self.module, owner, trait, found[2])

    def said(self, span):
        """The lines of a span with their numbers from 1, without attributes, comments and blank ones."""
        return tuple((at + 1, self.lines[at]) for at in span if not SKIPPED.match(self.lines[at]))

    def remarks(self, span):
        """The comments in a span, and those above it, with their numbers from 1."""
        above = span[0]
        while above and self.lines[above - 1].strip() and SKIPPED.match(self.lines[above - 1]):
            above -= 1
        return tuple((at + 1, self.lines[at]) for at in range(above, span[-1] + 1) if REMARK.match(self.lines[at]))

    def whole(self, first, closes):
        """The lines from this one on, up to the first that ends with one of these while all brackets are closed."""
        depth = 0
        for at in range(first, len(self.lines)):
            text = definitions.plain(self.lines[at]).rstrip()
            depth += sum(text.count(it) for it in "{([") - sum(text.count(it) for it in "})]")
            if depth <= 0 and text.endswith(closes):
                return range(first, at + 1)
        raise ValueError(f"{self.path}: what begins in line {first + 1} doesn't end")

    def imported(self, items):
        """Those of these items, by path, that the file's `use` lines import, by name."""
        uses = ((path, " ".join(names)) for path, *names in RUST_USE.findall("\n".join(self.lines)))
        found = ((path, *it) for path, names in uses for it in IMPORTED.findall(names))
        paths = {other or name: re.sub(r"^crate\b", self.crate, f"{path}::{name}") for path, name, other in found}
        return {name: items[path] for name, path in paths.items() if path in items}


class Names:
    """Which items names of Rust are: a file's own types, constants and traits, those that it imports, else those of its
    crate; and which of them are public."""

    def __init__(self):
        # the items by their paths, and public ones also by their crates alone
        self.items, self.public = {}, set()

    def read(self, folder):
        """The files of src/ of a crate, with what their names and the `use` lines of their contracts mean."""
        root = next(it for it in (folder / "src" / "lib.rt", folder / "src" / "main.rt") if it.exists())
        text, paths = root.read_text(), sorted((folder / "src").rglob("*.rt"))
        handed = set(re.findall(r"\w+", " ".join(re.findall(r"(?m)^pub use ([^;]+);", text))))
        is_open = {root.stem, *re.findall(r"(?m)^pub mod (\w+);", text)}
        found = [Source(folder.name, it, it.read_text().splitlines(), it.stem in is_open, handed) for it in paths]
        own = [(source, visible, name) for source in found for visible, _, name in source.types().values()]
        for source, visible, name in own:
            item = self.items[source.named(name)] = source.named(name)
            if visible == "pub " and (source.is_open or name in handed):
                self.public.add(item)
                self.items[f"{folder.name}::{name}"] = item
        for source in found:
            source.scope.update({name: of.named(name) for of, _, name in reversed(own)})
            source.scope.update(source.imported(self.items))
            source.scope.update({name: source.named(name) for _, _, name in source.types().values()})
            for line in (it for it in source.lines if it.startswith("ghost use")):
                source.scope.update(definitions.used(line))
        return found


def type_in(header):
    """The last name of the type's path in the rest of an impl's first line, without what is in angle brackets."""
    before, text = "", header.replace("->", "")
    while before != text:
        before, text = text, re.sub(r"<[^<>]*>", "", text)
    return re.match(r"[\s&]*(?:\w+::)*(\w*)", text.partition(" where ")[0].rpartition(" for ")[2])[1]


def reached(files):
    """For each function of these files the functions that it may call, directly or not: all whose names it calls, and
    what these call in turn."""
    names, of_name = collections.defaultdict(set), collections.defaultdict(set)
    lines = ((it, at, CALL.findall(line)) for it in files for at, line in enumerate(it.lines))
    for caller, found in ((source.function_at(at), found) for source, at, found in lines if found):
        if caller:
            names[caller].update(one or other for one, other in found)
            of_name[caller.name].add(caller)
    called = {caller: set().union(*(of_name.get(it, ()) for it in found)) - {caller} for caller, found in names.items()}
    grown = lambda: {caller: found.union(*(called[it] for it in found)) for caller, found in called.items()}
    while (more := grown()) != called:
        called = more
    return called
