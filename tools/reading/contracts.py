"""Types, ghost members and calls of src/ as items, with what they cite.

A type is its text, without attributes and comments; if it has a model, what clauses see is the model's value. A field
that other crates don't see is left out if the model doesn't read it, or, without a model, if no clause, definition or
ghost member does. A ghost member is one statement of a trait or of an `impl` block: each member of a model is an item,
the members of any other block are one. A call is its clauses: it cites what they name, and the types and traits of its
signature.
"""

import re

from reading import definitions, sources

# the members of a model that are read with its type: the others say that values can be distinguished, and which fields
# make a value. What a type keeps of its own fields, its invariant, is a private clause: no value breaks it, and if a
# promise relies on it, a clause of a call says so.
READ = ("Value", "view")
CLAUSE = re.compile(r"^\s*(requires|ensures)\*?\s+(\w*)")
VARIANT = re.compile(r"(?m)^    \w+")
PARAMETER = re.compile(r"\b(\w+): ")
HIDDEN = re.compile(r"^    (?:pub\([a-z]+\) )?(\w+): ")


def types_cited(text, scope):
    """The types, constants and traits that a text of Rust names."""
    return frozenset(scope[it] for it in re.findall(r"\b[A-Z]\w*", definitions.plain(text)) if it in scope)


def text_of(lines):
    """The text of numbered lines."""
    return "\n".join(line for _, line in lines)


def fields_read(items):
    """The names of the fields that these items read."""
    return {name for it in items for name in re.findall(r"\.(\w+)", text_of(it.lines))}


def type_items(source, names, models, read):
    """The types and constants of a file. Each cites the types and definitions that its lines name, and the members of
    its model, if it has one. A field that isn't read, and its comments, are left out."""
    for at, (_, keyword, name) in source.types().items():
        if keyword == "trait":
            continue
        span, item = source.whole(at, ("}", ";")), source.named(name)
        seen = fields_read(models[item]) if models.get(item) else read
        fields = [it for it in span if keyword == "struct" and HIDDEN.match(source.lines[it])]
        unread = [it for it in fields if HIDDEN.match(source.lines[it])[1] not in seen]
        hidden = {it + 1 for it in unread} | {number for it in unread for number, _ in source.remarks([it])}
        shown = lambda lines: tuple(it for it in lines if it[0] not in hidden)
        lines, beside = shown(source.said(span)), shown(source.remarks(span))
        text = (VARIANT.sub("", text_of(lines)) if keyword == "enum" else text_of(lines)).partition(name)[2]
        ghost = "".join(it for it in text.splitlines() if sources.GHOST.match(it))
        cites = types_cited(text, source.scope) | definitions.cited(ghost, source.scope, set())
        kind = "constant" if keyword in ("const", "static") else "type"
        cites = frozenset({it.name for it in models.get(item, ())} | cites - {item})
        yield definitions.Item(item, kind, source.crate, source.path, lines, beside, cites, item in names.public)


def is_owner_public(source, block, names):
    """Whether the type or trait of a block is public, or one of another crate."""
    owner = block.scope.get(block.owner, "")
    return owner in names.public or not owner.startswith(source.crate + "::")


def ghost_items(source, block, names):
    """The ghost members of a block: one item for each member of a model, else one for all, which cites the trait."""
    is_model, title, found = block.trait == "Model", source.named(block.title), []
    for at, match in ((at, sources.GHOST.match(source.lines[at])) for at in block.span):
        if match:
            span = source.whole(at, (";",))
            text = text_of(source.said(span)).partition("{")[2]
            cites = definitions.cited(text, block.scope, definitions.bound_in(text)) - {source.named(block.owner)}
            cites |= types_cited("" if is_model else block.trait, block.scope)
            found.append((f"{title}::{match[1]}", source.said(span), source.remarks(span), tuple(cites)))
    if found and not is_model:
        found = [(title, *(sum(these, ()) for these in list(zip(*found))[1:]))]
    kind = "trait" if block.is_trait else "model" if is_model else "ghost"
    is_public = lambda name: name != f"{title}::invariant" and is_owner_public(source, block, names)
    of = source.crate, source.path
    return [definitions.Item(it, kind, *of, *lines, frozenset(cites), is_public(it)) for it, *lines, cites in found]


def clauses_from(source, at, scope, bound):
    """The clauses from a line on, and the comments between them."""
    clauses, comments = [], []
    while (found := CLAUSE.match(source.lines[at])) or sources.SKIPPED.match(source.lines[at]):
        span = source.whole(at, ("}", "};")) if found else range(at, at + 1)
        if found:
            text = text_of(source.said(span))[found.end() :]
            cites = definitions.cited(text, scope, bound | definitions.bound_in(text))
            clauses.append(definitions.Clause(found[1] == "requires", found[2], source.said(span), cites))
        elif sources.REMARK.match(source.lines[at]):
            comments += source.remarks(span)
        at = span[-1] + 1
    return tuple(clauses), tuple(comments)


def signature_at(source, at):
    """The lines of a function from its first one up to its clauses; none if it has no clauses."""
    ends = lambda it: CLAUSE.match(it) or it.rstrip().endswith(("{", ";", "}"))
    behind = next((it for it in range(at, len(source.lines)) if ends(source.lines[it])), at)
    return range(at, behind) if CLAUSE.match(source.lines[behind]) else range(0)


def is_call_public(source, text, short, block, names):
    """Whether a function is public: it says so or is of a trait, and its type, or else its module, is public, or the
    crate re-exports it."""
    if not block:
        return text.startswith("pub ") and (source.is_open or short in source.handed)
    is_open = block.is_trait or block.trait != "" or text.lstrip().startswith("pub ")
    return is_open and is_owner_public(source, block, names)


def call_at(source, span, names):
    """The function that begins with these lines, as a call."""
    lines, block = source.said(span), source.block_at(span[0])
    text, short = text_of(lines), sources.FUNCTION.match(source.lines[span[0]])[2]
    scope, heading = (block.scope, source.lines[block.span[0]]) if block else (source.scope, "")
    clauses, comments = clauses_from(source, span[-1] + 1, scope, set(PARAMETER.findall(text)))
    of = source.named(*([block.title] if block else []), short), "call", source.crate, source.path
    is_public, called = is_call_public(source, text, short, block, names), (block.owner, short) if block else (short,)
    signature = types_cited(heading + text, scope)
    call = definitions.Item(*of, (), (*lines, *comments), frozenset(), is_public, called, signature)
    return definitions.with_clauses(call, clauses)


def items_of(files, names, others):
    """All items of these files of src/, whose scopes are filled, except the definitions."""
    found, models = [], {}
    for source, block in ((source, block) for source in files for block in source.blocks):
        items = ghost_items(source, block, names)
        found += items
        if block.trait == "Model":
            models[source.named(block.owner)] = [it for it in items if it.name.rpartition("::")[2] in READ]
    for source in files:
        spans = [signature_at(source, at) for at, it in enumerate(source.lines) if sources.FUNCTION.match(it)]
        found += [call_at(source, span, names) for span in spans if span]
    read = fields_read([*found, *others])
    return [*found, *(it for source in files for it in type_items(source, names, models, read))]
