#!/usr/bin/env python3
"""Tests of the tools: which function contains a place, which edits are tried together and which are due, what is
proved, what is read for a promise, and what documents say."""

import contextlib
import io
import pathlib
import re
import shutil
import subprocess
import sys
import tempfile
import unittest
from unittest import mock

# `python3 -m unittest tools.test_tools` runs in the top folder
sys.path.insert(0, str(pathlib.Path(__file__).resolve().parent))

import build
import crates
import defined
import documents
import due
import edits
import graph
import kept
import numbers_held
import prove
import sums
import trust
import unproved
from reading import definitions, promises, sources

SHELF = {
    "src/lib.rt": """ghost use Rattle.a.specs.Sizes.{size, IsFull as IsLaden};
ghost use Rattle.a.specs.Other.{size as other_size};
pub use inside::{Scale, Shelf};

pub const PLACES: u64 = 8;

/// Puts one more on a shelf.
pub fn put(shelf: &mut Shelf, size: u64)
    requires { size < PLACES }
    ensures size { shelf.new.size ≡ size }
    // and it is told
    ensures laden { IsLaden shelf.new.items }
{
    shelf.put(size)
}

fn first(shelf: &Shelf) -> u64
    ensures { result ≡ other_size shelf.now.items }
{
    shelf.weigh()
}
""",
    "src/inside.rt": """/// What stands on it.
pub struct Shelf {
    things: Vec<Thing>,
    /// Where to look first.
    hint: Hint<u64>,
}

impl Model for Shelf {
    ghost use Rattle.std.specs.Prelude.{List};
    ghost Value = { List ℕ };
    ghost view = { λ s. s.things.items };
    ghost use Rattle.a.specs.Other.{AreLight};
    ghost invariant = { λ s. AreLight s.things.items };
}

struct Thing(u64);
struct Hint<T>(u64);

pub struct Label {
    text: u64,
    ink: Hint<u64>,
}

pub fn read(label: &Label) -> u64
    ensures text { result ≡ label.now.text }
{
    label.text
}

pub trait Scale {
    ghost weight : ℕ → ℕ;
    fn weigh(&self) -> u64
        ensures value { result ≡ weight 0 };
}

impl Scale for Shelf {
    ghost use Rattle.a.specs.Sizes.{in_grams};
    ghost weight = { in_grams };
}

impl<T: Copy> Scale for Hint<T> {
    ghost use Rattle.a.specs.Other.{in_ounces};
    ghost weight = { in_ounces };
    fn weigh(&self) -> u64 {
        self.0 + 1
    }
}

impl<T> Hint<T> {
    fn len(&self) -> u64 {
        self.0
    }
}
""",
    "specs/Sizes.antt": """-- How much stands on a shelf.
use Rattle.std.specs.Prelude.{ℕ, List, [], ◌∷◌}
use Rattle.a.specs.declared.TheConstants.{PLACES}

abbrev pub size : List ℕ → ℕ
size [] = 0
size (x ∷ xs) = suc (size xs)

pub record IsFull (items : List ℕ) : Type 0 where
  pub size : PLACES ≤ count items
  pub each : (k : ℕ) → IsThing k

pub data IsThing : ℕ → Type 0 where
  -- any is
  thing : (size : ℕ) → IsThing size

abbrev pub count : List ℕ → ℕ
count size = fold suc 0 size

abbrev pub in_grams : ℕ → ℕ
in_grams size = size

abbrev pub stray : ℕ
stray = 0
""",
    "specs/Other.antt": """-- What private clauses alone cite.
use Rattle.a.specs.Sizes.{count}

abbrev pub size : List ℕ → ℕ
size xs = count xs

abbrev pub AreLight : List ℕ → Type 0
AreLight xs = count xs ≤ 8

abbrev pub in_ounces : ℕ → ℕ
in_ounces size = size
""",
}


def folder_with(case, files):
    """A folder with these files, by path, which is removed after the test."""
    folder = tempfile.TemporaryDirectory()
    case.addCleanup(folder.cleanup)
    for path, text in files.items():
        (pathlib.Path(folder.name) / path).parent.mkdir(parents=True, exist_ok=True)
        (pathlib.Path(folder.name) / path).write_text(text, encoding="utf-8")
    return pathlib.Path(folder.name)


class Edits(unittest.TestCase):
    def test_a_function_is_named_by_its_module_type_and_trait(self):
        # a place, its function, names in a check, and those that mean it (there a method has the module of its type)
        of_hint = ["inside::Hint::len", "a::Hint::len::closure", "inside::Thing::len"]
        of_trait = ["inside::HintScale::weigh", "inside::HintOther::weigh", "inside::Hint::weigh"]
        for path, line, wanted, names, right in [
            ("src/inside.rt", "fn len", (("inside",), "Hint", "", "len"), of_hint, of_hint[:2]),
            ("src/inside.rt", "self.0 + 1", (("inside",), "Hint", "Scale", "weigh"), of_trait, of_trait[:1]),
            ("src/lib.rt", "shelf.weigh()", ((), "", "", "first"), ["first::closure", "put"], ["first::closure"]),
            ("src/lib.rt", "fn first", ((), "", "", "first"), ["first", "inside::first"], ["first"]),
        ]:
            lines = SHELF[path].splitlines()
            source = sources.Source("a", pathlib.Path(f"crates/a/{path}"), lines)
            found = source.function_at(next(at for at, it in enumerate(lines) if line in it))
            self.assertEqual((found, [it for it in names if found.is_named(it.split("::"))]), (wanted, right))

    def test_each_edit_can_be_applied_and_those_of_one_function_are_tried_apart(self):
        for crate in crates.listed().values():
            every = edits.edits_of(crate)
            made = edits.batches(crate, every, 8)
            self.assertEqual(sorted(it.name for batch in made for it in batch), sorted(it.name for it in every))
            self.assertTrue(all(len(batch) <= 8 for batch in made))
            pairs = [(one, other) for batch in made for one in batch for other in batch if one is not other]
            self.assertTrue(all(edits.are_apart(*it) for it in pairs))

    def test_calls_are_made_once_and_none_is_begun_once_it_is_over(self):
        every, begun = [*crates.listed().values()], []
        # each second call comes after the one that follows it
        first = lambda at: at + 1 if at % 2 == 0 and at + 1 < len(every) else None
        tasks = [(it, lambda it=it: begun.append(it) or it.name, first(at)) for at, it in enumerate(every)]
        self.assertEqual(edits.side_by_side(tasks, lambda: False), [it.name for it in every])
        self.assertEqual(len(begun), len(every))
        self.assertTrue(all(begun.index(other) < begun.index(it) for it, other in zip(every[::2], every[1::2])))
        self.assertEqual(edits.side_by_side(tasks, lambda: True), [None] * len(every))

    def test_a_copy_to_be_proved_has_no_edits_and_a_crate_comes_after_those_that_it_uses(self):
        crate, top = crates.listed()["crack_failing"], folder_with(self, {}) / "top"
        self.assertEqual(list(prove.copy(top, [crate])), [crate.name])
        self.assertEqual((top / "crates.txt").read_text(), f"{crate.line}\n")
        copied = {it.name for it in (top / "crates").glob("*/*")}
        self.assertEqual(copied & {"src", "must-fail"}, {"src"})
        places = {name: at for at, name in enumerate(crates.listed())}
        self.assertTrue(all(places[it] < places[name] for name in places for it in crates.listed()[name].uses))


class Due(unittest.TestCase):
    def assert_meaning(self, file, text, changed, is_told):
        self.assertEqual(due.stated({file: text}) != due.stated({file: changed}), is_told, (file, changed))

    def test_a_clause_is_stated_and_a_body_is_not(self):
        clause = re.compile(r"^( *)((?:pub )?fn .*\n\1    )ensures ", re.MULTILINE)
        for crate in crates.listed().values():
            texts = due.texts(crate.folder)
            for file, old, new in (change for it in edits.edits_of(crate) if it.function for change in it.changes):
                if old.endswith(";"):
                    self.assert_meaning(file, texts[file], texts[file].replace(old, new), False)
            for file, text in ((file, text) for file, text in texts.items() if clause.search(text)):
                self.assert_meaning(file, text, clause.sub(r"\1\2requires ", text, count=1), True)

    def test_a_law_is_stated_and_imports_and_proofs_are_not(self):
        self.assert_meaning("src/lib.rt", "mod inside;\nfn one() {\n    1\n}\n", "fn one() {\n    2\n}\n", False)
        law = "size-nil : size [] ≡ 0\nsize-nil = refl\n"
        self.assert_meaning("proofs/Laws.antt", law, law.replace("= refl", "= search"), False)
        self.assert_meaning("proofs/Laws.antt", law, law.replace("≡ 0", "≡ 1"), True)
        self.assert_meaning("proofs/f/Answers.antt", law, law.replace("≡ 0", "≡ 1"), False)

    def test_without_a_commit_all_are_due_and_since_this_one_a_tenth(self):
        every = [edits.Edit("crack_row", f"no_{number}.edit") for number in range(400)]
        self.assertEqual(len(due.due(every, pathlib.Path("no-such-file"))[0]), 400)
        drawn = [it for it in every if due.is_drawn(it, "0" * 40)]
        self.assertTrue(20 < len(drawn) < 60)

    def test_edits_that_wait_come_first(self):
        every = [edits.Edit("crack_row", f"no_{number}.edit") for number in range(400)]
        tried, waiting = folder_with(self, {}) / "tried", [every[399].label, every[7].label, "crack_row/gone.edit"]
        for commit in ("0" * 40, due.git("rev-parse", "HEAD").decode().strip()):
            due.note(tried, commit, waiting)
            found, _ = due.due(every, tried)
            self.assertEqual(found[:2], [every[7], every[399]])
            self.assertEqual(len({it.label for it in found}), len(found))

    def noted(self, trials, is_whole, before):
        """What is written after a run over all edits, or over some, in a checkout without changes."""
        tried = folder_with(self, {"tried": before}) / "tried"
        git = lambda *words: b"head\n" if words[0] == "rev-parse" else b""
        with mock.patch.object(edits, "TRIED", tried), mock.patch.object(due, "git", git):
            edits.note(trials, is_whole)
        return tried.read_text()

    def test_what_was_left_or_was_not_refused_waits(self):
        one, other, third = (edits.Edit("crack_row", f"{it}.edit") for it in ("a", "b", "c"))
        trials = edits.Trials([third], 0)
        trials.verdicts = {one.label: True, other.label: False}
        self.assertEqual(self.noted(trials, True, f"old\n{one.label}\n"), f"head\n{other.label}\n{third.label}\n")
        # a run over some crates leaves the commit as it is, and takes out what it refused
        before = f"old\n{one.label}\n{other.label}\n"
        self.assertEqual(self.noted(trials, False, before), f"old\n{other.label}\n")
        with mock.patch.object(due, "git", lambda *words: b"changed"):
            tried = folder_with(self, {"tried": before}) / "tried"
            with mock.patch.object(edits, "TRIED", tried):
                edits.note(trials, True)
            self.assertEqual(tried.read_text(), before)


class Proving(unittest.TestCase):
    """The order in which crates are proved. Nothing is proved: each proof is a stand-in."""

    def run_graph(self, fails=(), done=(), at_once=3):
        """Whether all were proved, the names of the crates in the order in which they began, and what was said."""
        began, said, wanted, folder = [], [], crates.proved(), folder_with(self, {})

        def stand_in(crate, top, priority):
            began.append(crate.name)
            return (1, "checked one\nwhy\n", 1.0) if crate.name in fails else (0, "", 1.0)

        with mock.patch.object(graph, "measured", lambda crate: folder / crate.name):
            it = graph.Graph(wanted, folder, said.append, done, stand_in)
            it.at_once = at_once
            return it.run(), began, said

    def test_each_comes_after_those_below_it_once_and_those_kept_are_not_begun(self):
        is_well, began, said = self.run_graph(done=["crack_row", "crack_arena"])
        names = [it.name for it in crates.proved()]
        self.assertTrue(is_well)
        self.assertEqual(sorted([*began, "crack_row", "crack_arena"]), sorted(names))
        places = {name: at for at, name in enumerate(["crack_row", "crack_arena", *began])}
        self.assertTrue(all(places[it] < places[name] for name in names for it in crates.listed()[name].uses))
        self.assertEqual(len(said), len(began) + 1)
        progress = r"\d+ of 25 done, running: .*, \d+ left, \d+ minutes to go$"
        self.assertRegex(said[1], rf"^prove: \w+ is proved after 1 s; {progress}")
        self.assertRegex(said[-1], r"; 25 of 25 done, running: none, 0 left, 0 minutes to go$")

    def test_after_a_failure_nothing_is_begun(self):
        is_well, began, said = self.run_graph(fails=["crack_plain"], done=["crack_row"], at_once=1)
        self.assertFalse(is_well)
        self.assertEqual(began[-1], "crack_plain")
        self.assertTrue(said[-1].startswith("why\nprove: crack_plain FAILED after 1 s; "), said[-1])

    def test_the_longest_chain_is_first_and_the_rest_of_a_run_is_estimated(self):
        wanted = [crates.Crate(*it, ()) for it in [("a", "", ()), ("b", "", ()), ("c", "", ("a",)), ("d", "", ("b",))]]
        seconds = {"a": 10.0, "b": 20.0, "c": 50.0, "d": 1.0}
        chain = graph.chains(wanted, seconds)
        self.assertEqual(chain, {"a": 60, "b": 21, "c": 50, "d": 1})
        self.assertEqual([it.name for it in graph.ready(wanted, {"a"}, {"b"}, chain)], ["c"])
        self.assertEqual(graph.simulated(wanted, seconds, 1), 81)
        self.assertEqual(graph.simulated(wanted, seconds, 2), 60)
        self.assertEqual(graph.simulated(wanted, seconds, 2, {"a"}, {"b": 5}), 50)

    def test_crates_of_tests_and_the_benchmark_are_not_proved(self):
        left = {it.name for it in crates.listed().values() if not it.is_proved}
        tests = {it for it in crates.listed() if it.endswith("_tests")}
        self.assertEqual(left, tests | {"crack_failing", "crack_bench"})
        self.assertEqual({it.name for it in crates.with_below(["crackd", "crackd_c"])}, set(crates.listed()) - left)

    def test_a_static_library_is_built_after_its_proof_if_those_below_it_are_kept(self):
        for name, are_kept, status, wanted in [
            ("crackd_c", True, 0, ["kept.py", "nice"]),
            ("crackd_c", False, 0, ["kept.py"]),
            ("crackd_c", True, 1, []),
            ("crack_row", True, 0, []),
        ]:
            ran = []

            def run(words, folder):
                ran.append(pathlib.Path(words[1 if words[0] == sys.executable else 0]).name)
                return (0 if are_kept else 1), []

            ended = mock.patch.object(graph, "run_ci", lambda *_: (status, "said", 2.0))
            with ended, mock.patch.object(prove, "run", run):
                found = prove.prove_crate(crates.listed()[name], pathlib.Path("/none/crackd"), 0)
            self.assertEqual((found[:2], ran), ((status, "said"), wanted))

    def test_with_another_toolchain_nothing_is_known_to_be_kept(self):
        top = folder_with(self, {"bin/rt": "import os\n"})
        with mock.patch.object(crates, "kit", lambda path="": top / path):
            self.assertEqual(kept.names(top), set())

    def test_what_nothing_is_kept_of_is_not_up_to_date(self):
        crate = crates.Crate("crack_row", "", (), ())
        top = folder_with(self, {"crates/crack_row/out/proved/stamp": ""})
        with mock.patch.object(crates, "TOP", top):
            self.assertFalse(prove.is_current(crate))


# a module as the toolchain makes it, with one check and one new variable
MODULE = """; ModuleID = 'module.bc'
define internal i64 @"a::third"(ptr %a0) #0 {
start:
  %r0 = alloca i8, align 1
  call void @llvm.memset.p0.i64(ptr %r0, i8 -86, i64 1, i1 false)
  call void @llvm.memset.p0.i64(ptr %a0, i8 -86, i64 1, i1 false)
  call void @"rattle-llvm-checks::Value"(i8 0)
  br i1 true, label %trap.1, label %trap.2

trap.1:                                           ; preds = %start
  call void @llvm.trap()
  call void @"rattle-llvm-checks::Unreachable"(i8 0)
  unreachable

trap.2:                                           ; preds = %start
  call void @llvm.trap()
  unreachable
}

define internal void @"rattle-llvm-checks::Value"(i8 %a0) #7 {
start:
  %r0 = icmp ne i8 %a0, 0
  br i1 %r0, label %true, label %false

true:                                             ; preds = %start
  ret void

false:                                            ; preds = %start
  call void @llvm.trap()
  unreachable
}

attributes #0 = { nounwind sanitize_address "frame-pointer"="all" "target-cpu"="x86-64" }
attributes #7 = { sanitize_address "frame-pointer"="all" }
"""


class Builds(unittest.TestCase):
    """What is compiled without a proof. Nothing is compiled here: tools/test_builds.py does that."""

    def test_a_module_keeps_its_checks_unless_it_was_proved(self):
        checked = unproved.finished(MODULE, True, True)
        self.assertNotIn("sanitize_address", checked)
        self.assertIn("@llvm.trap()", checked)
        self.assertIn("PIE Level", checked)
        self.assertIn("!llvm.module.flags = !{!100000001}\n", unproved.finished(MODULE, False, True))
        trusted = unproved.finished(MODULE, True, False)
        self.assertNotIn("@llvm.trap()", trusted)
        self.assertIn('@"rattle-llvm-checks::Value"(i8 %a0) alwaysinline #7 {\nstart:\n  ret void\n}\n', trusted)
        self.assertEqual(trusted.count("unreachable"), 2)
        self.assertIn('"target-cpu"="x86-64-v2"', trusted)
        # only a new variable's fill goes
        self.assertEqual(re.findall(r"\(ptr (\S+), i8 -86", checked), ["%r0", "%a0"])
        self.assertEqual(re.findall(r"\(ptr (\S+), i8 -86", trusted), ["%a0"])

    def test_a_module_of_another_form_is_refused_and_the_toolchain_is_named(self):
        toolchain = re.escape(crates.read(crates.kit("KIT-ID")).strip())
        for old, new in [
            (" sanitize_address", ""),
            ("rattle-llvm-checks", "rattle-checks"),
            ("icmp ne", "icmp eq"),
            ("i8 -86", "i8 0"),
            ("  unreachable", "  ret void"),
            ("x86-64", "arm"),
            ("attributes", "!llvm.module.flags = !{!0}\nattributes"),
        ]:
            with self.subTest(old), self.assertRaisesRegex(SystemExit, f"toolchain.*{toolchain}"):
                unproved.finished(MODULE.replace(old, new), True, False)

    def small_tree(self, **texts):
        """Two crates, and what stands for the folder at the top."""
        files = {"crates.txt": "low:\ntop: low\n\n# not proved: tests\ntop_tests: top\n", "include/crackd.h": ""}
        for name in ("low", "top", "top_tests"):
            files[f"crates/{name}/src/lib.rt"] = texts.get(name, f"fn {name}() {{}}\n")
        files["crates/low/proofs/Laws.antt"] = texts.get("proof", "a = refl\n")
        files["crates/crack_arguments/src/lib.rt"] = 'pub const VERSION: &str = "1.2.3";\n'
        top = folder_with(self, files)
        for module in (crates, build):
            patched = mock.patch.object(module, "TOP", top)
            patched.start()
            self.addCleanup(patched.stop)
        for it in (crates.listed, crates.below, crates.own_sum, crates.sum_of):
            it.cache_clear()
            self.addCleanup(it.cache_clear)
        return top

    def test_where_a_crate_or_one_below_it_differs_the_checks_stay(self):
        top = self.small_tree()
        with mock.patch.object(sums, "FILE", top / "proved.txt"):
            self.assertEqual(build.mark_of("top"), build.UNPROVED)
            lines = [sums.line_of(it) for it in crates.proved()]
            sums.FILE.write_text("\n".join(lines))
            self.assertEqual([build.mark_of(it) for it in ("low", "top", "top_tests")], [build.ELSEWHERE] * 3)
            self.assertEqual(build.version(build.mark_of("top")), "crackd 1.2.3 (proved elsewhere)")
            for changed, wanted in (("low", ["low", "top"]), ("top", ["top"]), ("proof", ["low", "top"])):
                self.small_tree(**{changed: "fn changed() {}\n"})
                self.assertEqual([it for it in ("low", "top") if build.mark_of(it) == build.UNPROVED], wanted)
            # another toolchain
            self.small_tree()
            with mock.patch.object(crates, "kit_sum", lambda: "another"):
                self.assertEqual(build.mark_of("low"), build.UNPROVED)

    def test_sums_that_are_stale_are_skipped_and_those_of_these_sources_pass(self):
        top = self.small_tree()
        with mock.patch.object(sums, "FILE", top / "proved.txt"):
            for lines, wanted in (
                ([], "0 passed, 0 failed, 1 skipped"),
                ([sums.line_of(it) for it in crates.proved()], "1 passed, 0 failed"),
                (["low 0 0", "top 0 0"], "0 passed, 0 failed, 1 skipped"),
            ):
                sums.FILE.write_text("".join(f"{it}\n" for it in lines))
                with contextlib.redirect_stdout(io.StringIO()) as said:
                    self.assertEqual(sums.main(["--check"]), 0)
                self.assertEqual(said.getvalue().splitlines()[-1], wanted)
                self.assertEqual("make sums" in said.getvalue(), "skipped" in wanted)

    def test_sums_are_not_written_without_a_proof(self):
        top = self.small_tree()
        with mock.patch.object(sums, "FILE", top / "proved.txt"):
            with mock.patch.object(prove, "prove_names", lambda names: False):
                self.assertEqual(sums.main([]), 1)
            with mock.patch.object(prove, "prove_names", lambda names: True):
                self.assertRaises(SystemExit, sums.main, [])
            self.assertFalse(sums.FILE.exists())
            both = mock.patch.multiple(prove, prove_names=lambda names: True, is_current=lambda crate: True)
            with both, contextlib.redirect_stderr(io.StringIO()):
                self.assertEqual(sums.main([]), 0)
            self.assertEqual([it.split()[0] for it in sums.known()], ["low", "top"])
            self.assertEqual(build.mark_of("top"), build.ELSEWHERE)

    def test_a_build_is_of_its_sources_version_and_tools(self):
        self.small_tree()
        path = folder_with(self, {"made": "one", "other": "two"}) / "made"
        told = build.told_of("top", build.UNPROVED)
        self.assertFalse(build.is_made(path, told))
        build.put(path.with_name("other"), path, told)
        self.assertTrue(build.is_made(path, told))
        self.assertEqual(path.read_text(), "two")
        self.assertFalse(build.is_made(path, build.told_of("top", build.ELSEWHERE)))
        self.small_tree(low="fn changed() {}\n")
        self.assertFalse(build.is_made(path, build.told_of("top", build.UNPROVED)))
        build.remove(path)
        self.assertEqual(sorted(it.name for it in path.parent.iterdir()), ["other"])

    def test_program_and_package_have_one_version(self):
        pages = {it: crates.read(crates.TOP / "python" / it) for it in ("pyproject.toml", "crackd/__init__.py")}
        found = [re.search(r'(?m)^(?:__)?version(?:__)? = "(.*)"$', it)[1] for it in pages.values()]
        self.assertEqual({f"crackd {it}" for it in found}, {build.version("")})


class Reading(unittest.TestCase):
    def setUp(self):
        files = {f"a/{path}": text for path, text in SHELF.items()}
        self.shelf = promises.Reading([folder_with(self, files) / "a"])

    def read(self, call, *clauses):
        """What is read for these clauses of a call, or for all: its lines by name."""
        items = self.shelf.read_for([(call, clauses)])
        return {it.name: [line for _, line in it.lines] for it in items}

    def test_a_call_is_read_behind_what_its_clauses_cite(self):
        wanted = ["a.Sizes.IsThing", "a.Sizes.count", "a::PLACES", "a.Sizes.IsFull", "a::inside::Thing"]
        wanted += [f"a::inside::Shelf{it}" for it in ("", " as Model::Value", " as Model::view")]
        self.assertEqual(list(self.read("a::put")), [*wanted, "a::put"])
        read = self.read("a::put", "size")
        wanted = ["    requires { size < PLACES }", "    ensures size { shelf.new.size ≡ size }"]
        self.assertEqual((read["a::put"], "a.Sizes.IsFull" in read), (wanted, False))
        # a trait is read with the members that public types define for it
        had = [it for it in self.read("a::inside::Scale::weigh") if " as Scale" in it]
        self.assertEqual(had, ["a::inside::Shelf as Scale"])

    def test_of_a_type_no_field_is_read_that_nothing_reads_nor_its_model(self):
        label = self.read("a::inside::read")
        self.assertEqual(label["a::inside::Label"], ["pub struct Label {", "    text: u64,", "}"])
        self.assertNotIn("a::inside::Hint", label)
        shelf = self.shelf.items["a::inside::Shelf"]
        said = [[line for _, line in it] for it in (shelf.lines, shelf.beside)]
        self.assertEqual(said, [["pub struct Shelf {", "    things: Vec<Thing>,", "}"], ["/// What stands on it."]])

    def test_what_no_clause_and_what_private_ones_alone_reach(self):
        # a name that a text binds itself cites nothing: some variables are called `size`, like a definition
        self.assertEqual([it.name for it, _ in trust.misplaced(self.shelf)], ["a.Sizes.size", "a.Sizes.stray"])
        path = self.shelf.items["a.Other.size"].path
        path.write_text(path.read_text().replace(definitions.PRIVATE, "-- Others."))
        # cited by a private function, by what a type keeps of its own fields, and by a private type
        found = [it.short for it, fault in trust.misplaced(self.shelf) if fault.startswith("private clauses alone")]
        self.assertEqual(found, ["size", "AreLight", "in_ounces"])

    def test_each_promise_names_its_calls_and_each_definition_stands_where_a_reader_is_sent(self):
        with contextlib.redirect_stdout(io.StringIO()) as said:
            status = trust.main(["--count"])
        self.assertEqual(status, 0, said.getvalue())
        self.assertIn(f"\n{promises.HEADLINE} ", said.getvalue())


class Numbers(unittest.TestCase):
    def test_limits_and_figures_in_documents_are_those_of_the_code_and_of_the_benchmarks(self):
        self.assertEqual(numbers_held.limit_faults(), [])
        self.assertEqual(numbers_held.figure_faults(), [])

    def test_a_limit_that_differs_or_is_gone_is_found(self):
        page = {"page.md": "It has 4,096\nplaces, and 4097 names.\n"}
        top = folder_with(self, {**page, "crates/a/src/lib.rt": "pub const PLACES: u64 = 4096;\n"})
        limits = [("a", "PLACES", ["has {} places", "and {} names", "of {} places"]), ("a", "NAMES", ["has {}"])]
        wanted = ["page.md says 'and 4097 names'", "no page says 'of {} places'", "a has 0 values of NAMES"]
        self.assertEqual(numbers_held.limit_faults(limits, top), wanted)
        # a number has as many digits as its page needs
        said = {"1,048,576": 2**20, "18446744073709551615": 2**64 - 1, "0.09": 0.0932, "0.094": 0.0932}
        self.assertEqual([it for it in said if not numbers_held.is_said(it, said[it])], ["0.094"])


class Documents(unittest.TestCase):
    def test_lines_of_code_have_120_columns_at_most(self):
        # an attribute can't be broken, and bench/report.py has the text of a page, whose lines are as long as pages'
        kinds = ["crates/*/src/**/*.rt", "*/*.py", "tools/*/*.py", "python/*/**/*.py", "bench/peers/*.rs"]
        kinds += ["acceptance/c/*.c", "include/*.h", "examples/*.sh", "Makefile"]
        files = {it for kind in kinds for it in crates.TOP.glob(kind) if it.name != "report.py"}
        lines = [(path, line) for path in files for line in path.read_text(encoding="utf-8").splitlines()]
        wide = [(path.name, it) for path, it in lines if len(it) > 120 and not it.lstrip().startswith("#[")]
        self.assertEqual(wide, [])

    def test_pages_that_are_written_by_hand_stay_short(self):
        every = {it.name: crates.read(it) for pattern in ("*.md", "docs/*.md") for it in crates.TOP.glob(pattern)}
        pages = {name: text for name, text in every.items() if name not in ("DEFINITIONS.md", "BENCHMARKS.md")}
        self.assertLessEqual(sum(len(it.split()) for it in pages.values()), 30_000)
        self.assertLessEqual(len(pages["README.md"].splitlines()), 120)

    def test_the_readme_says_what_its_picture_shows(self):
        """How many queries there are, that the first one cracks all rows, the last one none, and others between."""
        drawn = crates.read(crates.TOP / "docs" / "cracking.svg")
        cracked = [int(it.replace(",", "")) for it in re.findall(r'<text class="text"[^>]*>([\d,]+)</text>', drawn)]
        rows = len(crates.read(crates.TOP / "examples" / "events.csv").splitlines()) - 1
        self.assertEqual((len(cracked), cracked[0], cracked[-1]), (12, rows, 0))
        self.assertTrue(0 < min(cracked[1:-1]) and max(cracked[1:-1]) < rows)
        # so it isn't so that each query has fewer rows than those before it
        self.assertNotEqual(cracked, sorted(cracked, reverse=True))
        text = re.search(r"!\[(.*)\]\(docs/cracking.svg\)", crates.read(crates.TOP / "README.md"))[1]
        said = f"twelve queries crack it: the first one cracks all {rows:,} rows, a later one only the pieces in which"
        self.assertIn(said, text)
        self.assertTrue(text.endswith("a repeated one none"))

    def test_the_readme_names_the_logic_and_the_memory_of_a_row(self):
        pages = [crates.read(crates.TOP / it) for it in ("README.md", "docs/GUIDE.md")]
        for numbers in ("97", "98", "127 to 199 in Python"):
            self.assertTrue(all(numbers in it for it in pages), numbers)
        if shutil.which("rt") is None:
            self.skipTest("rt isn't installed")
        said = subprocess.run(["rt", "version"], capture_output=True, text=True, check=True).stdout.split()
        self.assertIn(f"\n    logic {said[-1]}\n", pages[0])

    def test_definitions_are_the_comments_of_specs(self):
        page = defined.page()
        self.assertTrue(crates.read(defined.PAGE) == page, "python3 tools/defined.py writes docs/DEFINITIONS.md anew")
        self.assertEqual([it for it in page.splitlines() if it.endswith("|  |")], [])

    def test_the_guide_has_each_refusal_and_each_statement(self):
        guide, rules = (crates.read(crates.TOP / "docs" / it) for it in ("GUIDE.md", "SPECIFICATION.md"))
        asked = [it for row in numbers_held.table(guide, ["No.", "Cause"]) for it in re.findall(r"\d+", row)]
        self.assertEqual(asked, list(numbers_held.table(rules, ["No.", "Comes where"])))
        tables = [numbers_held.table(text, ["Statement"]) for text in (guide, rules)]
        self.assertEqual(*({row.strip("`").split(" ")[0] for row in it} for it in tables))

    def test_rules_have_cases_and_names_and_links_lead_somewhere(self):
        self.assertEqual(documents.faults(), [])

    def test_a_fault_of_each_kind_is_found(self):
        rows = "| No. | Where |\n|---|---|\n| 1 | gone §a-row-goes |\n| 2 | none |\n"
        tests = [f"[`{it}`](../tests/one.rt)" for it in ("a_test", "no_such_test", "one.rt")]
        cores = "crates/crack_core/src/cores.rt"
        code = "let one = One::new();\n/// // ..\n/// one.ask(1)"
        example = f"/// An example, from a test:\n///\n/// ```\n/// {code}\n/// ```\n#[derive(Drop)]\n"
        section = "## crack_row\n\n- A range (`KeyRange::contains`: `no_such_clause`).\n"
        files = {
            documents.RULES: f"Words.\n\n- It comes. §a-row\n- It goes,\n  and comes.\n\n{rows}",
            documents.PROOFS: f"{section}\n{documents.TESTED}seen by {', '.join(tests)} and `no_file.py`\n",
            "acceptance/cases/rows.cases": "== a-row-comes\n$ script\n",
            "crates/crack_row/src/range.rt": "impl KeyRange {\n    fn contains() {}\n}\n",
            cores: f"/// A core.\npub struct Core {{}}\n\n/// One.\n///\n{example}pub enum One {{}}\n",
            "crates/crack_core_tests/src/lib.rt": "fn of_one() {\n    let one = One::new();\n    one.ask(2)\n}\n",
            "tests/one.rt": "fn a_test() {}\n",
            "page.md": "# A page\n\n## The `end`, at last\n",
            "other.md": "[a](page.md#the-end-at-last) [b](page.md#begin) [c](none.md) [d](https://e.org)\n",
        }
        rules = ["4: this rule has no mark: - It goes,\n  and comes.", "10: this rule has no mark: | 2 | none |"]
        wanted = [f"{documents.RULES}:{it}" for it in (*rules, "9: no case's name has a-row-goes")]
        wanted += [f"{documents.PROOFS}: {it} isn't a link to a test" for it in ("no_such_test", "no_file.py")]
        wanted += [f"{documents.PROOFS}: crack_row has no no_such_clause"]
        wanted += [f"other.md leads to {it}" for it in ("page.md#begin", "none.md")]
        wanted += [f"{cores}: Core has no example", f"{cores}: no test has the example of One: one.ask(1)"]
        self.assertEqual(documents.faults(folder_with(self, files), {cores: ["Core", "One"]}), wanted)


if __name__ == "__main__":
    ran = unittest.main(exit=False).result
    wrong = len(ran.failures) + len(ran.errors)
    print(f"{ran.testsRun - wrong} passed, {wrong} failed")
    sys.exit(1 if wrong else 0)
