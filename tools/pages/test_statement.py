#!/usr/bin/env python3
"""Tries on small texts how definitions and declarations are read for docs/statement/, and looks at the marks and sections of these."""

import doctest
import tempfile
import unittest
from pathlib import Path
from typing import Dict, List

import antt
import booklets
import statement
import statement_marks
from closure import Closure
from declared import Sources


def names(text: str, name: str) -> List[str]:
    """The names that a definition of a text mentions."""
    return antt.read(text, "a/specs/A.antt").definitions[name].names


class Definitions(unittest.TestCase):
    """Where definitions begin and end, and what stands above them."""

    def test_a_definition_ends_where_the_comment_of_the_next_begins(self) -> None:
        text = "-- head\nuse L.{ℕ}\n\n-- one\nabbrev pub a : ℕ\na =\n    1\n-- two\n-- of it\nunfoldable pub b : ℕ\nb = 2\n"
        file = antt.read(text, "")
        self.assertEqual(file.head, ["-- head"])
        self.assertEqual(file.definitions["a"].lines, ["abbrev pub a : ℕ", "a =", "    1"])
        self.assertEqual(file.definitions["b"].comment, ["-- two", "-- of it"])

    def test_a_title_between_definitions_is_no_comment_of_theirs(self) -> None:
        file = antt.read("abbrev pub a : ℕ\na = 1\n\n-- ---- more\n\nabbrev pub b : ℕ\nb = 2\n", "")
        self.assertEqual(file.definitions["b"].comment, [])

    def test_a_closing_bracket_is_no_clause(self) -> None:
        self.assertEqual(names("abbrev pub a : R\na = record {\n  x = one;\n}\n", "a"), ["R", "one"])

    def test_comments_inside_belong_to_a_record(self) -> None:
        text = "pub record R : Type 0 where\n  -- a field\n  pub x : ℕ\n\npub record S : Type 0 where\n  pub y : ℤ\n"
        file = antt.read(text, "")
        self.assertEqual(len(file.definitions["R"].lines), 3)
        self.assertEqual(file.definitions["S"].names, ["ℤ"])

    def test_an_operator_has_its_fixity_and_its_own_word(self) -> None:
        file = antt.read("-- then\ninfixl 10 ◌>>=◌\nabbrev pub ◌>>=◌ : A → A\n(Ok x) >>= f = f x\n", "")
        found = file.definitions["◌>>=◌"]
        self.assertEqual((found.comment, found.fixity, found.names), (["-- then"], ["infixl 10 ◌>>=◌"], ["A"]))


class Names(unittest.TestCase):
    """Which words of a definition are names that it mentions."""

    def test_patterns_bind_and_constructors_are_mentioned(self) -> None:
        text = "use M.{Some, suc}\nuse M as m\nabbrev pub f : A → A\nf (Some x) (suc n) (m.C y) _ = g x n y\n"
        self.assertEqual(names(text, "f"), ["A", "Some", "suc", "m.C", "g"])

    def test_a_great_letter_that_the_file_does_not_know_is_a_variable(self) -> None:
        self.assertEqual(names("abbrev pub F : Type 0 → Type 0\nF X = X → X\n", "F"), [])

    def test_implicit_patterns_bind(self) -> None:
        self.assertEqual(names("abbrev pub F : {T : Type 0} → T\nF {T = T} {U} took = g T U took\n", "F"), ["g"])

    def test_binders_reach_to_the_end_of_their_brackets(self) -> None:
        text = "abbrev pub a : (x : X) → P x\na = f (λ x y. g x y) x (λ (z : Z). z.w) z\n"
        self.assertEqual(names(text, "a"), ["X", "P", "f", "g", "x", "Z", "z"])

    def test_a_let_binds_behind_its_in(self) -> None:
        self.assertEqual(names("abbrev pub a : A\na =\n    let x = f x in\n    let y = x in g x y\n", "a"), ["A", "f", "x", "g"])

    def test_labels_of_fields_and_projections_are_no_names(self) -> None:
        text = "abbrev pub a : A\na = record r { x = y; z = (p q).w } {e = v}\n"
        self.assertEqual(names(text, "a"), ["A", "r", "y", "p", "q", "v"])

    def test_fields_are_in_scope_behind_them(self) -> None:
        text = "pub record R {A : Type 0} (a : A) : Type 0 where\n  pub b : List A\n  pub c : b ≡ a ∷\n      rest\n"
        self.assertEqual(names(text, "R"), ["List", "≡", "∷", "rest"])

    def test_constructors_lead_to_their_type(self) -> None:
        file = antt.read("pub data D : Type 0 where\n  None : D\n  One : (n : ℕ) → E n → D\n", "")
        self.assertIs(file.definitions["One"], file.definitions["D"])
        self.assertEqual(file.definitions["D"].names, ["D", "ℕ", "E"])

    def test_a_block_binds_for_what_stands_in_it_alone(self) -> None:
        text = (
            "module _ {D : Type 0} (o : O D) where\n  module _ (s : S)\n      (t : T) where\n"
            "    abbrev pub a : D\n    a = o s t\n\nabbrev pub b : A\nb = o\n"
        )
        self.assertEqual(names(text, "a"), ["O", "S", "T"])
        self.assertEqual(names(text, "b"), ["A", "o"])

    def test_texts_numbers_and_comments_are_no_names(self) -> None:
        self.assertEqual(names('abbrev pub a : A\na = codes "a b" 0x1_0 -- c d\n', "a"), ["A", "codes"])


class Files(unittest.TestCase):
    """Files of two crates."""

    FILES = {
        "a/specs/A.antt": "-- A (RFC 9669, 3).\nuse Rattle.b.specs.B.{f as g, passed}\nuse Rattle.b.specs.B as other\n"
        "use Rattle.b.specs.declared.m.Kind.TheVariants as kinds\nuse Rattle.std.specs.Prelude.{ℕ}\n\n"
        "-- the top\nabbrev pub top : ℕ → ℕ\ntop n = g other.h passed kinds.Some\n\n-- unused\nabbrev pub more : ℕ\nmore = 0\n",
        "b/specs/B.antt": "use Rattle.b.specs.C.{D, One}\npub use Rattle.b.specs.C.{passed}\n"
        "use Rattle.b.specs.declared.TheConstants.{MOST}\n\n"
        "-- f (profile)\nabbrev pub f : D\nf = One\n\n-- h\nabbrev pub h : D\nh = MOST\n",
        "b/specs/C.antt": "pub data D : Type 0 where\n  One : D\n\nabbrev pub passed : D\npassed = One\n",
        "b/src/lib.rt": "//! B.\n\npub use m::Count;\nconst EACH: usize = 8;\n\n"
        "/// The most.\npub const MOST: usize = 4 * EACH;\n",
        "b/src/m.rt": "/// A kind (ZNS 1.1, 2).\n#[derive(Clone)]\npub enum Kind {\n    /// One.\n    #[error(\"one\")]\n"
        "    One(Count),\n    Two,\n}\n\n/// A count.\npub struct Count {\n    number: u8,\n}\n\n"
        "impl Model for Count {\n    ghost Value = { ℕ };\n}\n",
    }

    def closure(self, changed: Dict[str, str], cut: bool = False) -> Closure:
        """What is reached from `top` of these files."""
        with tempfile.TemporaryDirectory() as folder:
            for name, text in {**self.FILES, **changed}.items():
                file = Path(folder) / name
                file.parent.mkdir(parents=True, exist_ok=True)
                file.write_text(text)
            closure = Closure(Path(folder), frozenset([("b/specs/B.antt", "h")]) if cut else frozenset())
            closure.reach(("a/specs/A.antt", "top"))
            for file in {item.file for item in closure.items.values()}:
                closure.head(file)
            return closure


class Reached(Files):
    """What is reached from a definition, over files and crates."""

    def test_names_are_found_by_imports_renamed_passed_on_and_by_module(self) -> None:
        found = {key[-1] for key in self.closure({}).items}
        self.assertEqual(found, {"top", "f", "h", "passed", "D", "Kind", "Count", "MOST", "EACH"})

    def test_words_of_the_library_are_kept_apart(self) -> None:
        self.assertEqual(self.closure({}).words, {("a/specs/A.antt", "top"): {"ℕ": "Rattle.std.specs.Prelude"}})

    def test_what_is_cut_off_is_named_and_not_gone_into(self) -> None:
        closure = self.closure({}, cut=True)
        self.assertEqual({key[-1] for key in closure.items}, {"top", "f", "passed", "D", "Kind", "Count"})
        self.assertEqual(closure.named[("a/specs/A.antt", "top")]["other.h"], ("b/specs/B.antt", "h"))

    def test_a_name_that_cannot_be_found_is_told_with_its_file(self) -> None:
        for name, text in (("b/specs/B.antt", "nowhere"), ("a/specs/A.antt", "missing")):
            with self.assertRaisesRegex(LookupError, f"{name}.*{text}"):
                self.closure({name: self.FILES[name].replace("MOST\n", "nowhere\n").replace("other.h", "missing")})

    def test_a_type_is_shown_without_attributes_and_with_its_model(self) -> None:
        closure = self.closure({})
        kind = closure.items[("b", "m", "", "Kind")]
        self.assertEqual(kind.lines, ["pub enum Kind {", "    /// One.", "    One(Count),", "    Two,", "}"])
        self.assertIn("    ghost Value = { ℕ };", closure.items[("b", "m", "", "Count")].lines)

    def test_a_constant_is_shown_with_its_number(self) -> None:
        most = self.closure({}).items[("b", "", "", "MOST")]
        self.assertEqual(most.lines, ["pub const MOST: usize = 4 * EACH; // 32"])

    def test_a_type_that_is_seen_as_bytes_is_shown_with_its_view_and_leads_to_what_that_names(self) -> None:
        model = "    ghost use Rattle.b.specs.C.{D, passed};\n    ghost Value = { List ℕ };\n    ghost view = { λ c. passed c };\n"
        closure = self.closure({"b/src/m.rt": self.FILES["b/src/m.rt"].replace("    ghost Value = { ℕ };\n", model)})
        key = ("b", "m", "", "Count")
        self.assertIn("    ghost view = { λ c. passed c };", closure.items[key].lines)
        self.assertEqual(closure.named[key], {"passed": ("b/specs/C.antt", "passed")})

    def test_the_last_number_of_a_list_is_a_number(self) -> None:
        text = "const EACH: [u8; 2] = [4, 8];\n\n/// The most.\npub const MOST: usize = EACH[EACH.len() - 1] as usize;\n"
        most = self.closure({"b/src/lib.rt": "pub use m::Count;\n" + text}).items[("b", "", "", "MOST")]
        self.assertTrue(most.lines[0].endswith("// 8"))


class Parts(Files):
    """How what is reached stands in booklets."""

    def pages(self, places: Dict[str, booklets.At]) -> statement.Pages:
        """The pages where these names have these places, and all others the first section of the first booklet."""
        return statement.Pages(self.closure({}), lambda file, name: places.get(name, (0, 0)))

    def test_what_is_used_stands_before_what_uses_it(self) -> None:
        order = [file for _, file in self.pages({}).used_first(0)]
        self.assertEqual(order, ["b/specs/C.antt", "b/src/lib.rt", "b/specs/B.antt", "b/src/m.rt", "a/specs/A.antt"])

    def test_a_section_that_uses_a_later_one_is_told(self) -> None:
        with self.assertRaisesRegex(LookupError, "a/specs/A.antt.*b/src/m.rt comes later"):
            self.pages({"Kind": (0, 1)}).used_first(0)

    def test_a_file_may_stand_in_parts(self) -> None:
        pages = self.pages({"f": (1, 0)})
        self.assertEqual(pages.parts[((1, 0), "b/specs/B.antt")], [("b/specs/B.antt", "f")])
        self.assertEqual(pages.elsewhere(((1, 0), "b/specs/B.antt")), {0})
        self.assertEqual((pages.lines_in(0), pages.lines_in(1)), (8, 2))

    def test_names_of_other_booklets_are_listed_with_what_they_are(self) -> None:
        text = statement.interface(self.pages({"f": (1, 0)}), 0)
        self.assertIn(f"From {statement.link(booklets.BOOKLETS[1])}:", text)
        self.assertIn("| `f` | f |\n", text)
        self.assertNotIn("`h`", text)

    def test_names_that_stand_for_a_module_are_told(self) -> None:
        told = ["`kinds.` stands before a variant of `Kind`", "`other.` stands before a definition of `b/specs/B.antt`"]
        self.assertEqual(list(self.pages({}).other_names(((0, 0), "a/specs/A.antt"))), told)


class Places(unittest.TestCase):
    """In which booklet a definition stands, and whose it is."""

    def test_a_name_goes_before_its_file(self) -> None:
        self.assertEqual(booklets.BOOKLETS[booklets.place_of("nvme_entry/specs/Entry.antt", "load_of")[0]], booklets.RUNS)
        self.assertEqual(booklets.BOOKLETS[booklets.place_of("nvme_entry/specs/Entry.antt", "send_of")[0]], booklets.COMMANDS)

    def test_what_no_section_takes_is_told(self) -> None:
        with self.assertRaisesRegex(LookupError, "nowhere/specs/A.antt.*top"):
            booklets.place_of("nowhere/specs/A.antt", "top")

    def test_what_has_no_mark_is_told(self) -> None:
        with self.assertRaisesRegex(LookupError, "zone_state/specs/Status.antt.*other"):
            statement_marks.mark_of("zone_state/specs/Status.antt", "other")

    def test_each_name_has_one_mark_and_sections_are_of_standards(self) -> None:
        for file, names in statement_marks.marked_names().items():
            self.assertEqual(len(names), len(set(names)), file)
        for file, sections in statement_marks.SECTIONS.items():
            for name in " ".join(sections).split():
                self.assertIn("S", statement_marks.mark_of(file, name), f"{file}: {name}")

    def test_examples(self) -> None:
        for module in (statement, statement_marks, booklets):
            self.assertEqual(doctest.testmod(module).failed, 0)


class Shown(unittest.TestCase):
    """How definitions stand on the page."""

    def test_blocks_stand_once_above_what_is_in_them(self) -> None:
        text = (
            "-- of all\nmodule _ (s : S) where\n  -- one (ZNS 1.1, 2)\n  abbrev pub a : A\n  a = s\n\n"
            "  abbrev pub b : A\n  b = s\n\n-- last (profile)\nabbrev pub c : A\nc = d\n"
        )
        definitions = antt.read(text, "").definitions
        lines = statement.shown([(sign, definitions[name]) for sign, name in (("S", "a"), ("-", "b"), ("P: c", "c"))])
        expected = (
            "-- of all\nmodule _ (s : S) where\n  -- [S] one (ZNS 1.1, 2)\n  abbrev pub a : A\n  a = s\n\n"
            "  -- [-]\n  abbrev pub b : A\n  b = s\n\n-- [P: c] last (profile)\nabbrev pub c : A\nc = d\n"
        )
        self.assertEqual(lines, [f"    {line}".rstrip() for line in expected.split("\n")])


class Constants(unittest.TestCase):
    """Constants that belong to a type."""

    def test_the_comment_of_their_block_is_kept_and_they_stand_in_one_line(self) -> None:
        text = (
            "/// Of one kind (profile).\nimpl S {\n    /// Well.\n    pub const WELL: S = S {\n        code: 0x0A,\n    };\n}\n\n"
            "pub struct S {\n    code: u8,\n}\n"
        )
        with tempfile.TemporaryDirectory() as folder:
            file = Path(folder) / "a" / "src" / "s.rt"
            file.parent.mkdir(parents=True)
            file.write_text(text)
            found = Sources(Path(folder)).find(("a", "s", "S", "WELL"))
        self.assertEqual(found.lines, ["    pub const WELL: S = S { code: 0x0A };"])
        self.assertEqual(found.owner_comment, ["/// Of one kind (profile)."])


if __name__ == "__main__":
    unittest.main()
