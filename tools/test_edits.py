#!/usr/bin/env python3
"""Tests of tools/edits. tools/check-docs runs them, and so does this file by itself. They ask no prover."""

import importlib.machinery
import importlib.util
import os
import sys
import unittest

sys.dont_write_bytecode = True
TOOLS = os.path.dirname(os.path.realpath(__file__))


def loaded():
    """The script as a module."""
    loader = importlib.machinery.SourceFileLoader("edits", f"{TOOLS}/edits")
    module = importlib.util.module_from_spec(importlib.util.spec_from_loader(loader.name, loader))
    loader.exec_module(module)
    return module


SCRIPT = loaded()

TABLE = """// A table.
use crate::row::Row;

/// How many rows there are.
const ROWS: usize = 4;

const SUM: &[u8] = &[
    1,
    2,
];

/// A table.
pub struct Table<'a> {
    rows: &'a [Row],
}

impl<'a> Model for Table<'a> {
    ghost invariant = { λ t. length t.rows ≤ 4 };
}

impl<'a> Table<'a> {
    /// Its rows.
    pub fn rows(
        &self,
        first: u8,
    ) -> usize
        requires { first < 4 }
        ensures { result ≤ 4 }
    {
        let count = self.rows.len();

        count.min(ROWS)
    }

    fn is_empty(&self) -> bool
        ensures { result ≡ true → self.now ≡ [] }
    {
        self.rows(0) == 0
    }
}

impl<K: Sink, S> From<Held<K>> for Table<'_> {
    fn from(held: Held<K>) -> Self {
        held.table
    }
}

impl<R: Read> Reader for R {
    fn read_once(&mut self) -> u8 {
        0
    }
}

trait Lines {
    /// Puts them.
    fn put(&self)
        ensures { ⊤ };
}

/// A law.
pub fn law()
    ensures { 1 ≤ 4 }
{}

fn first<T>(list: &[T]) -> Option<&T>
where
    T: Copy,
{
    list.first()
}
"""

ROW = """use crate::table::Table;

pub struct Row(u8);

impl Row {
    fn is_in(&self, table: &Table) -> bool {
        !table.is_empty()
    }
}

impl Table {
    fn more(&self) -> usize {
        self.rows(1)
    }
}
"""

TEXTS = {"src/table.rt": TABLE, "src/row.rt": ROW, "src/lib.rt": "mod table;\n\nfn top() -> u8 {\n    1\n}\n"}
FUNCTIONS = SCRIPT.functions_of(TEXTS)


def around(old, file="src/table.rt"):
    return [it.path for it in SCRIPT.around(FUNCTIONS, file, TEXTS[file], old)]


class Functions(unittest.TestCase):
    """The functions of a crate, and the ones around a place."""

    def test_names(self):
        # A call of an impl stands in the module of the type, one of a trait's impl in the module of the impl.
        wanted = ["Table::rows", "Table::is_empty", "TableFromHeld::from", "AnyReader::read_once", "law", "first"]
        self.assertEqual([it.path for it in FUNCTIONS["src/table.rt"]], [f"table::{it}" for it in wanted])
        self.assertEqual([it.path for it in FUNCTIONS["src/row.rt"]], ["row::Row::is_in", "table::Table::more"])
        self.assertEqual([it.path for it in FUNCTIONS["src/lib.rt"]], ["top"])

    def test_ends(self):
        lines = TABLE.split("\n")
        ends = {it.path: (lines[it.first].strip(), lines[it.last].strip()) for it in FUNCTIONS["src/table.rt"]}
        self.assertEqual(ends["table::Table::rows"], ("pub fn rows(", "}"))
        self.assertEqual(ends["table::law"], ("pub fn law()", "{}"))
        self.assertEqual(lines[FUNCTIONS["src/table.rt"][-1].last - 1].strip(), "list.first()")

    def test_around_a_place(self):
        self.assertEqual(around("count.min(ROWS)"), ["table::Table::rows"])
        self.assertEqual(around("        count.min"), ["table::Table::rows"])
        self.assertEqual(around("first: u8"), ["table::Table::rows"])
        self.assertEqual(around("self.rows(0)"), ["table::Table::is_empty"])
        self.assertEqual(around("list.first()"), ["table::first"])

    def test_around_a_constant_or_a_type(self):
        self.assertEqual(around("const ROWS: usize = 4"), ["table::Table::rows"])
        self.assertEqual(around("    2,"), [])
        self.assertEqual(around("struct Row(u8)", "src/row.rt"), [])
        self.assertEqual(around("rows: &'a [Row]"), ["row::Row::is_in"])
        self.assertEqual(around("length t.rows ≤ 4"), ["row::Row::is_in"])

    def test_callers(self):
        rows = FUNCTIONS["src/table.rt"][:1]
        self.assertEqual([it.path for it in SCRIPT.callers_of(FUNCTIONS, rows)], ["table::Table::is_empty", "table::Table::more"])


def read(text):
    """The sentence of an edit, or why it shows nothing."""
    try:
        return SCRIPT.parsed(text)[0]
    except SCRIPT.Bad as why:
        return f"bad: {why}"


class Texts(unittest.TestCase):
    """The texts of edits, and what they change."""

    WHOLE = "says: a law\nfile: src/lib.rt\nold:     1\nnew:     2\n"

    def test_parsed(self):
        self.assertEqual(SCRIPT.parsed(self.WHOLE), ("a law", [("src/lib.rt", "    1", "    2")]))
        self.assertEqual(SCRIPT.parsed(self.WHOLE + "old: a\nnew:\n")[1][1], ("src/lib.rt", "a", ""))

    def test_not_parsed(self):
        self.assertIn("no line `says:`", read(self.WHOLE.replace("says: a law\n", "")))
        self.assertIn("no line `says:`", read(self.WHOLE.replace("a law", "")))
        self.assertIn("names no file below src/", read(self.WHOLE.replace("src/lib.rt", "specs/Lib.antt")))
        self.assertIn("names no file below src/", read(self.WHOLE.replace("src/lib.rt", "src/../specs/Lib.antt")))
        self.assertIn("has no line `file:` or `old:`", read(self.WHOLE.replace("old:     1\n", "")))
        self.assertIn("no lines `old:` and `new:`", read("says: a law\nfile: src/lib.rt\n"))

    def test_edited(self):
        def edited(old):
            return SCRIPT.edited(TEXTS, SCRIPT.Edit("crate", "name", "a law", [("src/lib.rt", old, "2")]))

        self.assertEqual(edited("1"), {"src/lib.rt": TEXTS["src/lib.rt"].replace("1", "2")})
        for old in ("3", "t"):
            with self.assertRaises(SCRIPT.Bad):
                edited(old)


NOTE = "note: src/a.rt:3:5: it is not proved that what the function ensures holds when it returns (`returns-clause-{}`)\n"


def answered(status, text):
    """Who refuses and what is open, or why the edit shows nothing."""
    try:
        return SCRIPT.refusal_in(status, text, "crate", {"src/a.rt": ""})
    except SCRIPT.Bad as why:
        return str(why).split(":", maxsplit=1)[0]


class Answers(unittest.TestCase):
    """What the prover writes."""

    def test_refused(self):
        text = "fn crate::b::g: proved\n" + NOTE.format("x") + NOTE.format("y") + "fn crate::a::f: no proof: expected\nonly=2 proved=1\n"
        self.assertEqual(answered(1, text), ("a::f", "returns-clause-x, returns-clause-y"))
        self.assertEqual(answered(1, text.replace("only=2 proved=1", "logic=not-proved functions=2"))[0], "a::f")
        error = "proofs/a/f/Answers.antt:7:1: error: `f`: expected x\nfn crate::a::f: not proved\nonly=1 proved=0\n"
        self.assertEqual(answered(1, error), ("a::f", error.split("\n", maxsplit=1)[0]))

    def test_proved(self):
        self.assertIsNone(answered(0, "fn crate::a::f: proved\nonly=1 proved=1\n"))
        self.assertIsNone(answered(1, "fn crate::a::f: proved\nonly=1 proved=1\n"))

    def test_bad(self):
        unread = "the prover can't read it, so no contract was tried"
        self.assertEqual(answered(1, "src/a.rt:3:5: error: expected `;`\n"), unread)
        self.assertEqual(answered(1, "specs/A.antt:3:5: error: `f`: `g` is not in scope\nonly=1 proved=0\n"), unread)
        self.assertEqual(answered(1, "cannot find `g`\n"), "it didn't reach the prover, which wrote")
        self.assertEqual(answered(2, "rattle: no function `f`\n"), "it didn't reach the prover, which wrote")
        self.assertEqual(answered(3, "only=1 proved=0\n"), "it didn't reach the prover, which wrote")
        taken = "proofs/a/f/Answers.antt:7:1: error: `f`: has no field `x`\nfn crate::a::f: not proved\nonly=1 proved=0\n"
        self.assertEqual(answered(1, taken), "it fails only since a proof names what it takes away, so it shows nothing")


if __name__ == "__main__":
    unittest.main()
