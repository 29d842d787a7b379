"""The manual page: it stands as its sources make it, tells all that `--help` tells, and is read without a warning."""

from __future__ import annotations

import os
import re
import shutil
import subprocess
import unittest
from pathlib import Path

from conjtools.faults import RunFault
from conjtools.manual import roff
from conjtools.manual.constants import text_constants
from conjtools.manual.help import Block, Item, blocks
from conjtools.manual.page import FORMATS, HELP, NOTICE, PAGE, page, told_version
from conjtools.manual.tables import paragraphs, rows, section
from tests.support import ROOT, FolderCase


PROGRAM = os.environ.get("CONJ_PROGRAM", "")
TOLD = """conj 0.1.0 - made-up screening

Usage:
  conj screen DIR [OPTIONS]
  conj --help

screen reads. It writes
too.

Options of screen:
  --cells N           how many
                      (default 1)
  --long-option TEXT  what

Exit status:
  0  done
  1  not
"""
SOURCE = f'''const VERSION: &str = "conj 0.1.0\\n";

const HELP: &str = "\\
{TOLD}";
'''


def rendered(path: Path) -> str:
    """The page as a reader sees it, in ASCII, with no warning of the one who reads it."""
    if shutil.which("man") is None:
        raise unittest.SkipTest("man is missing: apt-get install man-db")
    words = ["man", "--warnings", "--encoding=ascii", "-l", str(path)]
    shown = subprocess.run(words, env={**os.environ, "MANWIDTH": "200", "MANPAGER": "cat"}, capture_output=True, text=True, check=False)
    if shown.returncode or shown.stderr:
        raise AssertionError(f"man ended with status {shown.returncode}: {shown.stderr}")
    return re.sub(r".\x08", "", shown.stdout)


class Page(FolderCase):
    def test_it_stands_as_its_sources_make_it(self) -> None:
        self.assertEqual((ROOT / PAGE).read_text("utf-8"), page(ROOT), "run scripts/manual")

    def test_each_word_of_the_help_is_told_in_its_order(self) -> None:
        title, told = text_constants((ROOT / NOTICE).read_text("utf-8"))[HELP].split("\n", 1)
        text = rendered(ROOT / PAGE)
        name, what = title.split(" - ")
        self.assertIn(f"NAME\n       conj - {what}\n", text)
        self.assertTrue(text.splitlines()[-1].startswith(f"{name} "), text.splitlines()[-1])
        shown = iter([word.strip(":") for word in text.split()])
        for word in told.replace("Usage:", "").replace("Exit status:", "").split():
            self.assertIn(word.strip(":"), shown, f"{word} is not told, or not in its place")

    def test_statuses_files_and_variables(self) -> None:
        shown = rendered(ROOT / PAGE)
        parts = dict(re.findall(r"^([A-Z][A-Z ]+)\n(.*?)(?=^\S)", shown, re.MULTILINE | re.DOTALL))
        wanted = ["NAME", "SYNOPSIS", "DESCRIPTION", "OPTIONS", "EXIT STATUS", "DIAGNOSTICS", "FILES", "ENVIRONMENT", "EXAMPLES"]
        self.assertEqual([name for name in parts if name in wanted], wanted)
        self.assertEqual(re.findall(r"^ +(\d) ", parts["EXIT STATUS"], re.MULTILINE), list("01234567"))
        self.assertRegex(parts["EXIT STATUS"], r"\b125\b.*\b127\b")
        self.assertIn("conj: a.oem: line 14: Interpolation", parts["DIAGNOSTICS"])
        for name in ("screen.report", "screen.cert", "screen.cert2", "000001.cdm"):
            self.assertIn(name, parts["FILES"])
        self.assertIn("CONJ_UNPROVED", parts["ENVIRONMENT"])
        self.assertIn("conj screen catalogue --out results\n", parts["EXAMPLES"])

    def test_another_reader_has_no_complaint(self) -> None:
        if shutil.which("mandoc") is None:
            self.skipTest("mandoc is missing: apt-get install mandoc")
        shown = subprocess.run(["mandoc", "-Tlint", str(ROOT / PAGE)], capture_output=True, text=True, check=False)
        self.assertEqual((shown.returncode, shown.stdout, shown.stderr), (0, "", ""))


class OtherSources(FolderCase):
    def setUp(self) -> None:
        super().setUp()
        for path in (NOTICE, FORMATS):
            (self.folder / path).parent.mkdir(parents=True)
        shutil.copy(ROOT / FORMATS, self.folder / FORMATS)
        (self.folder / NOTICE).write_text(SOURCE, "utf-8")

    def change(self, old: str, new: str, path: Path = NOTICE) -> None:
        """Changes a text of a source that stands there once."""
        text = (self.folder / path).read_text("utf-8")
        self.assertEqual(text.count(old), 1, old)
        (self.folder / path).write_text(text.replace(old, new), "utf-8")

    def shown(self) -> str:
        """The page that the sources make, as a reader sees it."""
        path = self.folder / "page.1"
        path.write_text(page(self.folder), "utf-8")
        return rendered(path)

    def test_another_option(self) -> None:
        before = self.shown()
        self.change("  --cells N ", "  --as-text 'X' \\\\n   of screen: .a \\\\\\\"b\\\"\n                      and more\n  --cells N ")
        added = [line.strip() for line in self.shown().splitlines() if line not in before.splitlines()]
        self.assertEqual(added, ["--as-text 'X' \\n", 'of screen: .a \\"b" and more'])

    def test_a_help_that_is_put_together(self) -> None:
        whole = page(self.folder)
        parts = f'const FIRST: &str = r#"{TOLD[:100]}"#;\nconst HELP: &str = concat!(FIRST, /* "no" */ "{TOLD[100:]}"); // "no"\n'
        (self.folder / NOTICE).write_text(SOURCE.split("const HELP")[0] + parts, "utf-8")
        self.assertEqual(page(self.folder), whole)

    def test_the_help_of_a_command(self) -> None:
        more = "Usage:\n  conj explain [CAUSE]\n\nexplain tells what a cause means.\n\nOptions of explain:\n  --long   at length\n"
        self.change("const VERSION", f'const EXPLAIN: &str = "{more}";\n\nconst VERSION')
        commands = self.shown().split("COMMANDS\n")[1].split("EXIT STATUS")[0]
        self.assertEqual(commands.split(), "conj explain [CAUSE] explain tells what a cause means. Options of explain --long at length".split())

    def test_more_than_a_number_for_a_version(self) -> None:
        self.change('"conj 0.1.0\\n"', '"conj 0.1.0\\nreads OEM 2.0\\n"')
        self.assertIn("VERSION\n       conj 0.1.0\n       reads OEM 2.0\n", self.shown())
        self.change("conj 0.1.0 - made-up", "conj - made-up")
        self.assertIn('"conj 0.1.0"', page(self.folder).splitlines()[1])

    def test_formats_behind_a_number(self) -> None:
        self.change('"conj 0.1.0\\n";', '"0.1.0";\nconst FORMATS: &str = "reads:\\n  OEM 2.0\\n";')
        shown = self.shown()
        self.assertIn("VERSION\n       conj 0.1.0\n       reads:\n         OEM 2.0\n", shown)
        self.assertNotIn("COMMANDS", shown)

    def test_what_is_not_there(self) -> None:
        self.change("const HELP", "const OTHER")
        self.assertRaisesRegex(RunFault, "notice.rt: no constant HELP", page, self.folder)
        self.change("const OTHER", "const HELP")
        self.change("## Files\n", "## Folders\n", FORMATS)
        self.assertRaisesRegex(RunFault, "FORMATS.md: no section Files", page, self.folder)
        (self.folder / FORMATS).unlink()
        self.assertRaisesRegex(RunFault, "FORMATS.md: No such file", page, self.folder)


class Constants(unittest.TestCase):
    def test_texts(self) -> None:
        source = r"""
            // const NOT: &str = "a comment";
            /* const NOR: &str = "this"; */
            const ONE: &str = "a \"b\" \\ \x41\u{e9}\
                and on";
            pub static TWO: &'static str = r##"raw "# \n"##;
            const BYTES: &[u8] = b"bytes";
            const MANY: [&str; 2] = ["x;y = ", concat!("z", "(")];
            const BOTH: &str = concat!(ONE, "+", TWO);
            const CHAR: char = '"';
            const NUMBER: u32 = 7;
            fn named<'a>(text: &'a str) -> &'a str { let other = "no constant"; const INNER: &str = "inner"; text }
            const LAST: &str = "last";
        """
        self.assertEqual(text_constants(source), {
            "ONE": 'a "b" \\ Aéand on', "TWO": 'raw "# \\n',
            "BYTES": "bytes", "MANY": "x;y = z(", "BOTH": 'a "b" \\ Aéand on+raw "# \\n',
            "INNER": "inner", "LAST": "last",
        })  # fmt: skip

    @unittest.skipUnless(PROGRAM, "CONJ_PROGRAM names no program: set it to a built one, as .conj/program is")
    def test_the_program_prints_them(self) -> None:
        texts = text_constants((ROOT / NOTICE).read_text("utf-8"))
        for word, told in (("--help", texts[HELP]), ("--version", told_version(texts))):
            self.assertEqual(subprocess.run([os.path.abspath(PROGRAM), word], capture_output=True, text=True, check=True).stdout, told)


class Blocks(unittest.TestCase):
    def test_paragraphs_and_items(self) -> None:
        text = "It is - this.\nAnd on.\n\n"
        text += "Options, which\nare two:\n  --a N   the first: one\n          of it\n  --long-name TEXT\n          the second\nBehind.\n"
        text += "\nUsage:\n  x DIR [Y]\n  x --z\n"
        self.assertEqual(list(blocks(text)), [
            Block("It is - this. And on."),
            Block("Options, which are two", (Item("--a N", "the first: one of it"), Item("--long-name TEXT", "the second"))),
            Block("Behind."),
            Block("Usage", (Item("x DIR [Y]", ""), Item("x --z", ""))),
        ])  # fmt: skip


class Roff(unittest.TestCase):
    def test_signs(self) -> None:
        self.assertEqual(roff.escaped(r"made-up --out=a-b 2025-01-01 a\b - x/y-z"), r"made-up \-\-out=a\-b 2025\-01\-01 a\eb \- x/y\-z")
        self.assertEqual(roff.usage("conj do DIR [--x N] a-b|C_D"), r"\fBconj\fR \fBdo\fR \fIDIR\fR [\fB\-\-x\fR \fIN\fR] \fBa\-b\fR|\fIC_D\fR")
        self.assertEqual(roff.marked("a `b-c d` of [the `e`](f.md#g-h), i-j"), [r"a \fBb\-c d\fR of the \fBe\fR, i-j"])

    def test_no_line_is_a_request(self) -> None:
        self.assertEqual(roff.paragraph(".so x"), [r"\&.so x"])
        self.assertEqual(roff.paragraph("'so x"), [r"\&'so x"])
        lines = roff.paragraph(" ".join(["word", ".x"] * 60))
        self.assertGreater(len(lines), 1)
        self.assertFalse(any(line.startswith((".", "'")) for line in lines))
        self.assertEqual(roff.paragraph("One. Two of it. three."), ["One.", "Two of it.", "three."])


class Tables(FolderCase):
    def test_a_section(self) -> None:
        path = self.folder / "a.md"
        table = "| A | B |\n|---|:--|\n| `a` | b, `c` |\n| d | |\n"
        path.write_text(f"# A\n\n## Files\n\nFirst,\non.\n\n{table}\nLast.\n\n## More\n\n| x |\n|---|\n| y |\n", "utf-8")
        text = section(path, "Files")
        self.assertEqual(rows(text), [["`a`", "b, `c`"], ["d", ""]])
        self.assertEqual(paragraphs(text), ["First, on.", "Last."])
        self.assertRaisesRegex(RunFault, "has no table", rows, section(path, "A"))


class Script(unittest.TestCase):
    def test_words(self) -> None:
        ended = subprocess.run([str(ROOT / "scripts" / "manual"), "x"], capture_output=True, text=True, check=False)
        self.assertEqual((ended.returncode, ended.stdout, ended.stderr), (2, "", "manual: unrecognized arguments: x\n"))
