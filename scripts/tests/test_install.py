"""`scripts/install`: what is put where, what is replaced, and what is refused."""

from __future__ import annotations

import os
import shutil
import stat
import subprocess
from pathlib import Path

from tests.checkouts import CheckoutCase
from tests.support import ROOT

NOBODY = 65534
PROVED = "#!/bin/sh\necho proved\n"
PLACES = ("bin/conj", "share/man/man1/conj.1")


class Install(CheckoutCase):
    def setUp(self) -> None:
        super().setUp()
        self.prefix = self.folder / "prefix"

    def build(self) -> None:
        """Puts a program where the launcher keeps the one that it has proved of these sources."""
        store = self.root / ".conj"
        store.mkdir()
        (store / "program").write_text(PROVED, "ascii")
        (store / "program").chmod(0o755)
        (store / "sources").write_text(self.run_script("scripts/sources", "proved").stdout, "ascii")

    def install(self, *words: str) -> tuple[int, str, str]:
        """Status, standard output and standard error of a run."""
        ended = self.run_script("scripts/install", *(words or (str(self.prefix),)))
        return ended.returncode, ended.stdout, ended.stderr

    def installed(self) -> list[str]:
        """The files below the prefix."""
        return sorted(str(path.relative_to(self.prefix)) for path in self.prefix.rglob("*") if not path.is_dir())

    def assert_installed(self) -> None:
        """Both files stand there, and nothing else."""
        self.assertEqual(self.installed(), list(PLACES))
        program, page = (self.prefix / place for place in PLACES)
        self.assertEqual(subprocess.run([str(program)], capture_output=True, text=True, check=True).stdout, "proved\n")
        self.assertEqual(page.read_bytes(), (ROOT / "docs" / "conj.1").read_bytes())
        self.assertEqual([stat.S_IMODE(path.stat().st_mode) for path in (program, page)], [0o755, 0o644])

    def test_program_and_page(self) -> None:
        self.build()
        self.assertEqual(self.install(), (0, "".join(f"{self.prefix / place}\n" for place in PLACES), ""))
        self.assert_installed()
        self.assertEqual(self.calls(), [], "nothing is built")

    def test_a_prefix_by_its_name_alone(self) -> None:
        self.build()
        self.assertEqual(self.install("prefix")[:2], (0, "".join(f"prefix/{place}\n" for place in PLACES)))
        self.assert_installed()

    def test_files_are_replaced_by_renaming(self) -> None:
        self.build()
        for place in PLACES:
            (self.prefix / place).parent.mkdir(parents=True)
            (self.prefix / place).write_text("older\n", "ascii")
        kept = self.folder / "kept"
        kept.write_text("other\n", "ascii")
        (self.prefix / "bin" / "conj").unlink()
        (self.prefix / "bin" / "conj").symlink_to(kept)
        with (self.prefix / PLACES[1]).open("r", encoding="ascii") as older:
            self.assertEqual(self.install()[0], 0)
            self.assertEqual(older.read(), "older\n", "who has the older file open still reads it")
        self.assert_installed()
        self.assertFalse((self.prefix / "bin" / "conj").is_symlink())
        self.assertEqual(kept.read_text("ascii"), "other\n", "no link is followed")

    def refused(self, why: str) -> None:
        """A run that is refused and puts nothing."""
        before = self.installed()
        status, said, errors = self.install()
        self.assertEqual((status, said, errors), (1, "", f"install: {why}\n"))
        self.assertEqual(self.installed(), before)

    def test_no_proved_program(self) -> None:
        how = f"{self.root.resolve() / 'conj'} --version proves and builds it"
        self.refused(f"the proved program is not there: {how}")
        self.run_script("conj", CONJ_UNPROVED="1")
        self.refused(f"the proved program is not there: {how}")
        self.build_beside_unproved()
        with (self.root / "crates" / "low" / "proofs" / "text").open("a", encoding="ascii") as file:
            file.write("more\n")
        self.refused(f"the proved program is of other sources than these: {how}")

    def build_beside_unproved(self) -> None:
        """The same as `build`, where the launcher has made its folder."""
        unproved = self.root / ".conj"
        shutil.move(unproved, self.folder / "moved")
        self.build()

    def test_the_launcher_makes_it(self) -> None:
        self.assertEqual(self.run_script("conj", "--version").returncode, 0)
        self.assertEqual(self.install()[0], 0)
        program = (self.root / ".conj" / "program").read_bytes()
        self.assertEqual((self.prefix / "bin" / "conj").read_bytes(), program)

    def test_a_prefix_that_cannot_be(self) -> None:
        self.build()
        self.prefix.write_text("a file\n", "ascii")
        self.refused(f"{self.prefix / 'bin'}: Not a directory")

    def test_a_directory_in_the_place_of_a_file(self) -> None:
        self.build()
        (self.prefix / PLACES[1]).mkdir(parents=True)
        self.refused(f"{self.prefix / PLACES[1]}: is a directory")

    def test_a_prefix_without_leave(self) -> None:
        self.build()
        self.prefix.mkdir(mode=0o755)
        (self.prefix / "bin").mkdir(mode=0o755)
        (self.prefix / "bin" / "conj").write_text("older\n", "ascii")
        user = None
        if os.getuid() == 0:
            user = NOBODY
            self.folder.chmod(0o755)
        else:
            (self.prefix / "bin").chmod(0o555)
            self.addCleanup((self.prefix / "bin").chmod, 0o755)
        words = [str(self.root / "scripts" / "install"), str(self.prefix)]
        ended = subprocess.run(words, env=self.environment(), user=user, capture_output=True, text=True, check=False)
        self.assertEqual((ended.returncode, ended.stdout), (1, ""))
        self.assertRegex(ended.stderr, rf"^install: {self.prefix / 'bin'}\S*: Permission denied\n$")
        self.assertEqual(self.installed(), ["bin/conj"])
        self.assertEqual((self.prefix / "bin" / "conj").read_text("ascii"), "older\n")

    def test_words(self) -> None:
        self.build()
        for words in ((), ("a", "b"), ("--prefix", "a")):
            ended = self.run_script("scripts/install", *words)
            self.assertEqual((ended.returncode, ended.stdout), (2, ""))
            self.assertEqual(ended.stderr.count("\n"), 1)
        ended = self.run_script("scripts/install", "--help")
        self.assertEqual(ended.returncode, 0)
        self.assertIn("PREFIX/share/man/man1/conj.1", " ".join(ended.stdout.split()))
        self.assertEqual(list(Path(self.folder).glob("a*")), [])
