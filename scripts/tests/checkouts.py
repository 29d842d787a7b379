"""A small checkout for the tests of the launcher: its scripts as they are, crates of a few lines, and a toolchain that is made up."""

from __future__ import annotations

import os
import shutil
import subprocess
from pathlib import Path

from tests.support import ROOT, FolderCase

TOOLCHAIN = Path(__file__).with_name("made_up_toolchain.py")
SCRIPTS = ("prove", "compile", "sources", "install")
# Of each crate what it names and the lines of its code, its definitions and its proofs; one of tests that is no part of the program.
CRATES: dict[str, tuple[str, tuple[int, int, int]]] = {
    "low": ("", (10, 20, 30)),
    "left": ("low kit", (20, 0, 0)),
    "right": ("low", (30, 0, 10)),
    "top": ("left right", (5, 5, 5)),
    "conj": ("top low", (1, 0, 0)),
    "low_tests": ("low", (100, 0, 0)),
}


class CheckoutCase(FolderCase):
    """Tests with a checkout of their own."""

    def setUp(self) -> None:
        super().setUp()
        self.root = self.folder / "checkout"
        self.told = self.folder / "told"
        self.temporary = self.folder / "temporary"
        for folder in (self.root / "scripts", self.told, self.temporary, self.folder / "bin"):
            folder.mkdir(parents=True)
        shutil.copy(ROOT / "conj", self.root)
        (self.root / "docs").mkdir()
        shutil.copy(ROOT / "docs" / "conj.1", self.root / "docs")
        for name in SCRIPTS:
            shutil.copy(ROOT / "scripts" / name, self.root / "scripts")
        shutil.copytree(ROOT / "scripts" / "conjtools", self.root / "scripts" / "conjtools", ignore=shutil.ignore_patterns("__pycache__"))
        (self.root / "HANDLES").write_text("Handles allowed: none.\n", "ascii")
        (self.root / "crates.txt").write_text("".join(f"{name}: {named}\n" for name, (named, _) in CRATES.items()) + "# nothing\n", "ascii")
        for name, (_, lines) in CRATES.items():
            for place, count in zip(("src", "specs", "proofs"), lines, strict=True):
                (self.root / "crates" / name / place).mkdir(parents=True)
                (self.root / "crates" / name / place / "text").write_text("line\n" * count, "ascii")
        (self.root / "crates" / "conj" / "src" / "main.rt").touch()
        (self.folder / "bin" / "rt").symlink_to(TOOLCHAIN)
        self.say(*(f"rt: {name} proved" for name in ("low", "left", "right", "top", "conj")))

    def say(self, *lines: str) -> None:
        """Tells the toolchain what the gate says."""
        (self.told / "said").write_text("".join(f"{line}\n" for line in lines), "utf-8")

    def calls(self) -> list[str]:
        """What the toolchain was called with."""
        path = self.told / "calls"
        return path.read_text("utf-8").splitlines() if path.exists() else []

    def environment(self, **more: str) -> dict[str, str]:
        """The environment of a run."""
        kept = {name: value for name, value in os.environ.items() if name not in ("CONJ_UNPROVED", "CONJ_PROGRAM")}
        path = f"{self.folder / 'bin'}:{os.environ['PATH']}"
        return {**kept, "PATH": path, "TOLD": str(self.told), "TMPDIR": str(self.temporary), **more}

    def run_script(self, script: str, *words: str, **more: str) -> subprocess.CompletedProcess[str]:
        """Runs a script of the checkout in a folder elsewhere."""
        return subprocess.run(
            [str(self.root / script), *words], cwd=self.folder, env=self.environment(**more), stdin=subprocess.DEVNULL, capture_output=True, text=True,
            timeout=60, check=False,
        )  # fmt: skip
