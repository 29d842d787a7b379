"""Which windows a change of an ephemeris touches. What has to touch follows from docs/MODEL.md, by hand or by the pieces of
`conjtools.catalogue`, which are found another way."""

from __future__ import annotations

import os
import random
import re
import shutil
import subprocess
import tempfile
import unittest
from pathlib import Path

from tests.support import SAMPLES, need_numpy, oem, segment

need_numpy()

from conjtools.catalogue import catalogue_of  # noqa: E402
from conjtools.epochs import epoch_text  # noqa: E402
from conjtools.faults import InputFault  # noqa: E402
from conjtools.oem import read_oem  # noqa: E402
from conjtools.parts.touching import file_digests, report_objects  # noqa: E402
from conjtools.report import Report, ReportObject, Window  # noqa: E402

MINUTE = 60_000_000
START = 1_735_689_600_000_000
MATRIX = "EPOCH = {at}\n{frame}1\n2 3\n4 5 6\n7 8 9 10\n11 12 13 14 15\n16 17 18 19 20 {last}\n"


def when(minute: float) -> str:
    """The epoch so many minutes behind the start."""
    return epoch_text(START + round(minute * MINUTE))


def window(first: float, last: float, less: int = 0) -> Window:
    """The window from one minute to another, less so many ticks at its end."""
    return Window(START + round(first * MINUTE), START + round(last * MINUTE) - less)


def row(minute: float, x: str = "7000.5") -> str:
    """A row of a state."""
    return f"{when(minute)} {x} 0 {minute} 0 7.5 0"


def file(rows: list[str], first: float = 0, last: float = 10, more: str = "", behind: str = "") -> str:
    """An ephemeris of one segment that is useable from one minute to another."""
    return oem(rows, when(first), when(last), more=more) + behind


PLAIN = [row(minute) for minute in range(11)]
HALVES = (window(0, 5, 1), window(5, 10))


class TouchingCase(unittest.TestCase):
    def touched(self, old: str, new: str, windows: tuple[Window, ...] = HALVES) -> list[bool]:
        """Which windows a change of a file touches."""
        one = file_digests("a.oem", old.encode("ascii"), windows)
        other = file_digests("a.oem", new.encode("ascii"), windows)
        self.assertEqual((len(one), len(other)), (len(windows), len(windows)))
        return [before != behind for before, behind in zip(one, other)]


class Rows(TouchingCase):
    def test_each_row(self) -> None:
        """Pieces 0-1 to 4-5 are used in the first half, 5-6 to 9-10 in the second; rows far from a half do not touch it."""
        for minute in range(11):
            rows = list(PLAIN)
            rows[minute] = row(minute, "7000.4")
            first, second = self.touched(file(PLAIN), file(rows))
            self.assertTrue(first or minute > 5)
            self.assertTrue(second or minute < 5)
            self.assertFalse(first and minute > 7)
            self.assertFalse(second and minute < 3)

    def test_the_tick_of_a_state_belongs_to_the_piece_behind_it(self) -> None:
        """A window that ends at minute 5 uses the piece 5-6 there."""
        rows = list(PLAIN)
        rows[6] = row(6, "7000.4")
        self.assertEqual(self.touched(file(PLAIN), file(rows), (window(0, 5),)), [True])

    def test_the_tick_of_the_last_state_belongs_to_the_last_piece(self) -> None:
        """A window that begins at minute 10 uses the piece 9-10."""
        rows = list(PLAIN)
        rows[9] = row(9, "7000.4")
        self.assertEqual(self.touched(file(PLAIN), file(rows), (window(10, 12),)), [True])

    def test_a_row_that_comes_or_goes(self) -> None:
        rows = PLAIN[:8] + [row(7.5)] + PLAIN[8:]
        self.assertEqual(self.touched(file(PLAIN), file(rows)), [False, True])
        self.assertEqual(self.touched(file(rows), file(PLAIN)), [False, True])

    def test_more_time_behind_the_window(self) -> None:
        """The same states and two more minutes: a window that ends before them is the same, one that reaches them is not."""
        longer = file(PLAIN + [row(11), row(12)], 0, 12)
        self.assertEqual(self.touched(file(PLAIN), longer, (window(0, 5), window(5, 8), window(5, 10), window(5, 12))), [False, False, True, True])

    def test_useable_span(self) -> None:
        """Useable up to minute 7 and up to 8: the same in the first half and from minute 9 on."""
        seven, eight = (file(PLAIN, more=f"USEABLE_STOP_TIME = {when(minute)}\n") for minute in (7, 8))
        windows = (window(0, 5, 1), window(5, 10), window(9, 10), window(0, 7), window(0, 7, 1))
        self.assertEqual(self.touched(seven, eight, windows), [False, True, False, False, False])
        two, three = (file(PLAIN, more=f"USEABLE_START_TIME = {when(minute)}\n") for minute in (2, 3))
        self.assertEqual(self.touched(two, three, (window(0, 1), window(0, 5), window(2, 5), window(3, 5), window(5, 10))), [False, True, True, False, False])

    def test_digits_and_accelerations_count(self) -> None:
        self.assertEqual(self.touched(file(PLAIN), file([row(0, "7000.50"), *PLAIN[1:]])), [True, False])

    def test_what_says_nothing(self) -> None:
        """Comments, blanks around lines, CR LF, and the date and the writer in the header."""
        text = file(PLAIN)
        self.assertEqual(self.touched(text, text.replace("\n", "\r\n")), [False, False])
        self.assertEqual(self.touched(text, text.replace("META_STOP\n", "META_STOP\nCOMMENT new\n\n  ")), [False, False])
        self.assertEqual(self.touched(text, text.replace("ORIGINATOR = TEST", "ORIGINATOR = OTHER")), [False, False])

    def test_frame_touches_all(self) -> None:
        self.assertEqual(self.touched(file(PLAIN), file(PLAIN).replace("EME2000", "GCRF")), [True, True])

    def test_what_is_not_understood_touches_all(self) -> None:
        broken = file([*PLAIN[:9], "what", *PLAIN[9:]])
        self.assertEqual(self.touched(file(PLAIN), file(PLAIN).replace("CENTER_NAME = EARTH", "CENTER_NAME = MOON")), [True, True])
        self.assertTrue(self.touched(broken, broken.replace("what", "whom"))[1], "a row in the second half")
        moon = file(PLAIN).replace("CENTER_NAME = EARTH", "CENTER_NAME = MOON")
        self.assertEqual(self.touched(moon, moon + "\n"), [True, True])


class Segments(TouchingCase):
    def two(self, x: str = "7000.5", border: float = 5) -> str:
        """Two segments that meet at a minute."""
        head = oem(PLAIN[:8], when(0), when(10), more=f"USEABLE_STOP_TIME = {when(border)}\n").replace(f"STOP_TIME = {when(10)}", f"STOP_TIME = {when(7)}", 1)
        return head + segment([row(4), *(row(minute, x) for minute in range(5, 11))], when(border), when(10))

    def test_the_later_one_changes(self) -> None:
        """In minute 5 to 10 the second is used; up to a tick before minute 5 the first alone."""
        self.assertEqual(self.touched(self.two(), self.two("7000.4")), [False, True])

    def test_the_border_moves(self) -> None:
        read_oem("a.oem", self.two().encode("ascii"))
        self.assertEqual(self.touched(self.two(), self.two(border=6), (window(0, 4), window(0, 10), window(7, 10))), [False, True, False])


class Covariances(TouchingCase):
    def matrices(self, *told: tuple[float, str, str]) -> str:
        """A block of covariances, each by its minute, its frame and its last number."""
        lines = (MATRIX.format(at=when(at), frame=f"COV_REF_FRAME = {frame}\n" if frame else "", last=last) for at, frame, last in told)
        return "COVARIANCE_START\n" + "".join(lines) + "COVARIANCE_STOP\n"

    def changed(self, place: int, *told: tuple[float, str]) -> list[bool]:
        """What a change of one of some covariances touches."""
        texts = []
        for last in ("21", "22"):
            block = self.matrices(*((at, frame, last if number == place else "21") for number, (at, frame) in enumerate(told)))
            texts.append(file(PLAIN, behind=block))
        for text in texts:
            read_oem("a.oem", text.encode("ascii"))
        return self.touched(texts[0], texts[1])

    def test_the_latest_before_and_those_within(self) -> None:
        """At minutes 1, 2, 6 and 8: in the first half the first is told up to minute 2, in the second the second up to minute 6."""
        told = [(1.0, ""), (2.0, ""), (6.0, ""), (8.0, "")]
        self.assertEqual([self.changed(place, *told)[0] for place in range(4)], [True, True, False, False])
        self.assertEqual([self.changed(place, *told)[1] for place in range(1, 4)], [True, True, True])

    def test_the_first_where_none_is_before(self) -> None:
        """At minutes 9 and 8: before them the first that stands in the file is told, so it touches both halves."""
        self.assertEqual(self.changed(0, (9.0, ""), (8.0, "")), [True, True])
        self.assertEqual(self.changed(1, (9.0, ""), (8.0, "")), [False, True])

    def test_other_frames_are_not_used(self) -> None:
        """One in RTN at minute 1 is told in the second half, though one in another frame stands behind it."""
        told = [(0.5, "RTN"), (1.0, "rtn"), (4.0, "EME2000")]
        self.assertEqual(self.changed(1, *told)[1], True)
        self.assertEqual(self.changed(2, *told), [False, False])

    def test_the_last_of_equals(self) -> None:
        """Both at minute 3 count, since their order says which is told."""
        self.assertTrue(self.changed(1, (0.0, ""), (3.0, ""), (3.0, ""))[1])
        self.assertTrue(self.changed(2, (0.0, ""), (3.0, ""), (3.0, ""))[1])


class Objects(unittest.TestCase):
    def test_what_each_report_lists(self) -> None:
        model = ReportObject("a.oem", "1", "A", 5)
        reports = [Report(Window(0, 0), 10**12, objects, ()) for objects in (
            (model,), (ReportObject("b.oem", "1", "A", 5),), (ReportObject("a.oem", "2", "A", 5),), (ReportObject("a.oem", "1", "B", 5),),
            (ReportObject("a.oem", "1", "A", 6),), (ReportObject("a.oem", "1", "A"),), (model, ReportObject("b.oem", "1", "A", 5)), (),
        )]  # fmt: skip
        self.assertEqual(len({report_objects(report) for report in reports}), len(reports))
        self.assertEqual(report_objects(reports[0]), report_objects(Report(Window(7, 8), 10**13, (model,), ())))


class AtRandom(TouchingCase):
    """Lines of files with segments and gaps are changed or taken out at random. Where the pieces that are used in a window differ, it has
    to be touched."""

    def used(self, text: str, where: Window) -> object:
        """The pieces that are used in a window: the run of ticks of each in it and its two states; nothing where the file is refused."""
        try:
            catalogue = catalogue_of([read_oem("a.oem", text.encode("ascii"))])
        except InputFault:
            return None
        (pieces,) = catalogue.objects
        runs = []
        for place, (first, last) in enumerate(zip(pieces.firsts, pieces.lasts)):
            if max(first, where.first) <= min(last, where.last):
                at = int(catalogue.piece_states[place])
                states = catalogue.times[at : at + 2].tolist(), catalogue.states[at : at + 2].tolist()
                runs.append((max(first, where.first), min(last, where.last), states))
        return runs

    def changed(self, draw: random.Random, text: str) -> str:
        """A text with one of its lines changed: a digit, or the whole line."""
        lines = text.split("\n")
        place = draw.randrange(len(lines))
        digits = [at for at, letter in enumerate(lines[place]) if letter.isdigit()]
        if digits and draw.random() < 0.8:
            at = draw.choice(digits)
            lines[place] = lines[place][:at] + draw.choice("0123456789") + lines[place][at + 1 :]
        else:
            del lines[place]
        return "\n".join(lines)

    def test_pieces_that_differ_touch(self) -> None:
        draw = random.Random(52)
        texts = [Segments().two(), file(PLAIN, more=f"USEABLE_START_TIME = {when(2.5)}\nUSEABLE_STOP_TIME = {when(8.25)}\n")]
        windows = (window(0, 3, 1), window(3, 5, 1), window(5, 5.5, 1), window(5.5, 7), window(7, 10), window(9, 12))
        differing = 0
        for _ in range(400):
            text = draw.choice(texts)
            new = self.changed(draw, text)
            touched = self.touched(text, new, windows)
            for where, is_touched in zip(windows, touched):
                after = self.used(new, where)
                if after is not None and after != self.used(text, where):
                    differing += 1
                    self.assertTrue(is_touched, f"{where}\n{new}")
        self.assertGreater(differing, 100)


class ByTheProgram(unittest.TestCase):
    """What the program writes of a window in which an ephemeris is not touched is the same to the byte."""

    def setUp(self) -> None:
        self.program = os.environ.get("CONJ_PROGRAM", "")
        if not self.program:
            raise unittest.SkipTest("the program is not told: set CONJ_PROGRAM to it")
        holder = tempfile.TemporaryDirectory()
        self.addCleanup(holder.cleanup)
        self.folder = Path(holder.name)

    def written(self, folder: Path, where: Window) -> dict[str, bytes] | None:
        """What a run writes, or nothing where it refuses the folder."""
        out = self.folder / "out"
        words = [self.program, "screen", str(folder), f"--from={epoch_text(where.first)}", f"--to={epoch_text(where.last)}", f"--out={out}"]
        run = subprocess.run(words, stdin=subprocess.DEVNULL, capture_output=True)
        if run.returncode:
            self.assertEqual(run.returncode, 3, run.stderr)
            return None
        texts = {path.name: re.sub(rb"(?m)^CREATION_DATE = .*$", b"", path.read_bytes()) for path in out.iterdir()}
        shutil.rmtree(out)
        return texts

    def test_untouched_windows_keep_their_bytes(self) -> None:
        draw, chances = random.Random(7), AtRandom()
        folder = self.folder / "usual"
        shutil.copytree(SAMPLES / "usual", folder, ignore=shutil.ignore_patterns("screen.*", "*.cdm"))
        begin = 1_739_534_400_000_000  # 2025-02-14T12:00:00
        windows = [Window(begin + first * MINUTE, begin + last * MINUTE - 1) for first, last in ((0, 2), (2, 5), (5, 6), (6, 8), (8, 11))]
        before = [self.written(folder, where) for where in windows]
        untouched = 0
        for _ in range(60):
            path = draw.choice(sorted(folder.glob("*.oem")))
            text = path.read_bytes().decode("ascii")
            new = chances.changed(draw, text)
            path.write_bytes(new.encode("ascii"))
            olds = file_digests(path.name, text.encode("ascii"), windows)
            news = file_digests(path.name, new.encode("ascii"), windows)
            for where, old_digest, new_digest, texts in zip(windows, olds, news, before):
                if old_digest == new_digest:
                    written = self.written(folder, where)
                    if written is not None and heads_are_equal(text, new):
                        untouched += 1
                        self.assertEqual(written, texts)
            path.write_bytes(text.encode("ascii"))
        self.assertGreater(untouched, 50)


def heads_are_equal(one: str, other: str) -> bool:
    """Whether two files say the same name and designator, which the list of objects tells and no digest of a file."""
    keys = re.compile(r"^\s*(OBJECT_NAME|OBJECT_ID)\s*=\s*(.*?)\s*$", re.MULTILINE)
    return keys.findall(one) == keys.findall(other)


if __name__ == "__main__":
    unittest.main()
