"""`scripts/show` as it is run: its page, its CSV and its JSON, and what it refuses."""

from __future__ import annotations

import contextlib
import csv
import io
import json
import os
import re
import shutil
import subprocess
from dataclasses import dataclass
import unittest
from html.parser import HTMLParser
from pathlib import Path
from typing import Any

from tests.support import (
    CROSSING_MESSAGE, CROSSING_REPORT, RESTING_REPORT, ROOT, SIZED_REPORT, USUAL_MESSAGE, USUAL_REPORT, FolderCase, catalogue_report, need_numpy,
)  # fmt: skip

need_numpy()

from conjtools.epochs import read_epoch  # noqa: E402
from conjtools.show import main  # noqa: E402

SHOW = ROOT / "scripts" / "show"


class PageText(HTMLParser):
    """What is needed of a page: the addresses that it names, its identifiers, and its data."""

    def __init__(self, text: str) -> None:
        super().__init__()
        self.links: list[str] = []
        self.ids: list[str] = []
        self.data: Any = None
        self.in_data = False
        self.feed(text)

    def handle_starttag(self, tag: str, attrs: list[tuple[str, str | None]]) -> None:
        told = dict(attrs)
        self.links.extend(value for name, value in attrs if name in ("href", "src") and value)
        if told.get("id"):
            self.ids.append(str(told["id"]))
        self.in_data = told.get("id") == "data"

    def handle_data(self, data: str) -> None:
        if self.in_data:
            self.data = json.loads(data)
            self.in_data = False


@dataclass(frozen=True)
class Run:
    """How a run ended, and what it said."""

    returncode: int
    stdout: str
    stderr: str


class ShowCase(FolderCase):
    """Runs of the script in a folder of their own, which is the current one."""

    def setUp(self) -> None:
        super().setUp()
        self.addCleanup(os.chdir, os.getcwd())
        os.chdir(self.folder)

    def run_show(self, *words: str | Path) -> Run:
        """A run within this process."""
        with contextlib.redirect_stdout(io.StringIO()) as said, contextlib.redirect_stderr(io.StringIO()) as faults:
            try:
                status = main([str(word) for word in words])
            except SystemExit as end:
                status = int(end.code or 0)
        return Run(status, said.getvalue(), faults.getvalue())

    def shown(self, *words: str | Path) -> PageText:
        """The page of a run that ends well and says nothing."""
        run = self.run_show(*words)
        self.assertEqual((run.returncode, run.stdout, run.stderr), (0, "", ""))
        return PageText((self.folder / "screen.html").read_text("utf-8"))

    def table(self, *words: str | Path) -> list[dict[str, str]]:
        """The rows of the CSV."""
        self.shown(*words, "--csv", "table.csv")
        with open(self.folder / "table.csv", newline="", encoding="utf-8") as file:
            return list(csv.DictReader(file))

    def refused(self, status: int, said: str, *words: str | Path) -> None:
        """A run that ends so, with one line that says so, and that writes nothing."""
        before = sorted(self.folder.rglob("*"))
        run = self.run_show(*words)
        self.assertEqual((run.returncode, run.stdout), (status, ""))
        self.assertRegex(run.stderr, r"\Ashow: [^\n]*\n\Z")
        self.assertIn(said, run.stderr)
        self.assertEqual(sorted(self.folder.rglob("*")), before)


class Table(ShowCase):
    def test_crossing(self) -> None:
        """docs/GUIDE.md: closest approach 00:00:30 at 1,000 m, and the span; the speed is 7.5 km/s along two axes."""
        (row,) = self.table(self.crossing())
        self.assertAlmostEqual(float(row.pop("relative_speed_m_per_s")), 7500 * 2**0.5, delta=1e-6)
        self.assertEqual(
            row,
            {
                "encounter": "1",
                "object_1_name": "SAT A", "object_1_designator": "2025-001A", "object_1_file": "a.oem", "object_1_primary": "false",
                "object_2_name": "SAT B", "object_2_designator": "2025-002A", "object_2_file": "b.oem", "object_2_primary": "false",
                "time_of_closest_approach_utc": "2025-01-01T00:00:30.000000",
                "miss_distance_m": "1000.000000000",
                "pair_threshold_m": "5000.000000000",
                "first_utc": "2025-01-01T00:00:29.538120",
                "last_utc": "2025-01-01T00:00:30.461880",
                "length_s": "0.923760",
                "mark": "NEAR",
                "message": "000001.cdm",
            },
        )  # fmt: skip

    def test_sizes_add_to_the_threshold(self) -> None:
        (row,) = self.table(self.crossing(SIZED_REPORT))
        self.assertEqual((row["pair_threshold_m"], row["length_s"]), ("5002.250000000", "0.924192"))

    def test_catalogue(self) -> None:
        rows = self.table(self.sample("catalogue", catalogue_report()))
        told = [(row["object_1_name"], row["object_2_designator"], row["miss_distance_m"], row["length_s"], row["message"]) for row in rows]
        self.assertEqual(
            told,
            [
                ("DEMO 01", "2099-007A", "1200.000242980", "0.696989", ""),
                ("DEMO 03", "2099-008A", "4300.000380337", "0.431138", ""),
                ("DEMO 10", "2099-011A", "2999.999007728", "1800.000000", ""),
                ("DEMO 22", "2099-026A", "4661.569771985", "939.111328", ""),
            ],
        )

    def test_json_says_the_same(self) -> None:
        folder = self.crossing()
        (row,) = self.table(folder, "--json", "table.json")
        told = json.loads((self.folder / "table.json").read_text("utf-8"))
        (encounter,) = told["encounters"]
        self.assertEqual(list(encounter), list(row))
        self.assertEqual((encounter["miss_distance_m"], encounter["length_s"], encounter["object_1_primary"]), (1000.0, 0.92376, False))
        self.assertEqual(told["report"]["threshold_m"], 5000.0)
        self.assertEqual([one["file"] for one in told["objects"]], ["a.oem", "b.oem"])
        self.assertEqual(told["objects"][0]["covered"], [{"first_utc": "2025-01-01T00:00:00.000000", "last_utc": "2025-01-01T00:01:00.000000"}])


class Page(ShowCase):
    def test_samples_are_shown(self) -> None:
        for name, report, message in (("catalogue", catalogue_report(), None), ("usual", USUAL_REPORT, USUAL_MESSAGE), ("resting", RESTING_REPORT, None)):
            page = self.shown(self.sample(name, report, {"000001.cdm": message} if message else None))
            count = report.count("\nENCOUNTER ")
            self.assertEqual(sum(one.startswith("curve-") for one in page.ids), count)
            self.assertEqual(len(page.data["encounters"]["miss"]), count)

    def test_no_network_and_messages_linked(self) -> None:
        page = self.shown(self.crossing())
        self.assertEqual(set(page.links), {"#encounters-heading", "crossing/screen.report", "crossing/000001.cdm"})
        text = (self.folder / "screen.html").read_text("utf-8")
        self.assertEqual(set(re.findall(r"https?://[^\"' ]*", text)), {"http://www.w3.org/2000/svg"}, "the name of SVG's elements alone")
        self.assertIn("default-src 'none'", text)

    def test_results_elsewhere(self) -> None:
        """The report and the message lie in another folder than the ephemerides, and the page in a third."""
        folder, new = self.crossing(), self.folder / "new results"
        new.mkdir()
        for name in ("screen.report", "000001.cdm"):
            (folder / name).rename(new / name)
        (self.folder / "pages").mkdir()
        run = self.run_show(folder, "--results", new, "--out", "pages/p.html")
        self.assertEqual((run.returncode, run.stderr), (0, ""))
        self.assertIn("../new%20results/000001.cdm", PageText((self.folder / "pages" / "p.html").read_text("utf-8")).links)

    def test_most(self) -> None:
        folder = self.sample("catalogue", catalogue_report())
        page = self.shown(folder, "--most", "2")
        self.assertEqual([one for one in page.ids if one.startswith("curve-")], ["curve-1", "curve-3"], "1,200 m and 3,000 m are the nearest")
        self.assertEqual(page.data["drawn"], [1, 3])
        self.assertEqual(self.shown(folder, "--most", "0").data["drawn"], [])

    def test_names_cannot_end_an_element(self) -> None:
        folder = self.crossing(CROSSING_REPORT.replace("SAT A", "</script><b>&amp;\"'"))
        path = folder / "a.oem"
        path.write_text(path.read_text("ascii").replace("SAT A", "</script><b>&amp;\"'"), "ascii")
        (folder / "000001.cdm").write_text(CROSSING_MESSAGE.replace("SAT A", "</script><b>&amp;\"'"), "ascii")
        page = self.shown(folder)
        self.assertEqual(page.data["objects"]["name"][0], "</script><b>&amp;\"'")
        self.assertNotIn("<b>", (self.folder / "screen.html").read_text("utf-8"))

    def test_a_report_without_encounters_or_objects(self) -> None:
        head = CROSSING_REPORT.partition("OBJECT")[0]
        self.assertEqual(self.shown(self.crossing(head + "END\n")).data["encounters"]["miss"], [])

    def test_covered_and_primary_are_taken_from_the_report(self) -> None:
        more = "NAME SAT A\nPRIMARY\nCOVERED 2025-01-01T00:00:10.000000 2025-01-01T00:00:40.000000\n"
        text = CROSSING_REPORT.replace("NAME SAT A\n", more).replace("NAME SAT B\n", "NAME SAT B\nCOVERED NONE\n")
        page = self.shown(self.crossing(text))
        midnight = 1_735_689_600_000_000
        self.assertEqual(page.data["objects"]["covered"], [[midnight + 10_000_000, midnight + 40_000_000], []])
        self.assertEqual(page.data["objects"]["missing"], [midnight, midnight])
        self.assertIn("1 pair, 2 do not cover the window", (self.folder / "screen.html").read_text("utf-8"))
        self.assertEqual(page.data["objects"]["primary"], [1, 0])
        self.assertIn('name="primary"', (self.folder / "screen.html").read_text("utf-8"))

    def test_objects_that_do_not_cover_the_window(self) -> None:
        """The imager of the samples has states from 12:01 to 12:09, and the relay all the time: by the ephemerides, and as the report tells it."""
        noon, minute = read_epoch("2025-02-14T12:00:00"), 60_000_000
        relay = "COVERED 2025-02-14T12:00:00.000000 2025-02-14T12:10:00.000000\n"
        told = USUAL_REPORT.replace("RELAY 7\n", f"RELAY 7\n{relay}")
        later = told.replace("IMAGER 3\n", f"IMAGER 3\n{relay.replace('10:00.000000', '09:59.999999')}")
        whole = told.replace("IMAGER 3\n", f"IMAGER 3\n{relay}")
        for report, spans, missing in (
            (USUAL_REPORT, [noon + minute, noon + 9 * minute], noon), (later, [noon, noon + 10 * minute - 1], noon + 10 * minute),
            (whole, [noon, noon + 10 * minute], None),
        ):  # fmt: skip
            folder = self.sample("usual", report, {"000001.cdm": USUAL_MESSAGE})
            page = self.shown(folder)
            self.assertEqual(page.data["objects"]["covered"], [spans, [noon, noon + 10 * minute]])
            self.assertEqual(page.data["objects"]["missing"], [missing, None])
            text = (self.folder / "screen.html").read_text("utf-8")
            self.assertEqual("1 does not cover the window" in text, missing is not None)
            self.assertEqual("do not cover the window" in text, False)
            shutil.rmtree(folder)


class Since(ShowCase):
    OLDER = CROSSING_REPORT.replace("T00:00:30.000000 1000000000000", "T00:00:29.900000 1500000000000").replace("29.538120", "29.400000")

    def test_changed(self) -> None:
        folder = self.crossing()
        (self.folder / "old.report").write_text(self.OLDER, "ascii")
        (row,) = self.table(folder, "--since", "old.report", "--json", "table.json")
        self.assertEqual((row["change"], row["old_encounter"], row["old_miss_distance_m"]), ("changed", "1", "1500.000000000"))
        self.assertEqual((row["time_change_s"], row["miss_distance_change_m"]), ("0.100000", "-500.000000000"))
        self.assertEqual(json.loads((self.folder / "table.json").read_text("utf-8"))["encounters"][0]["miss_distance_change_m"], -500.0)
        self.assertIn("old.report", (self.folder / "screen.html").read_text("utf-8"))

    def test_went(self) -> None:
        head, _, _ = CROSSING_REPORT.partition("ENCOUNTER")
        folder = self.crossing(head + "END\n")
        (self.folder / "old.report").write_text(self.OLDER, "ascii")
        (row,) = self.table(folder, "--since", "old.report")
        self.assertEqual((row["encounter"], row["change"], row["change_cause"], row["object_1_name"]), ("", "went", "distance", "SAT A"))
        self.assertEqual((row["miss_distance_m"], row["old_miss_distance_m"]), ("", "1500.000000000"))
        data = PageText((self.folder / "screen.html").read_text("utf-8")).data
        self.assertEqual(data["went"]["miss"], [1_500_000_000_000])

    def test_an_older_report_that_is_cut(self) -> None:
        folder = self.crossing()
        (self.folder / "old.report").write_text(self.OLDER[:-4], "ascii")
        self.refused(3, "old.report: line 14: ", folder, "--since", "old.report")


class Refused(ShowCase):
    def test_reports(self) -> None:
        for text, line in ((CROSSING_REPORT[:-4], 14), (CROSSING_REPORT.replace("REPORT 1", "REPORT 9"), 1), ("", 1)):
            folder = self.crossing(text)
            self.refused(3, f"screen.report: line {line}: ", folder)
            for path in sorted(folder.iterdir()):
                path.unlink()
            folder.rmdir()

    def test_another_folder(self) -> None:
        folder = self.crossing()
        (folder / "b.oem").rename(folder / "c.oem")
        self.refused(3, "screen.report: line 9: ", folder)
        (folder / "c.oem").rename(folder / "b.oem")
        path = folder / "b.oem"
        text = path.read_text("ascii")
        for old, line in (("2025-002A", 10), ("SAT B", 11)):
            path.write_text(text.replace(old, "ANOTHER"), "ascii")
            self.refused(3, f"screen.report: line {line}: ", folder)
        path.write_text(text.replace("UTC", "TAI"), "ascii")
        self.refused(3, "b.oem: line 9: TimeSystem", folder)
        path.write_text(text.replace("EME2000", "GCRF"), "ascii")
        self.refused(3, "b.oem: line 0: MixedFrames", folder)
        path.unlink()
        self.refused(3, "screen.report: line 9: ", folder)

    def test_messages(self) -> None:
        folder = self.crossing()
        path = folder / "000001.cdm"
        path.write_text(CROSSING_MESSAGE.replace("1000.000000000", "1000.000000001"), "ascii")
        self.refused(3, "000001.cdm: line 0: ", folder)
        path.unlink()
        self.refused(3, "screen.report: line 12: ", folder)

    def test_states_lack(self) -> None:
        folder = self.crossing()
        path = folder / "a.oem"
        path.write_text(path.read_text("ascii").replace("STOP_TIME = 2025-01-01T00:01:00", "STOP_TIME = 2025-01-01T00:00:30"), "ascii")
        self.refused(3, "screen.report: line 12: encounter 1: ", folder)

    def test_a_distance_that_is_not_the_drawn_one(self) -> None:
        """A millimetre and a half is let through, more is not: the exact distance is 1,000 m."""
        for nanometres, status in ((1_000_001_499_000, 0), (1_000_001_501_000, 1), (999_998_501_000, 0), (999_998_499_000, 1)):
            with self.subTest(nanometres):
                folder = self.crossing(CROSSING_REPORT.replace("1000000000000 CDM", f"{nanometres} NOCOV"))
                if status:
                    self.refused(1, "screen.report: line 12: encounter 1: the drawn ", folder)
                else:
                    self.shown(folder)
                    (self.folder / "screen.html").unlink()
                for path in sorted(folder.iterdir()):
                    path.unlink()
                folder.rmdir()

    def test_usage(self) -> None:
        folder = self.crossing()
        self.refused(2, "")
        for words in (["--most", "-1"], ["--most", "1001"], ["--no-such"], ["--csv", "x", "--json", "./x"], ["more"]):
            self.refused(2, "", folder, *words)
        for name in ("a.oem", "screen.report", "000001.cdm", "../crossing/screen.cert"):
            self.refused(2, "is not written over", folder, "--csv", folder / name)
        (self.folder / "old.report").write_text(CROSSING_REPORT, "ascii")
        self.refused(2, "is not written over", folder, "--since", "old.report", "--json", "old.report")
        self.refused(3, "screen.report: line 0: ", self.folder)

    def test_where_it_cannot_be_written(self) -> None:
        folder = self.crossing()
        self.refused(1, "missing/p.html: ", folder, "--out", "missing/p.html")
        (self.folder / "taken").mkdir()
        self.refused(1, "taken: ", folder, "--out", "taken")
        self.refused(1, "missing/t.csv: ", folder, "--csv", "missing/t.csv")

    def test_help(self) -> None:
        run = self.run_show("--help")
        self.assertEqual((run.returncode, run.stderr), (0, ""))
        for option in ("--results", "--out", "--csv", "--json", "--most", "--since"):
            self.assertIn(option, run.stdout)



class Launcher(FolderCase):
    def test_called_through_a_link(self) -> None:
        link = self.folder / "show-link"
        os.symlink(SHOW, link)
        run = subprocess.run([link, self.crossing()], cwd=self.folder, capture_output=True, text=True, check=False)
        self.assertEqual((run.returncode, run.stdout, run.stderr), (0, "", ""))
        self.assertTrue((self.folder / "screen.html").exists())

    def test_its_status_is_that_of_the_run(self) -> None:
        run = subprocess.run([SHOW, self.folder], cwd=self.folder, capture_output=True, text=True, check=False)
        self.assertEqual((run.returncode, run.stdout), (3, ""))
        self.assertTrue(run.stderr.startswith("show: screen.report: line 0: "))


if __name__ == "__main__":
    unittest.main()
