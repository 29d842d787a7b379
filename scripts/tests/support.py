"""What several tests need: the samples with the reports that docs/GUIDE.md and `conj` give for them, small ephemerides, and numpy or a word
that it is missing."""

from __future__ import annotations

import importlib.util
import re
import shutil
import tempfile
import unittest
from pathlib import Path

ROOT = Path(__file__).resolve().parents[2]
SAMPLES = ROOT / "samples"

CROSSING_HEAD = """CONJ-REPORT 1
WINDOW 2025-01-01T00:00:00.000000 2025-01-01T00:01:00.000000
THRESHOLD 5000000000000
"""
CROSSING_OBJECTS = """OBJECT 1
FILE a.oem
ID 2025-001A
NAME SAT A
OBJECT 2
FILE b.oem
ID 2025-002A
NAME SAT B
"""
CROSSING_ENCOUNTER = """ENCOUNTER 1 1 2 NEAR 2025-01-01T00:00:30.000000 1000000000000 CDM
SPAN NEAR 2025-01-01T00:00:29.538120 2025-01-01T00:00:30.461880
"""
CROSSING_REPORT = f"{CROSSING_HEAD}{CROSSING_OBJECTS}{CROSSING_ENCOUNTER}END\n"
SIZED_REPORT = f"""{CROSSING_HEAD}OBJECT 1
FILE a.oem
ID 2025-001A
NAME SAT A
SIZE 1500000000
OBJECT 2
FILE b.oem
ID 2025-002A
NAME SAT B
SIZE 750000000
ENCOUNTER 1 1 2 NEAR 2025-01-01T00:00:30.000000 1000000000000 CDM
SPAN NEAR 2025-01-01T00:00:29.537904 2025-01-01T00:00:30.462096
END
"""
CATALOGUE_HEAD = """CONJ-REPORT 1
WINDOW 2025-01-01T00:00:00.000000 2025-01-01T00:30:00.000000
THRESHOLD 5000000000000
"""
CATALOGUE_ENCOUNTERS = """ENCOUNTER 1 1 7 NEAR 2025-01-01T00:14:20.400009 1200000242980 NOCOV
SPAN NEAR 2025-01-01T00:14:20.051506 2025-01-01T00:14:20.748495
ENCOUNTER 2 3 8 NEAR 2025-01-01T00:08:47.249910 4300000380337 NOCOV
SPAN NEAR 2025-01-01T00:08:47.034431 2025-01-01T00:08:47.465569
ENCOUNTER 3 10 11 NEAR 2025-01-01T00:13:00.000000 2999999007728 NOCOV
SPAN NEAR 2025-01-01T00:00:00.000000 2025-01-01T00:30:00.000000
ENCOUNTER 4 22 26 NEAR 2025-01-01T00:00:00.000000 4661569771985 NOCOV
SPAN NEAR 2025-01-01T00:00:00.000000 2025-01-01T00:15:39.109497
SPAN UNDECIDED 2025-01-01T00:15:39.109498 2025-01-01T00:15:39.111328
"""
USUAL_REPORT = """CONJ-REPORT 1
WINDOW 2025-02-14T12:00:00.000000 2025-02-14T12:10:00.000000
THRESHOLD 5000000000000
OBJECT 1
FILE imager.oem
ID 2099-031A
NAME LAND IMAGER 3
OBJECT 2
FILE relay.oem
ID 2099-052B
NAME RELAY 7
ENCOUNTER 1 1 2 NEAR 2025-02-14T12:05:12.500039 1800000355034 CDM
SPAN NEAR 2025-02-14T12:05:12.151830 2025-02-14T12:05:12.848171
END
"""
RESTING_REPORT = f"""{CROSSING_HEAD}{CROSSING_OBJECTS}ENCOUNTER 1 1 2 NEAR 2025-01-01T00:00:00.000000 5000000000000 NOCOV
SPAN NEAR 2025-01-01T00:00:00.000000 2025-01-01T00:01:00.000000
END
"""
COVARIANCE_KEYS = (
    "CR_R", "CT_R", "CT_T", "CN_R", "CN_T", "CN_N", "CRDOT_R", "CRDOT_T", "CRDOT_N", "CRDOT_RDOT", "CTDOT_R", "CTDOT_T", "CTDOT_N",
    "CTDOT_RDOT", "CTDOT_TDOT", "CNDOT_R", "CNDOT_T", "CNDOT_N", "CNDOT_RDOT", "CNDOT_TDOT", "CNDOT_NDOT",
)  # fmt: skip


def need_numpy() -> None:
    """Skips the tests of a module where numpy is missing."""
    if importlib.util.find_spec("numpy") is None:
        raise unittest.SkipTest("numpy is missing: apt-get install python3-numpy")


def catalogue_report() -> str:
    """The report of samples/catalogue: its objects by their files, its encounters as docs/GUIDE.md has them."""
    objects = ""
    for number, path in enumerate(sorted((SAMPLES / "catalogue").glob("*.oem")), 1):
        text = path.read_text("ascii")
        keys = dict(re.findall(r"^(OBJECT_NAME|OBJECT_ID) = (.*)$", text, re.MULTILINE))
        objects += f"OBJECT {number}\nFILE {path.name}\nID {keys['OBJECT_ID']}\nNAME {keys['OBJECT_NAME']}\n"
    return f"{CATALOGUE_HEAD}{objects}{CATALOGUE_ENCOUNTERS}END\n"


def message_side(place: int, designator: str, name: str, file: str) -> str:
    """The lines of a message for one object. Place, rate and covariance are not read by the scripts."""
    values = "".join(f"{key} = 0.0E+00 [m**2]\n" for key in COVARIANCE_KEYS)
    state = "".join(f"{key} = 0.000000000000 [km]\n" for key in ("X", "Y", "Z", "X_DOT", "Y_DOT", "Z_DOT"))
    return (
        f"OBJECT = OBJECT{place}\nOBJECT_DESIGNATOR = {designator}\nCATALOG_NAME = OEM\nOBJECT_NAME = {name}\n"
        f"INTERNATIONAL_DESIGNATOR = {designator}\nEPHEMERIS_NAME = {file}\nCOVARIANCE_METHOD = CALCULATED\nMANEUVERABLE = N/A\n"
        f"REF_FRAME = EME2000\n{state}COMMENT COVARIANCE EPOCH 2025-01-01T00:00:00.000000\n{values}"
    )


def message(number: int, closest: str, metres: str, first: tuple[str, str, str], second: tuple[str, str, str]) -> str:
    """A message of an encounter; of each object its designator, name and file."""
    return (
        f"CCSDS_CDM_VERS = 1.0\nCREATION_DATE = 2025-01-02T00:00:00.000000\nORIGINATOR = CONJ\nMESSAGE_ID = CONJ_{number:06}\n"
        f"TCA = {closest}\nMISS_DISTANCE = {metres} [m]\nSTART_SCREEN_PERIOD = 2025-01-01T00:00:00.000000\n"
        f"STOP_SCREEN_PERIOD = 2025-01-01T00:01:00.000000\n{message_side(1, *first)}{message_side(2, *second)}"
    )


SAT_A, SAT_B = ("2025-001A", "SAT A", "a.oem"), ("2025-002A", "SAT B", "b.oem")
CROSSING_MESSAGE = message(1, "2025-01-01T00:00:30.000000", "1000.000000000", SAT_A, SAT_B)
# What a message of the crossing tells behind its miss distance of the relative state.
RELATIVE_STATE = """RELATIVE_POSITION_R = 1000.000000000 [m]
RELATIVE_POSITION_T = 0.000000000 [m]
RELATIVE_POSITION_N = 0.000000000 [m]
RELATIVE_VELOCITY_R = 0.000000000 [m/s]
RELATIVE_VELOCITY_T = -7500.000000000 [m/s]
RELATIVE_VELOCITY_N = 7500.000000000 [m/s]
"""
USUAL_MESSAGE = message(
    1, "2025-02-14T12:05:12.500039", "1800.000355034", ("2099-031A", "LAND IMAGER 3", "imager.oem"), ("2099-052B", "RELAY 7", "relay.oem")
)


class FolderCase(unittest.TestCase):
    """Tests with a folder of their own."""

    def setUp(self) -> None:
        holder = tempfile.TemporaryDirectory()
        self.addCleanup(holder.cleanup)
        self.folder = Path(holder.name)

    def sample(self, name: str, report: str, messages: dict[str, str] | None = None) -> Path:
        """A copy of a folder of samples with a report and messages."""
        folder = self.folder / name
        folder.mkdir()
        for path in (SAMPLES / name).glob("*.oem"):
            shutil.copy(path, folder)
        (folder / "screen.report").write_bytes(report.encode("ascii"))
        for file, text in (messages or {}).items():
            (folder / file).write_bytes(text.encode("ascii"))
        return folder

    def crossing(self, report: str = CROSSING_REPORT) -> Path:
        """A copy of samples/crossing with its report and its message."""
        return self.sample("crossing", report, {"000001.cdm": CROSSING_MESSAGE})


def oem(rows: list[str], start: str, stop: str, name: str = "SAT A", designator: str = "2025-001A", more: str = "") -> str:
    """A small ephemeris of one segment."""
    head = "CCSDS_OEM_VERS = 2.0\nCREATION_DATE = 2025-01-01T00:00:00\nORIGINATOR = TEST\n"
    return head + segment(rows, start, stop, name, designator, more)


def segment(rows: list[str], start: str, stop: str, name: str = "SAT A", designator: str = "2025-001A", more: str = "") -> str:
    """A segment of a small ephemeris; `more` are further lines of its metadata."""
    return (
        f"META_START\nOBJECT_NAME = {name}\nOBJECT_ID = {designator}\nCENTER_NAME = EARTH\nREF_FRAME = EME2000\nTIME_SYSTEM = UTC\n"
        f"START_TIME = {start}\nSTOP_TIME = {stop}\n{more}INTERPOLATION = HERMITE\nINTERPOLATION_DEGREE = 3\nMETA_STOP\n"
        + "".join(f"{row}\n" for row in rows)
    )
