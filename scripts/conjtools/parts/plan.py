"""The plan of a run: its parts with their names, and the stamps of the ephemerides that it is for. It is a file of the results."""

from __future__ import annotations

import json
from collections.abc import Mapping
from dataclasses import dataclass
from pathlib import Path
from typing import Any

from conjtools.epochs import epoch_text, read_written_epoch
from conjtools.faults import RunFault
from conjtools.parts.settings import Settings, read_settings
from conjtools.parts.stamps import Stamp
from conjtools.report import Window

PLAN, STAMPS = "plan.json", "stamps.json"
PARTS, WHOLE, LATEST = "parts", "whole", "latest"
RESULT, REFUSED = "result", "refused"
SCREENED, CHECKED = "screened", "checked"
JOINED, PAGE = "joined", "screen.html"
KEY_DIGITS = 16


@dataclass(frozen=True)
class Part:
    """A part: its name, which says its place and what it is made of, and its window."""

    name: str
    window: Window


@dataclass(frozen=True)
class Plan:
    """What is asked, the parts in order of time, and the name of the joined results, which says of which parts they are."""

    told: Mapping[str, object]
    settings: Settings
    parts: tuple[Part, ...]
    whole: str

    @property
    def results(self) -> Path:
        """The folder of the results."""
        return Path(self.settings.results)

    def part(self, name: str) -> Part:
        """The part with a name."""
        for part in self.parts:
            if part.name == name:
                return part
        raise RunFault(f"{name}: no such part in the plan; the ephemerides changed, run again")

    def place(self, part: Part) -> str:
        """Which part it is, in words."""
        return f"part {self.parts.index(part) + 1} of {len(self.parts)}"


def folder_of(results: Path, part: str) -> Path:
    """The folder of a part."""
    return results / PARTS / part


def plan_text(told: Mapping[str, object], parts: tuple[Part, ...], whole: str) -> str:
    """The text of a plan."""
    listed = [{"name": part.name, "from": epoch_text(part.window.first), "to": epoch_text(part.window.last)} for part in parts]
    return json.dumps({"settings": told, "parts": listed, "whole": whole}, indent=1) + "\n"


def stamps_text(stamps: Mapping[str, Stamp]) -> str:
    """The text of the stamps."""
    return json.dumps(stamps) + "\n"


def read_plan(path: Path) -> Plan:
    """The plan of the last survey."""
    content = read_json(path)
    told = content["settings"]
    parts = tuple(
        Part(part["name"], Window(read_written_epoch(part["from"]), read_written_epoch(part["to"]))) for part in content["parts"]
    )
    return Plan(told, read_settings(told, ""), parts, content["whole"])


def read_stamps(plan: Path) -> dict[str, Stamp]:
    """The stamps that stand beside a plan."""
    return {name: (told[0], told[1], told[2], told[3]) for name, told in read_json(plan.with_name(STAMPS)).items()}


def read_json(path: Path) -> dict[str, Any]:
    """What a file of the results says."""
    try:
        return dict(json.loads(path.read_bytes()))
    except OSError as error:
        raise RunFault(f"{path}: {error.strerror}") from None
    except ValueError:
        raise RunFault(f"{path}: not whole; run again") from None
