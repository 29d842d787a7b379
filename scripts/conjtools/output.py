"""Results are written whole: to a file beside their place, which is then renamed."""

from __future__ import annotations

import os
from collections.abc import Mapping
from pathlib import Path

from conjtools.faults import RunFault


def write_all(texts: Mapping[Path, str]) -> None:
    """Writes each text to its file, none before all stand beside their places; RunFault where one cannot be written."""
    parts = {path: path.with_name(f".{path.name}.part") for path in texts}
    path = Path()
    try:
        try:
            for path, text in texts.items():
                with open(parts[path], "w", encoding="utf-8", newline="") as file:
                    file.write(text)
            for path, part in parts.items():
                os.replace(part, path)
        finally:
            for part in parts.values():
                part.unlink(missing_ok=True)
    except OSError as error:
        raise RunFault(f"{path}: {error.strerror}") from None
