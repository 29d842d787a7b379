"""Loads that are dear to read. Each is `NAME(folder, seed, size)`, the same for the same seed and size."""

from __future__ import annotations

import random
from pathlib import Path

from conjtools.loads.texts import HEADER, KM, LARGEST_FILE, MINUTE, SECOND, covariances, epoch, matrix, metadata, put, resting

ONE_OBJECT = resting("LONE", (7000 * KM, 0, 0), MINUTE)
DIGITS = "0123456789ABCDEFGHIJKLMNOPQRSTUV"
LONGEST_FIELD = 1_000_000
LARGEST_EXPONENT = 9_999
OBJECTS_OF_NODES = 32


def line_ends(folder: Path, seed: int, size: int) -> None:
    """One object, and behind it so many bytes of line ends alone, some of them with a carriage return."""
    draw = random.Random(seed)
    text = bytearray(ONE_OBJECT.encode("ascii"))
    while len(text) < size:
        text += b"\n" * draw.randrange(1, 65_536) if draw.randrange(16) else b"\r\n"
    (folder / "a.oem").write_bytes(text[: size - 1] + b"\n")


def long_comments(folder: Path, seed: int, size: int) -> None:
    """One object, and behind it comments of any bytes, each as long as what is left of the size allows or shorter."""
    draw = random.Random(seed)
    mark, end = b"COMMENT ", b"\n"
    left = size - len(ONE_OBJECT)
    with open(folder / "a.oem", "wb") as file:
        file.write(ONE_OBJECT.encode("ascii"))
        while left > len(mark + end):
            count = min(left - len(mark + end), draw.choice((1, 80, 65_536, LARGEST_FILE)))
            file.write(mark + draw.randbytes(count).replace(b"\n", b" ") + end)
            left -= len(mark + end) + count


def late_fault(folder: Path, seed: int, size: int) -> None:
    """One object, behind it so many bytes of comments of one byte, and in the last line of all a byte that is not printable."""
    draw = random.Random(seed)
    comment = b"COMMENT %c\n" % draw.randrange(33, 127)
    with open(folder / "a.oem", "wb") as file:
        file.write(ONE_OBJECT.encode("ascii"))
        file.write(comment * ((size - len(ONE_OBJECT)) // len(comment)))
        file.write(b"\x01\n")


def matrices_alone(folder: Path, seed: int, size: int) -> None:
    """Three objects within two kilometres for a minute, whose files of so many bytes are filled with the shortest matrices that are kept."""
    draw = random.Random(seed)
    for number in range(3):
        head = resting(f"MATRICES {number}", ((7000 + number) * KM, 0, 0), MINUTE) + "COVARIANCE_START\n"
        left = size - len(head) - len("COVARIANCE_STOP\n")
        with open(folder / f"{number}.oem", "w", encoding="ascii", newline="\n") as file:
            file.write(head)
            while left > 0:
                rows = "".join(" ".join(str(draw.randrange(10)) for _ in range(row)) + "\n" for row in range(1, 7))
                one = f"EPOCH=2025-001T00:00:{draw.randrange(60):02}\nCOV_REF_FRAME=RTN\n{rows}"
                count = min(max(left // len(one), 1), 4096)
                file.write(one * count)
                left -= len(one) * count
            file.write("COVARIANCE_STOP\n")


def many_nodes(folder: Path, seed: int, size: int) -> None:
    """One object of so many nodes, one each half second, in the shortest rows."""
    put_half_seconds(folder / "a.oem", "NODES", random.Random(seed), size)


def nodes_outside(folder: Path, seed: int, size: int) -> None:
    """Objects of so many nodes together, one each half second, of which a window of a minute needs few."""
    draw = random.Random(seed)
    for number in range(OBJECTS_OF_NODES):
        put_half_seconds(folder / f"{number:02}.oem", f"NODES {number}", draw, max(size // OBJECTS_OF_NODES, 2))


def put_half_seconds(path: Path, name: str, draw: random.Random, count: int) -> None:
    """Writes an object at rest of so many nodes, one each half second."""
    place = " ".join(str(draw.randrange(10)) for _ in range(3)) + " 0 0 0\n"
    last = (count - 1) * SECOND // 2
    with open(path, "w", encoding="ascii", newline="\n") as file:
        file.write(HEADER + metadata(name, 0, last))
        for minute in range(-(-count // 120)):
            front = f"2025-{minute // 1440 + 1:03}T{minute // 60 % 24:02}:{minute % 60:02}:"
            rows = (f"{front}{half // 2:02}{'.5' * (half % 2)} {place}" for half in range(min(120, count - 120 * minute)))
            file.writelines(rows)


def small_files(folder: Path, seed: int, size: int) -> None:
    """So many objects of two nodes, each 20 kilometres further out than another."""
    draw = random.Random(seed)
    ranks = draw.sample(range(size), size)
    for number, rank in enumerate(ranks):
        put(folder, f"{number:04}.oem", resting(f"SMALL {number}", ((7000 + 20 * rank) * KM, 0, 0), MINUTE))


def long_forms_of(draw: random.Random, digit: int, power: int, most: int) -> str:
    """A digit times a power of ten, written in about so many bytes or fewer: with zeros, and with an exponent that takes them back."""
    zeros = draw.randrange(most)
    shift = min(zeros, LARGEST_EXPONENT - power - 1)
    return draw.choice(
        (
            f"{'0' * zeros}{digit}{'0' * power}.",
            f"+{digit}{'0' * power}.{'0' * zeros}",
            f"{digit}{'0' * (shift + power)}E-{shift}",
            f"{'0' * zeros}.{'0' * shift}{digit}e+{shift + power + 1}",
        )
    )


def long_numbers(folder: Path, seed: int, size: int) -> None:
    """One object at 7,000 km, in a file of about so many bytes: each row a second, each number written with up to a million digits."""
    draw = random.Random(seed)
    rows: list[str] = []
    left = size
    while left > 0 or len(rows) < 2:
        most = min(LONGEST_FIELD, draw.choice((100, 10_000, LONGEST_FIELD)), max(left, 10))
        nothing = [draw.choice((f"-{'0' * draw.randrange(1, most)}", "0E9999", "-0.0E-9999", "0.0e0000")) for _ in range(5)]
        row = f" {long_forms_of(draw, 7, 3, most)} {' '.join(nothing)}\n"
        left -= len(row)
        rows.append(row)
    last = (len(rows) - 1) * SECOND
    with open(folder / "a.oem", "w", encoding="ascii", newline="\n") as file:
        file.write(HEADER + metadata("NUMBERS", 0, last))
        file.writelines(f"{epoch(number * SECOND)}{row}" for number, row in enumerate(rows))


def long_epochs(folder: Path, seed: int, size: int) -> None:
    """One object at 7,000 km, in a file of about so many bytes: each row a second, each epoch with up to a million zeros behind its point."""
    draw = random.Random(seed)
    counts: list[int] = []
    left = size
    while left > 0 or len(counts) < 2:
        counts.append(draw.randrange(1, min(LONGEST_FIELD, draw.choice((10, 10_000, LONGEST_FIELD)), max(left, 10))))
        left -= counts[-1] + 36
    last = (len(counts) - 1) * SECOND
    with open(folder / "a.oem", "w", encoding="ascii", newline="\n") as file:
        file.write(HEADER + metadata("EPOCHS", 0, last))
        file.writelines(f"{epoch(number * SECOND)}.{'0' * count}Z 7000 0 0 0 0 0\n" for number, count in enumerate(counts))


def sizes_alone(folder: Path, seed: int, size: int) -> None:
    """Two objects, and a file of sizes of so many bytes: short rows, each for another designator, in no order."""
    draw = random.Random(seed)
    for name, x in (("a", 7000), ("b", 7100)):
        put(folder, f"{name}.oem", resting(f"SIZED {name}", (x * KM, 0, 0), MINUTE))
    step, shift = draw.randrange(1, 1 << 25, 2), draw.randrange(1 << 25)
    halves = [DIGITS[half // 32] + DIGITS[half % 32] for half in range(1024)]
    with open(folder / "sizes.txt", "w", encoding="ascii", newline="\n") as file:
        for row in range(size // 8):
            number = (row * step + shift) % (1 << 25)
            file.write(f"{halves[number >> 15]}{halves[number >> 5 & 1023]}{DIGITS[number & 31]} 1\n")


def updated_files(folder: Path, seed: int, size: int) -> None:
    """So many objects of two nodes, each 20 kilometres further out than another, and of each an update that puts it beyond all of them."""
    draw = random.Random(seed)
    for number, rank in enumerate(draw.sample(range(size), size)):
        for end, beyond in (("", 0), (".new", size)):
            text = resting(f"UPDATED {number}", ((7000 + 20 * (rank + beyond)) * KM, 0, 0), MINUTE)
            put(folder, f"{number:04}.oem{end}", text)


def crowded_updates(folder: Path, seed: int, size: int) -> None:
    """Two objects among so many empty updates, with long names, of files that are not there."""
    draw = random.Random(seed)
    for name, x in (("a", 7000), ("b", 7100)):
        put(folder, f"{name}.oem", resting(f"FEW {name}", (x * KM, 0, 0), MINUTE))
    filler = draw.choice(("x", "y", " ")) * 240
    for number in draw.sample(range(size), size):
        (folder / f"{number:06}{filler}.oem.new").touch()


def crowded_folder(folder: Path, seed: int, size: int) -> None:
    """Two objects among so many empty files with long names that no command takes."""
    draw = random.Random(seed)
    for name, x in (("a", 7000), ("b", 7100)):
        put(folder, f"{name}.oem", resting(f"FEW {name}", (x * KM, 0, 0), MINUTE))
    filler = draw.choice(("x", "y", " ")) * 240
    for number in draw.sample(range(size), size):
        (folder / f"{number:06}{filler}.txt").touch()


def many_matrices(folder: Path, seed: int, size: int) -> None:
    """Two objects at rest, a kilometre apart. One has a matrix in each 85 bytes of its file of so many, at epochs in no order. The other, in a file
    a third as large, has segments of a second with a second between them: each is an encounter, at which a matrix of the first is told."""
    draw = random.Random(seed)
    left, last = size // 3, 0
    with open(folder / "b.oem", "w", encoding="ascii", newline="\n") as file:
        file.write(HEADER)
        while left > 0:
            text = resting_second("B", last) + covariances([matrix(draw, last)])
            file.write(text)
            left -= len(text)
            last += 2 * SECOND
    last -= SECOND
    text = resting("A", (7000 * KM, 0, 0), last) + "COVARIANCE_START\n"
    with open(folder / "a.oem", "w", encoding="ascii", newline="\n") as file:
        file.write(text)
        left = size - len(text)
        for _ in range(left // len(matrix(draw, 0))):
            file.write(matrix(draw, draw.randrange(last // SECOND) * SECOND))
        file.write("COVARIANCE_STOP\n")


def resting_second(name: str, first: int) -> str:
    """A segment of a second, of an object at rest at 7,001 km."""
    rows = "".join(f"{epoch(time)} 7001 0 0 0 0 0\n" for time in (first, first + SECOND))
    return metadata(name, first, first + SECOND) + rows


def long_object_name(folder: Path, seed: int, size: int) -> None:
    """Two objects at rest, a kilometre apart, one of them with a name of so many bytes, the other with 200 segments of a second: 200 messages."""
    draw = random.Random(seed)
    name = "".join(draw.choice("ABCDEFGHIJKLMNOPQRSTUVWXYZ ") for _ in range(64)).strip() + "N" * size
    segments = (resting_second("B", 2 * number * SECOND) + covariances([matrix(draw, 0)]) for number in range(200))
    put(folder, "b.oem", HEADER + "".join(segments))
    put(folder, "a.oem", resting(name[:size], (7000 * KM, 0, 0), 400 * SECOND, "2025-001A") + covariances([matrix(draw, 0)]))
