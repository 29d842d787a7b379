"""The ephemerides of the objects: how much of a file is read to see whose it is."""

from __future__ import annotations

import unittest

from tests.support import FolderCase, need_numpy, oem

need_numpy()

from conjtools.join.objects import HEAD_BYTES, head_of, joined_covered  # noqa: E402
from conjtools.oem import read_first_metadata  # noqa: E402

START, STOP = "2025-01-01T00:00:00", "2025-01-02T00:00:00"


class Heads(FolderCase):
    def test_of_a_long_file_the_whole_lines_of_its_head(self) -> None:
        rows = [f"2025-01-01T{minute // 60:02}:{minute % 60:02}:00 7000.000000000001 0 0 0 7.5 0" for minute in range(1440)]
        path = self.folder / "a.oem"
        path.write_text(oem(rows, START, STOP), "ascii")
        head = head_of(path)
        self.assertTrue(HEAD_BYTES - 100 < len(head) <= HEAD_BYTES < path.stat().st_size)
        self.assertTrue(head.endswith(b" 7.5 0\n"))
        metadata = read_first_metadata("a.oem", head)
        self.assertEqual((metadata.name, metadata.designator), ("SAT A", "2025-001A"))

    def test_the_whole_file_where_its_metadata_ends_late(self) -> None:
        path = self.folder / "a.oem"
        text = oem([f"{START} 7000 0 0 0 7.5 0"], START, STOP, more="COMMENT long\n" * 6000)
        path.write_text(text, "ascii")
        self.assertGreater(text.index("META_STOP"), HEAD_BYTES)
        self.assertEqual(head_of(path), text.encode())
        self.assertEqual(read_first_metadata("a.oem", head_of(path)).name, "SAT A")


class Covered(unittest.TestCase):
    def test_spans_across_borders(self) -> None:
        self.assertIsNone(joined_covered([None, None]))
        self.assertEqual(joined_covered([((1, 5), (8, 9)), ((10, 19),), ((20, 22), (24, 25)), (), ((31, 32),)]), ((1, 5), (8, 22), (24, 25), (31, 32)))
        self.assertEqual(joined_covered([(), ((1, 5),), (), ()]), ((1, 5),))
        self.assertEqual(joined_covered([(), ()]), ())
        # A tick between two keeps them apart.
        self.assertEqual(joined_covered([((1, 5),), ((7, 9),)]), ((1, 5), (7, 9)))


if __name__ == "__main__":
    unittest.main()
