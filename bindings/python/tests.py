"""The entries from Python: the sample as a sheet and as a lent plane, document 01's refusals and value splits."""

import unittest
from pathlib import Path

from fezandimo import LentPlane, Reader, Refusal

ORACLE = Path(__file__).parents[2] / "oracle" / "samples"


class Entries(unittest.TestCase):
    def setUp(self):
        self.reader = Reader()

    def refused(self, call, *numbers):
        with self.assertRaises(Refusal) as raised:
            call()
        refusal = raised.exception
        self.assertEqual((refusal.n, refusal.a, refusal.b), numbers)

    def test_sample(self):
        record = self.reader.read_sheet((ORACLE / "fare.txt").read_bytes())
        self.assertEqual("\n".join(record.lines()) + "\n", (ORACLE / "fare.expected").read_text())

    def test_sample_as_a_lent_plane(self):
        record = self.reader.read_sheet((ORACLE / "fare.txt").read_bytes())
        texts = [b"U", b"Zone", b"Fare", b"1", b'"A"', b"120"]
        offsets = [sum(map(len, texts[:index])) for index in range(len(texts))]
        plane = LentPlane(
            [4, 4, 4],
            [0, 0, 1, 0, 3, 3, 5, 3, 0, 0, 1, 0],
            [0, 1, 0, 2, 0, 0, 0, 0, 3, 4, 0, 5],
            offsets,
            list(map(len, texts)),
            b"".join(texts),
        )
        self.assertEqual(self.reader.read_lent_plane(plane), record)
        self.refused(lambda: self.reader.read_lent_plane(plane._replace(kinds=[0])), 26, 0, 0)

    def test_no_plane(self):
        self.refused(lambda: self.reader.read_lent_plane(LentPlane([], [], [], [], [], b"")), 8, 0, 0)

    def test_refusals(self):
        self.refused(lambda: self.reader.read_sheet(b""), 3, 9484, 0)
        self.refused(lambda: self.reader.read_sheet("┌".encode()), 3, 9573, 0)
        self.refused(lambda: self.reader.read_sheet("┌╥┐".encode()), 3, 9580, 0)
        self.refused(lambda: self.reader.read_sheet(b"a\xff"), 1, 1, 0)

    def test_a_record_longer_than_the_first_output_slice(self):
        def line(begin, fill, cross, end):
            return begin + fill * 4 + cross + fill * 90 + end

        rules = [f"│ {rule:2} ║ {'é' * 88} │" for rule in range(1, 31)]
        head = [line("┌", "─", "╥", "┐"), f"│ U  ║ {'Fare':88} │", line("╞", "═", "╬", "╡")]
        body = f"\n{line('├', '─', '╫', '┤')}\n".join(rules)
        sheet = "\n".join([*head, body, line("└", "─", "╨", "┘")])
        record = self.reader.read_sheet(sheet.encode())
        self.assertGreater(len(record), 4096)
        self.assertEqual((record.word(0), record.word(6)), (len(record), 30))

    def test_value_splits(self):
        split = self.reader.split_values
        self.assertEqual(split(b"`Yes`, No"), (b"Yes, No", b"Yes"))
        self.assertEqual(split(b"***"), (b"*", b"*"))
        self.assertEqual(split(b"*"), (b"", b""))
        self.assertEqual(split(b"*a*, *a*b"), (b"a, ab", b"a"))
        self.assertEqual(split(b"a, b"), (b"a, b", None))
        self.assertEqual(split(b""), (b"", None))
        self.refused(lambda: split(b"a\xff"), 1, 1, 0)


if __name__ == "__main__":
    unittest.main()
