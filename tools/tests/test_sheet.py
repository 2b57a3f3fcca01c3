"""Scenes of tables in CSV."""
import json
import unittest

from common import TOOLS, InAFolder
from sheets_here import flat, spans

MAKE = TOOLS / "sheet.py"


class FromCsv(InAFolder):
    def setUp(self):
        super().setUp()
        for name in ("A/1", "A/2", "B/left", "B/right", "sky"):
            self.write("cels/%s.png" % name, flat(4, 3, (9, 9, 9, 255)))

    def make(self, text):
        self.write("shot.csv", text)
        self.assertEqual(self.runs(MAKE, "shot.csv", "cels", "out/shot.json").count("\n"), 1)
        scene = json.loads((self.folder / "out/shot.json").read_text())
        files = [it["drawings"] for it in scene["levels"]]
        return [[(begin, end, files[level][drawing]) for begin, end, level, drawing in spans(column)]
                for column in scene["sheets"][0]["columns"]]

    def refused(self, part, text):
        self.write("shot.csv", text)
        self.refuses(part, MAKE, "shot.csv", "cels", "out/shot.json")
        self.assertFalse((self.folder / "out").exists())

    def test_rows_go_down_and_columns_across(self):
        wanted = [[(1, 6, "back.sky.xrl")], [(2, 3, "A.0001.xrl"), (4, 4, "A.0002.xrl"), (6, 6, "A.0001.xrl")],
                  [(1, 2, "B.left.xrl"), (3, 4, "B.right.xrl")]]
        lines = ["back,A,B", "sky,,left", ",1,", ",,right", ",2", ",x,X", ",1,"]
        self.assertEqual(self.make("\n".join(lines)), wanted)
        self.assertEqual(self.make("\ufeff" + "\r\n".join(lines) + "\r\n"), wanted)
        self.assertEqual(self.make("\n".join(lines).replace(",", ";")), wanted)
        self.assertEqual(self.make("\n".join(lines).replace(",", "\t")), wanted)

    def test_rows_may_be_numbered(self):
        wanted = [[(1, 1, "A.0001.xrl"), (3, 4, "A.0002.xrl")]]
        for head in ("", "row", "Frame"):
            self.assertEqual(self.make(head + ",A\n1,1\n2,\u00d7\n3,0002\n004,\n"), wanted)

    def test_a_blank_line_of_one_column_is_a_hold(self):
        self.assertEqual(self.make("A\n1\n\n2\n\n"), [[(1, 2, "A.0001.xrl"), (3, 4, "A.0002.xrl")]])

    def test_a_hundred_rows(self):
        rows = ["%d" % (i // 4 % 2 + 1) if i % 4 == 0 else "" for i in range(100)]
        wanted = [(4 * i + 1, 4 * i + 4, "A.000%d.xrl" % (i % 2 + 1)) for i in range(25)]
        self.assertEqual(self.make("A,B\n" + "".join(row + ",\n" for row in rows)), [wanted, []])

    def test_quoted_names(self):
        self.write("cels/C/one, two.png", flat(1, 1, (1, 1, 1, 255)))
        self.assertEqual(self.folder_told('"C","A"\n"one, two",1\n'), 1)

    def folder_told(self, text):
        """How many lines are told beside what was made."""
        self.write("shot.csv", text)
        return self.runs(MAKE, "shot.csv", "cels", "out/shot.json").count("\n") - 1

    def test_broken_tables_are_told(self):
        for part, text in [
            ("the first line has no names of columns", ""),
            ("the first line has no names of columns", ",,\n1,2,3\n"),
            ("the sheet has 0 rows", "A,B\n"),
            ("column 2 has no name", "A,,B\n1,1,1\n"),
            ("there are two columns A", "A,A\n1,1\n"),
            ("row 2 has 3 cells, and there are 2 columns", "A,B\n1,left\n1,left,1\n"),
            ("row 2 is numbered 3", "row,A\n1,1\n3,2\n"),
            ("row 1 is numbered nothing", "row,A\n,1\n"),
            ("drawing 3 of column A: no picture in cels", "A\n1\n3\n"),
            ("shot.csv: unexpected end of data", 'A,B\n"1,left\n'),
            ("byte 2 is no UTF-8", b"A\n\xff\n"),
            ("the sheet has 1025 columns", ",".join("c%d" % i for i in range(1025)) + "\n\n"),
            ("the sheet has 10000 rows", "A\n1\n" + "\n" * 9999),
        ]:
            with self.subTest(part):
                self.refused(part, text)


if __name__ == "__main__":
    unittest.main()
