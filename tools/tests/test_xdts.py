"""Scenes of digital time sheets."""
import json
import unittest

from common import TOOLS, InAFolder
from sheets_here import FIRST_LINE, flat, frame, spans, table, track, xdts

MAKE = TOOLS / "xdts_to_scene.py"
RED, GREEN = (200, 30, 20, 255), (10, 180, 40, 255)


class FromXdts(InAFolder):
    def pictures(self, *names, size=(4, 3)):
        for name in names:
            self.write("cels/%s.png" % name, flat(*size, RED))

    def make(self, text, *options):
        """Makes a scene, and gives it and the lines that were told."""
        self.write("shot.xdts", text)
        ran = self.run_here(MAKE, "shot.xdts", "cels", "out/shot.json", *options)
        self.assertEqual(ran.returncode, 0, ran.stderr)
        return json.loads((self.folder / "out/shot.json").read_text()), ran.stderr.splitlines()

    def refused(self, part, text, *options):
        """The sheet is refused with one line, and nothing is left."""
        self.write("shot.xdts", text)
        self.refuses(part, MAKE, "shot.xdts", "cels", "out/shot.json", *options)
        self.assertFalse((self.folder / "out").exists())

    def test_holds_and_empties_are_those_of_the_sheet(self):
        self.pictures("A/0001", "A/0002")
        scene, told = self.make(xdts(table(12, ["A"], [track(
            0, f2="1", f5="SYMBOL_HYPHEN", f6="2", f8="SYMBOL_NULL_CELL", f10="1")])))
        self.assertEqual(spans(scene["sheets"][0]["columns"][0]), [(3, 6, 0, 0), (7, 8, 0, 1), (11, 12, 0, 0)])
        self.assertEqual(scene["levels"], [{"kind": "colour", "drawings": ["A.0001.xrl", "A.0002.xrl"]}])
        self.assertEqual((scene["format"], scene["camera"], scene["palettes"]), (2, {"w": 4, "h": 3}, []))
        self.assertEqual(told, [])
        self.assertEqual(self.files(), ["cels/A/0001.png", "cels/A/0002.png", "out/A.0001.xrl", "out/A.0002.xrl",
                                        "out/shot.json", "shot.xdts"])

    def test_a_higher_track_lies_in_front(self):
        self.pictures("A/1", "B/1", "C/1")
        scene, _ = self.make(xdts(table(2, ["A", "B", "C"], [track(2, f0="1"), track(0, f0="1"), track(1, f1="1")])))
        files = [scene["levels"][column["cells"][0]["level"]]["drawings"][0] for column in scene["sheets"][0]["columns"]]
        self.assertEqual(files, ["A.0001.xrl", "B.0001.xrl", "C.0001.xrl"])

    def test_a_hundred_rows(self):
        self.pictures(*["run/run_%04d" % (i + 1) for i in range(50)])
        frames = [frame(2 * i, str(i + 1)) for i in reversed(range(50))]
        scene, _ = self.make(xdts(table(100, ["run"], [{"trackNo": 0, "frames": frames}])))
        self.assertEqual(spans(scene["sheets"][0]["columns"][0]), [(2 * i + 1, 2 * i + 2, 0, i) for i in range(50)])

    def test_what_a_scene_has_not_is_told(self):
        self.pictures("A/1", "A/2")
        frames = [frame(0, "1", "other"), frame(1, "SYMBOL_TICK_1"), frame(2, "SYMBOL_TICK_2"),
                  {"frame": 3, "data": [{"id": 7, "values": []}, {"id": 0, "values": ["2"], "options": []}]},
                  frame(4), frame(5, "1")]
        one = table(5, ["A", "B"], [{"trackNo": 0, "frames": frames}], {"fieldId": 3, "tracks": [{}, {}]},
                    {"fieldId": 5, "tracks": [{}]}, {"fieldId": 9})
        scene, told = self.make(xdts(one, {"name": "second"}, header={"cut": "1"}, extra=1))
        self.assertEqual(spans(scene["sheets"][0]["columns"][0]), [(1, 3, 0, 0), (4, 4, 0, 1)])
        said = [line.partition("xdts_to_scene: ")[2] for line in told]
        self.assertEqual(said, [
            "extra of the sheet is left out",
            "header of the sheet is left out",
            "time table 2 (second) is left out: the first one counts",
            "field 3, dialogue, is left out (2 tracks)",
            "field 5, camera work, is left out",
            "field 9, of an unknown kind, is left out",
            "column B has no track, so it is left out",
            "options of an entry is left out",
            "column A, row 1: values behind the first are left out",
            "column A, row 2: SYMBOL_TICK_1 is a mark, and holds the drawing",
            "column A, row 3: SYMBOL_TICK_2 is a mark, and holds the drawing",
            "column A, row 4: the entry of id 7 is left out",
            "column A, row 5: an entry without a value empties the cell",
            "column A, row 6: what stands behind the last row, 5, is left out",
        ])

    def test_a_sheet_as_programs_write_it(self):
        """In one line, with its header, and each track emptied behind its last row."""
        self.pictures("A/A_0001", "A/A_0002")
        scene, told = self.make(FIRST_LINE.replace("\n", "\r\n") + (
            '{"header":{"cut":"3","scene":"1"},"timeTables":[{"duration":6,"fields":[{"fieldId":0,"tracks":[{"frames":['
            '{"data":[{"id":0,"values":["1"]}],"frame":0},{"data":[{"id":0,"values":["SYMBOL_HYPHEN"]}],"frame":1},'
            '{"data":[{"id":0,"values":["2"]}],"frame":3},{"data":[{"id":0,"values":["SYMBOL_NULL_CELL"]}],"frame":6}],'
            '"trackNo":0}]}],"name":"sheet","timeTableHeaders":[{"fieldId":0,"names":["A"]}]}],"version":5}'))
        self.assertEqual(spans(scene["sheets"][0]["columns"][0]), [(1, 3, 0, 0), (4, 6, 0, 1)])
        self.assertEqual(told, ["xdts_to_scene: header of the sheet is left out"])

    def test_a_frame_before_the_first_is_held_there(self):
        self.pictures("A/1", "A/2")
        scene, told = self.make(xdts(table(4, ["A"], [{"trackNo": 0, "frames": [frame(-3, "1"), frame(2, "2")]}])))
        self.assertEqual(spans(scene["sheets"][0]["columns"][0]), [(1, 2, 0, 0), (3, 4, 0, 1)])
        self.assertEqual(len(told), 1)

    def test_the_end_mark_behind_the_last_row_is_nothing(self):
        self.pictures("A/1")
        scene, told = self.make(xdts(table(4, ["A"], [track(0, f0="1", f4="SYMBOL_NULL_CELL")])))
        self.assertEqual((spans(scene["sheets"][0]["columns"][0]), told), ([(1, 4, 0, 0)], []))

    def test_pictures_are_found_by_the_rule(self):
        self.pictures("A_0001", "B/B-02", "C.3", "D0004", "E/x9", "F/single")
        names = ["A", "B", "C", "D", "E", "F"]
        tracks = [track(i, f0=value) for i, value in enumerate(["1", "2", "3", "4", "x9", "single"])]
        scene, told = self.make(xdts(table(1, names, tracks)))
        files = [it["drawings"][0] for it in scene["levels"]]
        self.assertEqual(files, ["A.0001.xrl", "B.0002.xrl", "C.0003.xrl", "D.0004.xrl", "E.x9.xrl", "F.single.xrl"])
        self.assertEqual(told, [])

    def test_one_picture_under_two_names_is_one_drawing(self):
        self.pictures("A/0001")
        scene, _ = self.make(xdts(table(4, ["A"], [track(0, f0="1", f1="01", f2="SYMBOL_NULL_CELL", f3="0001")])))
        self.assertEqual(len(scene["levels"][0]["drawings"]), 1)

    def test_columns_of_one_name_share_a_level(self):
        self.pictures("A/1", "A/2")
        scene, _ = self.make(xdts(table(2, ["A", "A"], [track(0, f0="1"), track(1, f0="2", f1="1")])))
        self.assertEqual(len(scene["levels"]), 1)
        self.assertEqual(spans(scene["sheets"][0]["columns"][1]), [(1, 1, 0, 1), (2, 2, 0, 0)])

    def test_foreign_names_get_legal_ones_and_are_told(self):
        self.pictures("背景/1", "雲/1", "a/1*", "a/1_", "A/1")
        tracks = [track(0, f0="1"), track(1, f0="1"), track(2, f0="1*", f1="1_"), track(3, f0="1")]
        scene, told = self.make(xdts(table(2, ["背景", "雲", "a", "A"], tracks)))
        files = [file for it in scene["levels"] for file in it["drawings"]]
        self.assertEqual(files, ["column1.0001.xrl", "column2.0001.xrl", "a.1_.xrl", "a.1__2.xrl", "A_2.0001.xrl"])
        self.assertEqual(len(told), 5)
        self.assertIn("the files of column 背景 are named column1", told[0])

    def test_pictures_lie_in_the_middle_of_the_camera(self):
        self.pictures("A/1")
        self.pictures("B/1", size=(10, 6))
        self.make(xdts(table(1, ["A", "B"], [track(0, f0="1"), track(1, f0="1")])))
        data = (self.folder / "out/A.0001.xrl").read_bytes()
        self.assertEqual(data[5:21].hex(), "03000000" "01000000" "04000000" "03000000")
        scene, _ = self.make(xdts(table(1, ["B"], [track(0, f0="1")])), "--camera", "4", "2")
        self.assertEqual(scene["camera"], {"w": 4, "h": 2})
        self.assertEqual((self.folder / "out/B.0001.xrl").read_bytes()[5:13].hex(), "fdffffff" "feffffff")

    def test_missing_drawings_are_named_with_what_was_looked_for(self):
        self.pictures("A/1")
        text = xdts(table(3, ["A"], [track(0, f0="1", f1="2", f2="3")]))
        self.refused("drawing 2 of column A: no picture in cels, looked for A/2.png, A/A_2.png, A/A-2.png, A/A.2.png, "
                     "A/A2.png, A_2.png, A-2.png, A.2.png, A2.png; 1 more missing", text)

    def test_names_break_no_line(self):
        self.pictures("A/1")
        self.refused("drawing a?b? of column ?: no picture in cels", xdts(table(1, ["\r"], [track(0, f0="a\nb\ud800")])))

    def test_two_pictures_for_a_drawing_are_refused(self):
        self.pictures("A/1", "A/01")
        self.refused("there are two pictures for it in cels, A/01.png and A/1.png", xdts(table(1, ["A"], [track(0, f0="1")])))

    def test_a_damaged_picture_leaves_nothing(self):
        self.pictures("A/1")
        self.write("cels/A/2.png", flat(4, 3, RED)[:60])
        self.refused("cels/A/2.png: this PNG file is damaged", xdts(table(2, ["A"], [track(0, f0="1", f1="2")])))

    def test_an_old_scene_stays_where_a_new_one_is_refused(self):
        self.pictures("A/1")
        self.make(xdts(table(1, ["A"], [track(0, f0="1")])))
        before = {name: (self.folder / name).read_bytes() for name in self.files() if name.startswith("out/")}
        self.write("cels/A/1.png", flat(4, 3, GREEN))
        self.write("cels/A/2.png", flat(4, 3, (1, 1, 1, 90)))
        self.write("shot.xdts", xdts(table(2, ["A"], [track(0, f0="1", f1="2")])))
        self.refuses("half clear", MAKE, "shot.xdts", "cels", "out/shot.json", "--cm32")
        after = {name: (self.folder / name).read_bytes() for name in self.files() if name.startswith("out/")}
        self.assertEqual(before, after)

    def test_broken_sheets_are_told(self):
        self.pictures("A/1")
        good = {"frame": 0, "data": [{"id": 0, "values": ["1"]}]}

        def cells(*frames, number=0):
            return xdts(table(2, ["A"], [{"trackNo": number, "frames": list(frames)}]))

        for part, text in [
            ("line 1 is not exchangeDigitalTimeSheet Save Data", "{}"),
            ("line 1 is not exchangeDigitalTimeSheet Save Data", ""),
            ("shot.xdts: line 2, column 2: ", FIRST_LINE + "{"),
            ("the sheet is not an object", FIRST_LINE + "[]"),
            ("the sheet has no version", FIRST_LINE + "{}"),
            ("nested too deep", FIRST_LINE + "[" * 100000),
            ("byte 35 is no UTF-8", FIRST_LINE.encode() + b"\xff"),
            ("the sheet has no time table", xdts()),
            ("the time table has no duration", xdts({})),
            ("has no field of cells", xdts({"duration": 1, "fields": [{"fieldId": 3}]})),
            ("two fields of cells", xdts(table(1, [], [], {"fieldId": 0, "tracks": []}))),
            ("timeTableHeaders of the time table is not a list", xdts({"duration": 1, "fields": [{"fieldId": 0, "tracks": []}],
                                                                      "timeTableHeaders": 5})),
            ("there is a track -1", cells(good, number=-1)),
            ("two tracks 0", xdts(table(1, [], [track(0), track(0)]))),
            ("column A has frame 0 twice", cells(good, good)),
            ("frame of a frame of column A is not a whole number", cells({"frame": 1.5, "data": []})),
            ("frame of a frame of column A is not a whole number", cells({"frame": True, "data": []})),
            ("a frame of column A has no frame", cells({"data": []})),
            ("has two entries of id 0", cells({"frame": 0, "data": good["data"] * 2})),
            ("the value at frame 0 of column A is not a text", cells({"frame": 0, "data": [{"id": 0, "values": [1]}]})),
            ("the value at frame 0 of column A is an empty text", cells(frame(0, ""))),
        ]:
            with self.subTest(part):
                self.refused(part, text)

    def test_sheets_past_a_limit_are_refused(self):
        self.pictures("A/1")
        one = [track(0, f0="1")]
        self.refused("the sheet has 0 rows, and a scene has 1 to 9999", xdts(table(0, ["A"], one)))
        self.refused("the sheet has 10000 rows, and a scene has 1 to 9999", xdts(table(10000, ["A"], one)))
        self.refused("the sheet has 1025 columns", xdts(table(1, ["A"] * 1025, [track(i) for i in range(1025)])))
        self.refused("the sheet has 0 columns", xdts(table(1, [], [])))
        self.write("shot.xdts", xdts(table(1, ["A"], one)))
        self.refuses("no name of a scene", MAKE, "shot.xdts", "cels", "out/.a.json")
        self.refused("a side of the camera is 1 to 4096", xdts(table(1, ["A"], one)), "--camera", "1", "4097")
        self.refused("shows no drawing", xdts(table(1, ["A"], [track(0)])))
        scene, _ = self.make(xdts(table(9999, ["A"], one)))
        self.assertEqual(spans(scene["sheets"][0]["columns"][0]), [(1, 9999, 0, 0)])

    def test_too_large_pictures_and_texts_are_refused(self):
        self.pictures("A/1", size=(4097, 1))
        self.refused("cels/A/1.png: it has 4097 by 1 pixels, and a drawing at most 4096",
                     xdts(table(1, ["A"], [track(0, f0="1")])))
        self.pictures("A/1", "A/2")
        frames = [frame(at, str(at % 2 + 1)) for at in range(9999)]
        tracks = [{"trackNo": number, "frames": frames} for number in range(36)]
        self.refused("and a scene file at most 16777216", xdts(table(9999, ["A"] * 36, tracks)))

    def test_words_are_told_in_one_line(self):
        for words in (["a.xdts"], ["a.xdts", "b", "c.json", "--ink", "red"], ["a.xdts", "b", "c.json", "--camera", "1"]):
            self.refuses("xdts_to_scene: ", MAKE, *words)
        self.refuses("No such file", MAKE, "a.xdts", "b", "c.json")


if __name__ == "__main__":
    unittest.main()
