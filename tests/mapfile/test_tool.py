"""tools/mapfile: the text form, its errors, and that nothing is lost between text and file."""

import pathlib
import random
import struct
import subprocess
import sys
import unittest

sys.path.insert(0, str(pathlib.Path(__file__).resolve().parent))
import make_cases
import random_files
import sheet_model
from make_cases import tool

SAMPLE = """\
map 3 directed
link 0 1 5
link 1 2 -2
link 0 2 4
ask bellman_ford from 0
"""
# The hex of the request's example.
SAMPLE_FILE = bytes.fromhex(
    "06 00 01 00 03 00 01 00 0a 00 03 00 00 00 01 00 05 00 00 00 0a 00 03 00 01 00 02 00 fe ff ff ff"
    "0a 00 03 00 00 00 02 00 04 00 00 00 07 00 05 00 02 00 00 00 00"
)


def model_offset(file):
    """Where the model says that the file is bad, or None."""
    try:
        sheet_model.load(file)
    except sheet_model.Bad as bad:
        return bad.args[0]
    return None


class Pack(unittest.TestCase):
    """Text to file."""

    def test_the_example_of_the_request(self):
        self.assertEqual(len(SAMPLE_FILE), 53)
        self.assertEqual(tool.pack_sound(SAMPLE), SAMPLE_FILE)

    def test_every_kind_of_record(self):
        text = "map 64 undirected f64\nabsent 513\nlink 1 258 1.5\nlink 2 3 -0.0 closed\nlink 4 5 0xFFF8000000000001\nask hops from 1 to 515\n"
        self.assertEqual(
            tool.pack(text)[0].hex(" ", 1),
            "06 00 01 00 40 00 00 01 04 00 02 00 01 02 "
            "0f 00 04 00 01 00 02 01 00 00 00 00 00 00 f8 3f 01 "
            "0f 00 04 00 02 00 03 00 00 00 00 00 00 00 00 80 00 "
            "0f 00 04 00 04 00 05 00 01 00 00 00 00 00 f8 ff 01 "
            "07 00 05 00 06 01 00 03 02",
        )

    def test_comments_and_blank_lines_give_nothing(self):
        spaced = "# a sample\n\n" + SAMPLE.replace("\n", "   # why\n\n").replace(" ", "\t ")
        self.assertEqual(tool.pack_sound(spaced), SAMPLE_FILE)

    def test_raw_bytes(self):
        self.assertEqual(tool.pack("bytes 00 0f FF\nbytes\nbytes 01\n")[0], b"\x00\x0f\xff\x01")

    def test_lines_that_cannot_be_packed(self):
        for text, message in [
            ("map 3 sideways", "line 1: a head is"),
            ("map 3", "line 1: a head is"),
            ("map 3 directed i64", "line 1: a head is"),
            ("map three directed", "line 1: the bound is a whole number, not 'three'"),
            ("map 65536 directed", "line 1: the bound is from 0 to 65535"),
            ("# head\nmap 3 directed\nabsent", "line 3: an absent index is"),
            ("map 3 directed\nabsent -1", "line 2: an index is from 0 to 65535"),
            ("map 3 directed\nabsent 1_0", "line 2: an index is a whole number"),
            ("link 0 1 5", "line 1: a link stands behind the head"),
            ("map 3 directed\nlink 0 1", "line 2: a link is"),
            ("map 3 directed\nlink 0 1 2147483648", "line 2: a cost is from -2147483648 to 2147483647"),
            ("map 3 directed\nlink 0 1 2.5", "line 2: a cost is a whole number"),
            ("map 3 directed\nlink 0 1 5 closed", "line 2: a link is"),
            ("map 3 directed f64\nlink 0 1 5 shut", "line 2: a link is"),
            ("map 3 directed f64\nlink 0 1 nan", "line 2: an f64 cost is"),
            ("map 3 directed f64\nlink 0 1 0x7ff8", "line 2: an f64 cost is"),
            ("map 3 directed f64\nlink 0 1 1e999", "line 2: 1e999 is past the largest f64"),
            ("map 3 directed\nask prim", "line 2: a question is"),
            ("map 3 directed\nask", "line 2: a question is"),
            ("map 3 directed\nask dijkstra", "line 2: dijkstra needs 'from INDEX'"),
            ("map 3 directed\nask a_star from 0", "line 2: a_star needs 'to INDEX'"),
            ("map 3 directed\nask hops from", "line 2: 'from' behind a question"),
            ("map 3 directed\nask hops from 1 from 2", "line 2: 'from 2' behind a question"),
            ("map 3 directed\nask hops from 65536", "line 2: an index is from 0 to 65535"),
            ("bytes 1", "line 1: a byte is two hex digits"),
            ("hello", "line 1: a line starts with"),
        ]:
            with self.subTest(text=text), self.assertRaises(tool.Wrong) as caught:
                tool.pack(text)
            self.assertTrue(str(caught.exception).startswith(message), str(caught.exception))

    def test_a_file_that_would_be_bad_is_refused_with_its_line(self):
        for text, message in [
            ("", "line 1: bad map at 0: the question is missing"),
            ("\nmap 65 directed\nask hops", "line 2: bad map at 0: the bound is 65"),
            ("map 3 directed\nlink 0 1 5\n\nlink 0 3 5\nask hops", "line 4: bad map at 20: the map has no index 3"),
            ("map 3 directed\nlink 0 1 5\nabsent 2\nask hops", "line 3: bad map at 20: an absent index stands"),
            ("map 3 directed\nask dijkstra_path_f64 from 0", "line 2: bad map at 8: dijkstra_path_f64 does not take"),
            ("map 3 directed\nask hops\nask hops", "line 3: bad map at 17: nothing stands behind"),
            ("map 3 directed\nmap 3 directed\nask hops", "line 2: bad map at 8: a second head"),
            ("ask hops", "line 1: bad map at 0: the head comes first"),
            ("map 3 directed\nlink 0 1 5", "line 2: bad map at 20: the question is missing"),
            ("map 3 directed\nbytes 02\nask hops", "line 2: bad map at 8: there is no kind"),
        ]:
            with self.subTest(text=text), self.assertRaises(tool.Wrong) as caught:
                tool.pack_sound(text)
            self.assertTrue(str(caught.exception).startswith(message), str(caught.exception))


class Unpack(unittest.TestCase):
    """File to text, and back."""

    def test_the_example_of_the_request(self):
        self.assertEqual(tool.unpack(SAMPLE_FILE), (SAMPLE, None))

    def test_source_and_target_stay_where_nobody_reads_them(self):
        text = "map 1 undirected\nask johnson from 3 to 65535\n"
        self.assertEqual(tool.unpack(tool.pack(text)[0]), (text, None))

    def test_every_pattern_comes_back(self):
        rng = random.Random(4)
        patterns = random_files.PATTERNS + [rng.getrandbits(64) for _ in range(10000)]
        for bits in patterns:
            self.assertEqual(tool.pattern(tool.cost_text(bits)), bits)

    def test_files_come_back(self):
        rng = random.Random(5)
        files = [file for _, file, _ in make_cases.all_cases()]
        files += [make(rng) for make in (random_files.sound, random_files.damaged) for _ in range(1500)]
        files += [bytes(rng.choice([0, 1, 2, 3, 4, 5, 6, 7, 10, 15]) for _ in range(rng.randrange(40))) for _ in range(2000)]
        sound = 0
        for file in files:
            text, damage = tool.unpack(file)
            self.assertEqual(tool.pack(text)[0], file)
            self.assertEqual(damage and damage.offset, model_offset(file))
            if damage is None:
                sound += 1
                self.assertEqual(tool.pack_sound(text), file)
                self.assertNotIn("bytes", text)
            else:
                self.assertIn(f"# bad map at {damage.offset}: ", text)
                with self.assertRaises(tool.Wrong):
                    tool.pack_sound(text)
        self.assertGreater(sound, 1500)
        self.assertGreater(len(files) - sound, 1500)


class Command(unittest.TestCase):
    """The command line."""

    def run_tool(self, *words, given=b""):
        path = str(make_cases.ROOT / "tools" / "mapfile")
        run = subprocess.run([sys.executable, path, *words], input=given, capture_output=True, check=False)
        return run.returncode, run.stdout, run.stderr.decode()

    def test_pack_and_unpack(self):
        self.assertEqual(self.run_tool("pack", given=SAMPLE.encode()), (0, SAMPLE_FILE, ""))
        self.assertEqual(self.run_tool("unpack", given=SAMPLE_FILE), (0, SAMPLE.encode(), ""))

    def test_an_error_writes_nothing(self):
        status, written, said = self.run_tool("pack", given=b"map 3 directed\nlink 0 7 1\nask hops\n")
        self.assertEqual((status, written), (1, b""))
        self.assertEqual(said, "mapfile: line 2: bad map at 8: the map has no index 7\n")

    def test_damaged_files_can_be_packed_and_unpacked(self):
        text = b"map 3 directed\nlink 0 7 1\n"
        status, written, said = self.run_tool("pack", "--damaged", given=text)
        self.assertEqual((status, written, said), (0, SAMPLE_FILE[:8] + struct.pack("<HHHHi", 10, 3, 0, 7, 1), ""))
        status, shown, said = self.run_tool("unpack", given=written)
        self.assertEqual(status, 1)
        self.assertEqual(said, "mapfile: bad map at 8: the map has no index 7\n")
        self.assertEqual(shown.decode().splitlines()[0], "map 3 directed")
        self.assertEqual(self.run_tool("pack", "--damaged", given=shown)[1], written)

    def test_usage(self):
        for words in [(), ("pack", "file"), ("unpack", "--damaged"), ("help",)]:
            status, written, said = self.run_tool(*words)
            self.assertEqual((status, written), (2, b""))
            self.assertIn("tools/mapfile pack < text > file", said)

    def test_no_text(self):
        self.assertEqual(self.run_tool("pack", given=b"\xff\xfe"), (1, b"", "mapfile: this is no text\n"))


if __name__ == "__main__":
    unittest.main()
