#!/usr/bin/env python3
"""Tests of samples/record.py, and whether the sample's files and docs/pose.svg are as made.

    python3 -B tests/samples/run.py                                     the tool and the files
    python3 -B tests/samples/run.py --program crates/poses/out/poses    and a program's listing

Scores are compared bit for bit with those of crates/replay/data/rust, which are the Rust's, and
whole runs with those of crates/poses_runs. A comparison has something that it must find wrong."""

import argparse
import itertools
import math
import os
import random
import re
import subprocess
import sys
import tempfile
import unittest

sys.dont_write_bytecode = True
ROOT = os.path.join(os.path.dirname(os.path.abspath(__file__)), "..", "..")
SAMPLES = os.path.join(ROOT, "samples")
sys.path[:0] = [SAMPLES, os.path.join(ROOT, "tests", "poses"), os.path.join(ROOT, "docs")]

import make as stored_runs
import picture
from tool import Fault, decimals, listings, numbers, poses, records, words

PROGRAM = None


def path(name):
    return os.path.join(SAMPLES, name)


def content(name):
    with open(name, "rb") as file:
        return file.read()


def tool(*arguments, given=b""):
    """Status, standard output and standard error of the tool."""
    command = [sys.executable, "-B", path("record.py"), *arguments]
    done = subprocess.run(command, input=given, capture_output=True)
    return done.returncode, done.stdout, done.stderr.decode()


def sample():
    return content(path("frames.bin")), content(path("listing.txt")).decode()


def rust(name, size):
    """The stored answers of the Rust, each as a list of words."""
    data = content(os.path.join(ROOT, "crates", "replay", "data", "rust", name))
    for at in range(0, len(data), size):
        record = data[at : at + size]
        yield [int.from_bytes(record[i : i + 8], "big") for i in range(0, size, 8)]


def slot(patterns, lifted=0):
    """The pose of twelve words, the rotation by columns, and of its mark."""
    values = numbers.doubles(patterns)
    return poses.Pose(0, [values[i:9:3] for i in range(3)], values[9:], bool(lifted))


def stored_frames():
    """The stored frames, each as a record and as it is listed."""
    for number, given in enumerate(rust("frame.bin", 664), 1):
        refusal, count, best = given[24:27]
        held = [slot(given[29 + 14 * i : 41 + 14 * i], given[28 + 14 * i]) for i in range(count)]
        yield records.Record(number, 1, given[:24]), listings.Frame(number, refusal, best, held)


class Make(unittest.TestCase):
    """From text to records and back."""

    def test_the_sample(self):
        status, made, _ = tool("make", path("frames.txt"))
        self.assertEqual((status, made), (0, sample()[0]))

    def test_show_is_read_back(self):
        status, text, _ = tool("show", path("frames.bin"))
        self.assertEqual(status, 0)
        self.assertEqual(tool("make", given=text)[1], sample()[0])

    def test_all_bits_are_read_back(self):
        draw = random.Random(1)
        # infinities, NaNs of two kinds, the least and the greatest subnormal, minus zero
        special = [0x7FF << 52, 0xFFF << 52, 0x7FF << 52 | 1, 0xFFF8 << 48]
        special += [1, (1 << 52) - 1, 1 << 63]
        patterns = special + [draw.getrandbits(64) for _ in range(24 * 400 - len(special))]
        data = b"".join(records.encode(patterns[i : i + 24]) for i in range(0, len(patterns), 24))
        text = tool("show", given=data)[1]
        self.assertEqual(tool("make", given=text)[1], data)
        # a text with another last bit is not read back to the same
        changed = text.replace(b"bits:7ff0000000000001", b"bits:7ff0000000000003")
        self.assertNotEqual(tool("make", given=changed)[1], data)

    def test_numbers(self):
        for word, pattern in [
            ("hex:0x1.8p-3", 0x3FC8000000000000),
            ("-inf", 0xFFF0000000000000),
            ("nan", 0x7FF8000000000000),
            ("NaN", 0x7FF8000000000000),
            ("-nan", 0xFFF8000000000000),
            ("+Infinity", 0x7FF0000000000000),
            ("-INF", 0xFFF0000000000000),
            ("-0", 1 << 63),
            ("5e-324", 1),
            ("1e-310", numbers.pattern("bits:000012688b70e62b")),
            (".5", 0x3FE0000000000000),
            ("0e999", 0),
        ]:
            self.assertEqual(numbers.pattern(word), pattern, word)

    def test_a_bad_number_names_its_line(self):
        bad = ["1e999", "-1e999", "1e-999", "hex:0x1p1024", "hex:0x1p-1100", "hex:inf", "bits:12"]
        for word in bad + ["x", "1_0", "infinit", "nans", "0x10", "1,5", "١"]:
            status, out, error = tool("make", given=f"1 2 # 3\n\n4 {word}\n5".encode())
            self.assertEqual((status, out), (1, b""), word)
            self.assertIn(f"standard input, line 3: {word!r}", error)
        with tempfile.NamedTemporaryFile(suffix=".txt") as file:
            file.write(b"0\n1e999")
            file.flush()
            self.assertIn(f"{file.name}, line 2: '1e999'", tool("make", file.name)[2])

    def test_no_whole_number_of_frames(self):
        text = "".join(f"{i}\n" for i in range(1, 31)).encode()
        status, out, error = tool("make", given=text)
        self.assertEqual((status, out), (1, b""))
        self.assertIn("the last frame begins in line 25 and has 6", error)

    def test_where_a_missing_number_is_looked_for(self):
        lines = content(path("frames.txt")).decode().splitlines()
        first = next(at for at, line in enumerate(lines) if line.startswith("# 2:")) + 1
        for at in range(first, first + 8):
            for changed in (lines[at].split(maxsplit=1)[1], f"0 {lines[at]}"):
                text = "\n".join(lines[:at] + [changed] + lines[at + 1 :])
                with self.assertRaises(Fault) as raised:
                    numbers.groups("text", text, records.NUMBERS, "frame")
                named = r"frame 3 begins in the middle of line (\d+): look in lines (\d+) to \1 "
                last, start = map(int, re.search(named, str(raised.exception)).groups())
                self.assertEqual(start, first + 1)
                self.assertIn(last, (first + 8, first + 11))  # of frame 2 the last, of 3 the first

    def test_marks_and_ends_of_lines(self):
        text = content(path("frames.txt"))
        for end in (b"\r\n", b"\r"):
            given = b"\xef\xbb\xbf" + text.replace(b"\n", end)
            self.assertEqual(tool("make", given=given), (0, sample()[0], ""))


class Show(unittest.TestCase):
    """Reading goes on and stops where `poses` does."""

    def test_another_version(self):
        data = sample()[0][: 3 * records.SIZE]
        other = data[:197] + b"\2" + data[198:]
        status, text, _ = tool("show", given=other)
        self.assertEqual(status, 0)
        self.assertIn(b"# record 2: version 2 and not 1, not read\n# record 3\n", text)
        self.assertEqual(tool("make", given=text)[1], data[:195] + data[390:])

    def test_a_stop(self):
        first = sample()[0][:195]
        for rest, refusal in [
            (b"\0", 9),
            (b"\0\xc1", 9),
            (b"\0\xc0", 7),
            (first[:-1], 9),
            (b"\0\xc0" + first, 7),
        ]:
            status, text, error = tool("show", given=first + rest)
            self.assertEqual(status, 1)
            self.assertIn("standard input, record 2: ", error)
            self.assertIn(f"(stop {refusal})", error)
            self.assertEqual(tool("make", given=text)[1], first)

    def test_nobody_reads_on(self):
        shown = f"{sys.executable} -B {path('record.py')} show {path('frames.bin')}"
        done = subprocess.run(f"{shown} | head -1", shell=True, capture_output=True)
        self.assertEqual((done.stdout, done.stderr), (b"# record 1\n", b""))


class Closed(unittest.TestCase):
    """What cannot be read or written is one line on standard error, and exit status 1."""

    def said(self, words, redirection):
        command = f"{sys.executable} -B {path('record.py')} {words} {redirection}"
        done = subprocess.run(command, shell=True, stdin=subprocess.DEVNULL, capture_output=True)
        self.assertEqual(done.returncode, 1, command)
        self.assertRegex(done.stderr.decode(), r"\Arecord\.py: [^\n]+\n\Z", command)
        return done.stderr.decode()

    def test_closed(self):
        for words in ("make", "show", "listing -"):
            self.assertIn("standard input is closed", self.said(words, "<&-"))
        for words in (f"show {path('frames.bin')}", "make", "--help", "listing --help"):
            self.assertIn("standard output is closed", self.said(words, ">&-"))

    def test_full(self):
        if not os.path.exists("/dev/full"):
            self.skipTest("no /dev/full")
        for words in (f"show {path('frames.bin')}", "--help", "make --help"):
            self.assertIn("No space left", self.said(words, "> /dev/full"))


def stored_listings():
    """The runs of crates/poses_runs that have an input: name, input, listing."""
    made = stored_runs.runs(stored_runs.stored_frames())
    return [run[:3] for run in made if run[1] is not None]


class Listing(unittest.TestCase):
    """From a listing to decimals."""

    def test_stored_runs(self):
        with tempfile.TemporaryDirectory() as folder:
            for name, data, text in stored_listings():
                given = os.path.join(folder, name)
                with open(given, "wb") as file:
                    file.write(data)
                status, out, error = tool("listing", given, "-", given=text.encode())
                last = text.splitlines()[-1].split()
                expected = "end: " if last[0] == "end" else f"stop {last[1]} at record {last[3]}\n"
                self.assertEqual((status, error), (int(last[0] == "stop"), ""), name)
                self.assertIn(f"\n{expected}", out.decode())
                self.assertEqual(out.count(b", lifted\n"), text.count(" lifted\n"), name)
            self.assertIn(" lifted\n", "".join(text for _, _, text in stored_listings()))

    def test_a_listing_alone(self):
        status, out, _ = tool("listing", path("listing.txt"))
        self.assertEqual((status, out.count(b"score"), out.count(b"    R ")), (0, 0, 15))
        self.assertEqual(content(path("decimals.txt")).count(b"score"), 16)

    def test_cut_anywhere(self):
        text = sample()[1]
        whole = listings.read("listing", text)
        self.assertIsNone(whole.cut)
        for at in range(len(text) - 1):
            cut = listings.read("listing", text[:at])
            self.assertIsNotNone(cut.cut, at)
            self.assertEqual(cut.frames, whole.frames[: len(cut.frames)])

    def test_a_cut_listing_is_reported(self):
        text = sample()[1]
        at = text.index("3 poses")
        status, out, error = tool("listing", path("frames.bin"), "-", given=text[:at].encode())
        self.assertEqual((status, out.count(b"\nframe ")), (1, 2))
        self.assertIn("standard input is not whole: it ends after line 7", error)
        self.assertNotIn(b"end:", out)
        status, out, error = tool("listing", "--frame", "5", "-", given=text[:at].encode())
        self.assertEqual((status, out), (1, b""))
        self.assertIn("no frame 5; standard input is not whole: it ends after line 7", error)

    def test_a_bad_line_is_named(self):
        lines = sample()[1].splitlines()
        for at, bad in [
            (1, "poses v2"),
            (2, "2 poses 2 best 2"),
            (2, "1 poses 2 best 3"),
            (2, "1 poses 5 best 1"),
            (3, lines[2].replace("updates", "update")),
            (3, lines[2].replace("plain", "Plain")),
            (3, lines[2].replace(" plain", "")),
            (3, lines[2][:-1]),
            (3, lines[2].upper()),
            (4, lines[2]),
            (len(lines), "end 9"),
            (len(lines), "stop 8 at 11"),
        ]:
            changed = lines[: at - 1] + [bad] + lines[at:]
            with self.assertRaisesRegex(Fault, f"^listing, line {at}: "):
                listings.read("listing", "\n".join(changed) + "\n")
        with self.assertRaisesRegex(Fault, f"^listing, line {len(lines) + 1}: a line after"):
            listings.read("listing", "\n".join(lines + lines[-1:]) + "\n")

    def test_a_lifted_pose_is_named(self):
        text = sample()[1]
        self.assertNotIn("lifted", text)
        given = text.replace("plain", "lifted", 1).encode()
        lines = tool("listing", "--frame", "1", "-", given=given)[1].decode().splitlines()
        heads = [line for line in lines if line.startswith("  pose ")]
        self.assertEqual(heads, ["  pose 1, 0 updates, lifted", "  pose 2, 0 updates, best"])

    def test_the_words_of_refusals(self):
        out = content(path("decimals.txt")).decode()
        for number in (1, 2, 3):
            lines = "\n".join(words.paragraph(words.WORDS[number]))
            self.assertIn(f": refused {number}\n{lines}\n", out)
        self.assertIn("  not finite: bearing of P1\n", out)
        self.assertIn("  length of the bearing of P2: 1.0155", out)
        runs = {"length_192": 7, "version_2": 8, "truncated": 9, "answers": 10}
        for name, number in runs.items():
            text = next(text for run, _, text in stored_listings() if run == name)
            lines = "\n".join(words.paragraph(words.WORDS[number]))
            self.assertIn(f"\n{lines}\n", tool("listing", "-", given=text.encode())[1].decode())

    def test_byte_order_is_named(self):
        for number in (2, 3, 7):
            self.assertIn("big-endian", words.WORDS[number])

    def test_marks_and_ends_of_lines(self):
        data, text = sample()
        given = b"\xef\xbb\xbf" + text.replace("\n", "\r\n").encode()
        made = tool("listing", path("frames.bin"), "-", given=given)
        self.assertEqual(made, (0, content(path("decimals.txt")), ""))

    def test_one_frame(self):
        out = tool("listing", "-", given=b"poses v1\n1 refused 3\nend 1\n")[1]
        self.assertIn(b"\nend: 1 frame, all of the input\n", out)

    def test_records_exchanged(self):
        """Any two records exchanged are noticed. Not so 1 and 9, the same but for the bearings'
        lengths, and 8 and 9, which are both refused for reasons that only the solve finds."""
        data, text = sample()
        listed, found = listings.read("listing", text), records.decode("records", data)
        unnoticed = []
        for i, j in itertools.combinations(range(10), 2):
            changed = list(found)
            changed[i], changed[j] = changed[j], changed[i]
            try:
                decimals.agree(listed, changed, 0)
                unnoticed.append((i + 1, j + 1))
            except Fault as fault:
                self.assertRegex(str(fault), rf"^frame ({i + 1}|{j + 1}): the listing is of ")
        self.assertEqual(unnoticed, [(1, 9), (8, 9)])

    def test_a_listing_of_other_records(self):
        data, text = sample()
        for changed, word in [
            (text.replace("1 poses 2 best 2", "1 poses 2 best 1"), "frame 1"),
            (text.replace("7 refused 1", "7 refused 8"), "frame 7"),
            (text.replace("7 refused 1", "7 refused 2"), "frame 7"),
            (text.replace("8 refused 2", "8 refused 1"), "frame 8"),
            (text.replace("bfcfffffffffffe8", "bfcff00000000000", 1), "frame 1"),
            (text[: text.index("10 poses")] + "end 9\n", "9 frames"),
            (text.replace("end 10", "stop 9 at 11"), "stop 9"),
        ]:
            self.assertNotEqual(changed, text)
            status, out, error = tool("listing", path("frames.bin"), "-", given=changed.encode())
            self.assertEqual((status, out), (1, b""))
            self.assertIn(word, error)

    def test_holes(self):
        one = ["listing", "--frame", "1", path("listing.txt")]
        hole = ["--hole", "0.25", "-5e-1", "0"]
        _, out, _ = tool(*one[:3], *hole, *one[3:])
        self.assertEqual(out.count(b"\nframe "), 1)
        line = out.decode().splitlines()[-3]
        self.assertIn("    camera ", line)
        found = [float(word) for word in line.split()[1:]]
        for x, true in zip(found, (-0.05, -0.625, 2.15)):
            self.assertAlmostEqual(x, true, delta=1e-13)
        with tempfile.NamedTemporaryFile() as file:
            file.write(b"0.25 -0.5 0 # the same\n")
            file.flush()
            self.assertEqual(tool(*one[:3], "--holes", file.name, *one[3:])[1], out)
        self.assertIn("'1e999'", tool(*one[:3], "--hole", "1", "1e999", "0", *one[3:])[2])
        refused = tool("listing", "--frame", "7", *hole, path("listing.txt"))[1]
        self.assertNotIn(b"camera ", refused.split(b"frame 7")[1])

    def test_bad_holes(self):
        for hole, reason in [
            (["-inf", "0", "0"], "a hole has three finite numbers, not -inf 0.0 0.0"),
            (["0", "NaN", "0"], "a hole has three finite numbers, not 0.0 nan 0.0"),
            (["1", "2"], f"a hole has three numbers: {path('listing.txt')[:40]!r} is no number"),
        ]:
            status, out, error = tool("listing", "--hole", *hole, path("listing.txt"))
            self.assertEqual((status > 0, out), (True, b""))
            self.assertIn(reason, error)

    def first_with(self, bearing, best, *options):
        """What is said of the first frame with another checking bearing."""
        data, text = sample()
        with tempfile.NamedTemporaryFile() as file:
            file.write(data[:171] + bearing + data[195:])
            file.flush()
            changed = text.replace("1 poses 2 best 2", f"1 poses 2 best {best}").encode()
            words = ["--frame", "1", "--hole", "0", "0", "0", *options, file.name, "-"]
            status, out, _ = tool("listing", *words, given=changed)
        self.assertEqual(status, 0)
        return out.decode()

    def test_no_hole_where_the_checking_target_is_off(self):
        given = [path("frames.bin"), path("listing.txt")]
        ask = ["listing", "--frame", "10", "--hole", "0", "0", "0"]
        off = "  no hole: the checking target is 3.761142 degrees off its bearing, above the limit"
        for limit, reason in [([], "of 0.01\n"), (["--limit", "3.7611"], "of 3.7611\n")]:
            out = tool(*ask, *limit, *given)[1].decode()
            self.assertIn(f"{off} {reason}", out)
            self.assertNotIn("    camera ", out)
        out = tool(*ask, "--limit", "3.7612", *given)[1].decode()
        self.assertNotIn("no hole", out)
        self.assertIn("    camera ", out)
        self.assertIn("holes not checked", tool(*ask, given[1])[1].decode())
        for limit in ("-1", "91", "nan", "x"):
            self.assertIn("--limit", tool(*ask, "--limit", limit, *given)[2])

    def test_no_hole_behind_the_camera(self):
        seen = sample()[0][171:195]
        behind = b"".join(bytes([seen[i] ^ 0x80]) + seen[i + 1 : i + 8] for i in (0, 8, 16))
        out = self.first_with(behind, 0, "--limit", "90")
        self.assertIn("    no score, angle 174.589993 degrees\n", out)
        self.assertIn("    no score, angle 180.000000 degrees\n", out)
        self.assertIn("  no hole: no pose was chosen\n", out)
        self.assertNotIn("    camera ", out)
        self.assertIn("    camera ", self.first_with(seen, 2))

    def test_no_choice_has_no_angle(self):
        out = self.first_with(bytes(24), 0)
        self.assertEqual(out.count("    no score, no angle\n"), 2)
        self.assertIn("  no hole: no pose was chosen\n", out)
        self.assertNotIn("    camera ", out)

    def test_the_centre_has_its_warning(self):
        plain = tool("listing", path("listing.txt"))[1].decode()
        asked = tool("listing", "--centre", path("listing.txt"))[1].decode()
        self.assertNotIn("centre", plain)
        self.assertIn("Do not use it for holes", asked)
        self.assertEqual(asked.count("(not for holes)"), 15)
        for x in TRUE.camera_point(TRUE.centre()):
            self.assertAlmostEqual(x, 0)


class Scores(unittest.TestCase):
    """The score and the choice have the bits of the stored answers."""

    def differing(self):
        """How many stored choices the tool's differ from."""
        count = 0
        for given in rust("choice.bin", 464):
            held = [slot(given[1 + 12 * i : 13 + 12 * i]) for i in range(min(given[0], 4))]
            target, bearing = numbers.doubles(given[49:52]), numbers.doubles(given[52:55])
            number, best, score = given[55:]
            found = poses.best(held, target, bearing)
            value = held[found - 1].score(target, bearing) if found else 0.0
            same = (10 * (not found), found) == (number, best)
            count += not (same and value.hex() == numbers.double(score).hex())
        return count

    def test_choices(self):
        self.assertEqual(self.differing(), 0)

    def test_another_order_of_operations_differs(self):
        kept = poses.dot
        poses.dot = lambda a, b: a[0] * b[0] + (a[1] * b[1] + a[2] * b[2])
        try:
            self.assertGreater(self.differing(), 0)
        finally:
            poses.dot = kept

    def test_frames(self):
        """The best pose of every stored frame."""
        seen = set()
        for record, listed in stored_frames():
            found = poses.best(listed.poses, *decimals.checking(record))
            self.assertEqual(found, listed.best)
            seen.add((listed.refusal, len(listed.poses), listed.best))
        self.assertGreater(len(seen), 10)

    def test_fits(self):
        """No stored frame is taken for another record's. With the next one's record only twelve
        are not: their targets are seen within 1e-6 of each other, or lie at 1.8e308, or the next
        differs by 2^-20."""
        given, listed = zip(*stored_frames())
        signs = [[*decimals.differences(*pair)] for pair in zip(listed, given)]
        self.assertEqual([sign for sign in signs if sign], [])
        signs = [[*decimals.differences(*pair)] for pair in zip(listed, given[1:]) if pair[0].poses]
        self.assertEqual(signs.count([]), 12)

    def test_fits_far_away(self):
        """Where coordinates are large, rounding alone takes points off their bearings."""
        shift = [2.0**44] * 3
        far = [t - poses.dot(row, shift) for row, t in zip(ROWS, TRUE.translation)]
        points = [[x + y for x, y in zip(point, shift)] for point in PLATE[:3]]
        bearings = [unit(TRUE.camera_point(point)) for point in PLATE[:3]]
        self.assertTrue(poses.Pose(0, ROWS, far, False).fits(points, bearings))
        self.assertFalse(poses.Pose(0, ROWS, [2 * t for t in far], False).fits(points, bearings))

    def test_angle(self):
        pose = poses.Pose(0, [[1, 0, 0], [0, 1, 0], [0, 0, 1]], [0, 0, 0], False)
        angles = [((0, 0, 5), 0), ((1, 0, 1), 45), ((1, 0, -1), 135), ((0, 0, -1), 180)]
        for target, degrees in angles:
            self.assertAlmostEqual(pose.angle(target, (0, 0, 1)), degrees)
            self.assertEqual(pose.score(target, (0, 0, 1)) is None, degrees > 90)
        self.assertTrue(math.isnan(pose.angle((0, 2, 0), (0, 0, 1))))
        self.assertIsNone(pose.score((0, 2, 0), (0, 0, 1)))
        self.assertIsNone(pose.score((0, 0, math.nan), (0, 0, 1)))
        # the square of the depth vanishes
        self.assertEqual(pose.score((0, 2, 1e-200), (0, 0, 1)), math.inf)
        self.assertTrue(math.isnan(pose.score((0, 0, 1e-200), (0, 0, 1))))


ROWS = ((0.8, 0.0, -0.6), (0.0, 1.0, 0.0), (0.6, 0.0, 0.8))
TRUE = poses.Pose(0, ROWS, (-0.25, -0.125, 2.0), False)
PLATE = ((0.0, 0.0, 0.0), (0.5, 0.0, 0.0), (0.0, 0.375, 0.0), (0.5, 0.375, 0.125))


def unit(vector):
    length = poses.norm(vector)
    return [x / length for x in vector]


class SampleFiles(unittest.TestCase):
    """The files of samples/."""

    def frames(self):
        found = records.decode("frames.bin", sample()[0])
        return [[numbers.doubles(vector) for _, vector in record.vectors()] for record in found]

    def test_the_worked_plate(self):
        frames, points = self.frames(), [list(point) for point in PLATE]
        bearings = [unit(TRUE.camera_point(point)) for point in points]
        self.assertEqual(frames[0], points[:3] + bearings[:3] + [points[3], bearings[3]])
        counts = [[4096 * x for x in point] for point in points]
        self.assertEqual(frames[1], counts[:3] + bearings[:3] + [counts[3], bearings[3]])
        self.assertEqual(frames[9], [frames[0][i] for i in (0, 2, 1, 3, 4, 5, 6, 7)])

    def test_its_poses(self):
        listed = listings.read("listing.txt", sample()[1]).frames
        for frame, scale in zip(listed, (1, 4096)):
            pose = frame.poses[frame.best - 1]
            for row, true in zip(pose.rows, ROWS):
                for x, y in zip(row, true):
                    self.assertAlmostEqual(x, y, delta=1e-13)
            for x, y in zip(pose.translation, TRUE.translation):
                self.assertAlmostEqual(x, scale * y, delta=scale * 1e-13)
        self.assertEqual([frame.refusal for frame in listed], [0] * 6 + [1, 2, 3, 0])

    def test_decimals(self):
        made = tool("listing", path("frames.bin"), path("listing.txt"))
        self.assertEqual(made, (0, content(path("decimals.txt")), ""))

    def test_a_changed_listing_has_other_decimals(self):
        text = sample()[1]
        changed = text.replace("bfcfffffffffffe8", "bfcfffffffffffe9", 1)
        self.assertNotEqual(changed, text)
        made = tool("listing", path("frames.bin"), "-", given=changed.encode())[1]
        self.assertNotEqual(made, content(path("decimals.txt")))

    def listed(self, data):
        """What the program lists of an input."""
        if not PROGRAM:
            self.skipTest("no program given")
        return subprocess.run([PROGRAM], input=data, capture_output=True).stdout

    def test_the_program(self):
        self.assertEqual(self.listed(sample()[0]), content(path("listing.txt")))

    def test_little_endian(self):
        """The refusals whose words name the byte order are those that it brings about."""
        data, worked = sample()[0], sample()[0][: records.SIZE]
        turned = b"".join(worked[i : i + 8][::-1] for i in range(3, records.SIZE, 8))
        listed = self.listed(worked[:3] + turned + b"\xc1\0" + data[2:])
        self.assertEqual(listed, b"poses v1\n1 refused 2\nstop 7 at 2\n")


class Drawing(unittest.TestCase):
    """docs/pose.svg, which is drawn of the sample."""

    def test_as_made(self):
        self.assertEqual(picture.drawing().encode(), content(picture.DRAWING))
        self.assertIn("camera (−0.05, −0.625, 2.15)", picture.drawing())

    def test_another_hole_is_another_drawing(self):
        kept, picture.HOLE_POINT = picture.HOLE_POINT, (0.25, -0.4, 0.0)
        try:
            self.assertNotEqual(picture.drawing().encode(), content(picture.DRAWING))
        finally:
            picture.HOLE_POINT = kept


if __name__ == "__main__":
    parser = argparse.ArgumentParser(
        description=__doc__, formatter_class=argparse.RawDescriptionHelpFormatter
    )
    parser.add_argument("--program", help="the program `poses`")
    PROGRAM = parser.parse_args().program
    unittest.main(argv=sys.argv[:1], warnings="ignore")
