"""What scan, table and hodge-plot do, with the program that is built."""

import csv
import io
import json
import os
import shutil
import signal
import subprocess
import sys
import tempfile
import time
import unittest
from pathlib import Path

from common import HAS_PROGRAM, PROGRAM, SCRIPTS, palp, run

REPORT = "5 1 1 1 1 1 M:126 5 N:6 5 H:1,101 [-200]\nM:11 3 F:3\n"
PARTITIONS = "4 1 1 1 1 M:35 4 N:5 4 codim=2\nP:1 V:0 0 0 1 H:1 [0]\nP:2 V:0 0 1 0 H:1 [0]\n#nef:2\n"
# Items that are reported, refused and faulty, in turn; the last one is a matrix with a word in it.
MIXED = "3 1 1 1\n3 2\n0 0\n1 1\n2 2\n5 1 1 1 1\n2 1 1 0 0 2 0 0 1 1\n3 2\n-1 -1\n3 x\n-1 2\n4 1 1 1 1\n"
MIXED_REPORT = "3 1 1 1 M:10 3 F:3\n2 1 1 0 0 2 0 0 1 1 M:9 4 F:4\n4 1 1 1 1 M:35 4 F:4\n"
CAUSES = ["item 2: flat: -1 1 0", "item 3: line 6 column 1: WeightSum", "item 5: line 10 column 3: BadNumber"]
HAS_PARALLEL = shutil.which("parallel") is not None and run(["parallel", "--version"])[1].startswith("GNU parallel")


class Table(unittest.TestCase):
    def test_forms(self):
        status, wrote, _ = run(["table"], REPORT)
        rows = list(csv.DictReader(io.StringIO(wrote)))
        self.assertEqual((status, [it["points"] for it in rows], rows[0]["h21"], rows[1]["h21"]), (0, ["126", "11"], "101", ""))
        status, wrote, _ = run(["table", "--as", "json", "--columns", "points,euler"], REPORT)
        self.assertEqual([json.loads(it) for it in wrote.splitlines()], [{"points": 126, "euler": -200}, {"points": 11, "euler": None}])
        status, wrote, _ = run(["table", "--as", "list", "--columns", "weights,h11"], REPORT)
        self.assertEqual(eval(wrote.split("\n", 1)[1]), [[[5, 1, 1, 1, 1, 1], 1], [None, None]])

    def test_partitions_have_rows(self):
        rows = list(csv.DictReader(io.StringIO(run(["table"], PARTITIONS)[1])))
        self.assertEqual([(it["partition"], it["parts"], it["h10"], it["euler"]) for it in rows], [("1", "0 0 0 1", "1", "0"), ("2", "0 0 1 0", "1", "0")])

    def test_bad_input(self):
        for words, text, status, line in [
            (["table"], "M:11 3 F:3\nhello\n", 3, "table: standard input: line 2: not a line of a report: 'hello'\n"),
            (["table", "/nowhere"], "", 2, "table: /nowhere: No such file or directory\n"),
            (["table", "--columns", "colour"], "", 2, "table: no column is called 'colour'; table --help tells the columns\n"),
            (["hodge-plot"], REPORT, 2, None),
            (["hodge-plot", "--to", "x.gif"], REPORT, 2, None),
            (["hodge-plot", "--to", "x.png"], "M:11 3 F:3\n", 3, "hodge-plot: no line has the Hodge numbers of a threefold, so there is nothing to draw\n"),
        ]:
            found, _, said = run(words, text)
            self.assertEqual((found, said.count("\n"), said if line else None), (status, 1, line))

    def test_a_full_disk(self):
        if not os.path.exists("/dev/full"):
            self.skipTest("/dev/full is missing")
        for words in (["table"], ["hodge-plot", "--help"]):
            with open("/dev/full", "wb") as full:
                done = subprocess.run([sys.executable, str(SCRIPTS / words[0]), *words[1:]], input=REPORT.encode(), stdout=full, stderr=subprocess.PIPE, check=False)
            self.assertEqual((done.returncode, done.stderr.decode()), (7, f"{words[0]}: No space left on device\n"))

    def test_a_closed_pipe(self):
        for words in (["table"], ["hodge-plot", "--help"], ["scan", "--help"]):
            reading, writing = os.pipe()
            os.close(reading)
            done = subprocess.run(
                [sys.executable, str(SCRIPTS / words[0]), *words[1:]], input=REPORT.encode(), stdout=writing, stderr=subprocess.PIPE, check=False
            )
            os.close(writing)
            self.assertEqual((done.returncode, done.stderr.decode()), (-signal.SIGPIPE, ""))

    def test_closed_streams(self):
        for closing, status, line in (("<&-", 2, "table: standard input is closed\n"), (">&-", 7, "table: standard output is closed\n")):
            found, _, said = run(["sh", "-c", f'"$0" "$1" {closing}', sys.executable, str(SCRIPTS / "table")])
            self.assertEqual((found, said), (status, line))

    def test_help(self):
        for name in ("scan", "table", "hodge-plot", "build"):
            status, wrote, said = run([name, "--help"])
            self.assertEqual((status, said), (0, ""))
            self.assertLessEqual(max(len(it) for it in wrote.splitlines()), 80)


class Picture(unittest.TestCase):
    def test_kinds_of_files(self):
        if run([sys.executable, "-c", "import matplotlib"])[0]:
            self.skipTest("matplotlib is missing")
        with tempfile.TemporaryDirectory() as folder:
            for end, begins in ((".svg", b"<?xml"), (".png", b"\x89PNG"), (".pdf", b"%PDF")):
                picture = Path(folder) / f"picture{end}"
                status, _, said = run(["hodge-plot", "--to", str(picture)], REPORT, MPLCONFIGDIR=folder)
                self.assertEqual((status, said.count("1 Calabi-Yau threefolds with 1 pairs")), (0, 1))
                self.assertTrue(picture.read_bytes().startswith(begins))


class Texts(unittest.TestCase):
    def test_forms(self):
        self.assertEqual(palp.text_of(["3 1 1 1\n", [3, 1, 1, 1], [(0, 0), [1, 0], (0, 1)]]), b"3 1 1 1\n3 1 1 1\n3 2\n0 0\n1 0\n0 1\n")

    def test_what_is_no_item(self):
        for items, word in [
            ([5, 1, 1, 1, 1, 1], "5 is none"),
            ([[3, 1, 1, 1.5]], "1.5 is none"),
            ([[3, 1, 1.0, 1]], "1.0 is none"),
            ([["3", "1", "1", "1"]], "'3' is none"),
            ([[(0, 0), (1, 0), (0, "1")]], "'1' is none"),
            ([[(0, 0), (1,)]], "equally many coordinates"),
            ([[3, 1]], "three or more"),
        ]:
            with self.assertRaises(ValueError) as raised:
                palp.text_of(items)
            self.assertIn(word, str(raised.exception))
        with self.assertRaises(ValueError):
            palp.run(["poly", "-n"], [[3, 1, 1, 1]])


@unittest.skipUnless(HAS_PROGRAM, "the program isn't built")
class Runs(unittest.TestCase):
    def setUp(self):
        os.environ["PALP"] = PROGRAM

    def test_one_record_an_item(self):
        records = palp.run("poly -n", MIXED)
        self.assertEqual([it.points for it in records], [10, None, None, 9, None, 35])
        self.assertEqual([f"item {it.item}: {it.cause}" for it in records if it.cause], CAUSES)
        self.assertEqual([it.item for it in records], [1, 2, 3, 4, 5, 6])
        self.assertEqual(palp.run("poly -n", []), [])

    def test_other_causes(self):
        for words, status in (("poly -x", 2), ("cws -w2 6 3", 2)):
            for items in ([], [[3, 1, 1, 1]]):
                with self.assertRaises(palp.ProgramFault) as raised:
                    palp.run(words, items)
                self.assertEqual(raised.exception.status, status)


@unittest.skipUnless(HAS_PROGRAM and HAS_PARALLEL, "GNU parallel, or the built program, is missing")
class Scan(unittest.TestCase):
    def setUp(self):
        self.room = tempfile.TemporaryDirectory()
        self.addCleanup(self.room.cleanup)

    def scan(self, *words, text=MIXED):
        return run(["scan", *words], text, folder=self.room.name, PARALLEL_HOME=self.room.name)

    def test_none_is_lost(self):
        for block in ("2", "100"):
            status, wrote, said = self.scan("--block", block, "poly", "-n")
            self.assertEqual((status, wrote), (3, MIXED_REPORT))
            self.assertEqual(said, "".join(f"palp: {it}\n" for it in CAUSES) + "scan: 6 items: 3 reported, 1 refused, 2 faulty\n")
        self.assertEqual([it for it in os.listdir(self.room.name) if it.startswith("scan-")], [])

    def test_a_number_of_thousands_of_digits(self):
        status, wrote, said = self.scan("poly", "-n", text="9" * 5000 + " 2\n3 1 1 1\n")
        self.assertEqual((status, wrote), (3, "3 1 1 1 M:10 3 F:3\n"))
        self.assertEqual(said, "palp: item 1: line 1 column 1: NumberRange\nscan: 2 items: 1 reported, 0 refused, 1 faulty\n")

    def test_slices_are_the_list(self):
        parts = [self.scan("--slice", f"{k}/2", "poly", "-n") for k in (1, 2)]
        self.assertEqual("".join(it[1] for it in parts), MIXED_REPORT)
        notes = [line for it in parts for line in it[2].splitlines() if line.startswith("palp: ")]
        self.assertEqual(notes, [f"palp: {it}" for it in CAUSES])

    @unittest.skipUnless(os.environ.get("INTERRUPT_TEST"), "it waits and interrupts, and runs where the variable INTERRUPT_TEST is set")
    def test_goes_on_after_an_interrupt(self):
        # The program is slow here, and leaves a mark at each start.
        slow = Path(self.room.name) / "slow"
        slow.write_text(f'#!/bin/sh\necho >>"{self.room.name}/starts"\nsleep 0.5\nexec "{PROGRAM}" "$@"\n')
        slow.chmod(0o755)
        text, words = "3 1 1 1\n" * 12, [sys.executable, str(SCRIPTS / "scan"), "--jobs", "2", "--block", "1", "--folder", "f", "poly", "-n"]
        environment = {**os.environ, "PALP": str(slow), "PARALLEL_HOME": self.room.name}
        streams = {"stdin": subprocess.PIPE, "stdout": subprocess.PIPE, "stderr": subprocess.PIPE}
        begun = subprocess.Popen(words, cwd=self.room.name, env=environment, **streams)
        begun.stdin.write(text.encode())
        begun.stdin.close()
        jobs = Path(self.room.name) / "f" / "jobs"
        for _ in range(1200):
            if jobs.exists() and len(jobs.read_text(encoding="utf-8").splitlines()) > 4:
                break
            time.sleep(0.1)
        begun.send_signal(signal.SIGINT)
        self.assertEqual(begun.wait(120), 130)
        self.assertIn(b"interrupted", begun.stderr.read())
        begun.stdout.close()
        begun.stderr.close()
        starts = len((Path(self.room.name) / "starts").read_text(encoding="utf-8"))
        done = subprocess.run(words, input=text.encode(), cwd=self.room.name, env=environment, stdout=subprocess.PIPE, stderr=subprocess.PIPE, check=False)
        self.assertEqual((done.returncode, done.stdout.decode()), (0, "3 1 1 1 M:10 3 F:3\n" * 12))
        self.assertLess(len((Path(self.room.name) / "starts").read_text(encoding="utf-8")) - starts, 12)

    def test_bad_words(self):
        for words, status in [
            (["poly", "-x"], 2),
            (["cws", "-w2", "3", "6"], 2),
            (["help"], 2),
            (["explain", "Points"], 2),
            (["install", "here"], 2),
            (["--sshloginfile", "/nowhere", "poly", "-n"], 2),
            ([], 2),
            (["--block", "0", "poly", "-n"], 2),
            (["--slice", "4/3", "poly", "-n"], 2),
            (["--slice", "1/" + "9" * 5000, "poly", "-n"], 2),
            (["--in", "/nowhere", "poly", "-n"], 2),
        ]:
            found, wrote, said = self.scan(*words)
            self.assertEqual((found, wrote, said.count("\n")), (status, "", 1))

    def test_one_item(self):
        self.assertEqual(self.scan("poly", "-n", text="3 1 1 1\n")[2], "scan: 1 item: 1 reported, 0 refused, 0 faulty\n")

    def test_a_failed_block(self):
        # The program fails where it reads a system of degree 4, until it is mended.
        broken = Path(self.room.name) / "broken"
        test = f'if [ ! -e "{self.room.name}/mended" ] && echo "$text" | grep -q ^4; then exit 9; fi'
        broken.write_text(f'#!/bin/sh\ntext=$(cat)\n{test}\nprintf "%s\\n" "$text" | "{PROGRAM}" "$@"\n')
        broken.chmod(0o755)
        words = ["scan", "--block", "1", "--folder", "f", "poly", "-n"]
        text = "3 1 1 1\n4 1 1 1 1\n"
        status, wrote, said = run(words, text, folder=self.room.name, PALP=str(broken), PARALLEL_HOME=self.room.name)
        self.assertEqual((status, wrote), (75, ""))
        self.assertEqual(said, "scan: 1 of 2 blocks failed; the same command tries them again (f): scan: item 2: palp: the program failed\n")
        (Path(self.room.name) / "mended").touch()
        status, wrote, said = run(words, text, folder=self.room.name, PALP=str(broken), PARALLEL_HOME=self.room.name)
        self.assertEqual((status, wrote), (0, "3 1 1 1 M:10 3 F:3\n4 1 1 1 1 M:35 4 F:4\n"))

    def test_another_list_in_the_folder(self):
        folder = Path(self.room.name) / "f"
        folder.mkdir()
        (folder / "sum").write_text("another")
        status, _, said = self.scan("--folder", "f", "poly", "-n")
        self.assertEqual((status, said), (2, "scan: f isn't a folder of this command and list; name another one by --folder\n"))


class Missing(unittest.TestCase):
    def test_tools_that_are_missing(self):
        with tempfile.TemporaryDirectory() as folder:
            status, _, said = run(["scan", "poly", "-n"], "3 1 1 1\n", PATH=folder)
            self.assertEqual((status, said), (69, "scan: GNU parallel is missing: apt-get install parallel\n"))


if __name__ == "__main__":
    unittest.main()
