"""What the script palp answers itself, and how it builds, with a stub in the place of the kit."""

import os
import shutil
import signal
import subprocess
import sys
import tempfile
import time
import unittest
from pathlib import Path

from common import HAS_PROGRAM, PROGRAM, TOP, run

# A stub of rt: it takes a while for each crate, notes it, and makes a program that prints its words. Where the file `fails` stands it fails,
# where `waits` stands it waits long, in a process of its own that is noted there, and where `edits` stands a source is edited meanwhile.
RT = """#!/bin/sh
echo "$1 $(basename "$PWD")" >>"$STARTS"
sleep 0.2
if [ -e ../../waits ]; then sleep 600 & echo $! >>../../waits; wait; fi
if [ -e ../../edits ]; then rm ../../edits; touch source; fi
if [ -e ../../fails ]; then echo 'the goal is open'; exit 1; fi
mkdir -p out
if [ "$1" = run ]; then printf '#!/bin/sh\\necho "ran $*"\\n' >out/palp_cli; chmod +x out/palp_cli; exit 2; fi
"""


class Words(unittest.TestCase):
    def palp(self, *words):
        return run([str(TOP / "palp"), *words])

    def test_help_and_version(self):
        self.assertEqual(self.palp("--help"), (0, (TOP / "docs" / "help.txt").read_text(encoding="utf-8"), ""))
        status, wrote, _ = self.palp("--version")
        self.assertEqual((status, wrote.splitlines()[0][:13]), (0, "palp, commit "))
        self.assertIn("kit rattle-kit", wrote)
        self.assertIn("writes exactly the report", " ".join(wrote.split()))

    def test_explain(self):
        for name in ("WeightSum", "points", "flat", "3", "69", "70", "73", "75", "130", "Conflict", "ScanM", "ScanN", "ConeFaces", "ConeN", "Coef"):
            status, wrote, said = self.palp("explain", name)
            self.assertEqual((status, said), (0, ""))
            self.assertLessEqual(max(len(it) for it in wrote.splitlines()), 80)
        self.assertEqual(self.palp("explain", "nothing"), (2, "", "palp: no note and no status is called nothing\n"))
        for words in ((), ("",)):
            self.assertEqual(self.palp("explain", *words)[0], 2)
        for words in (("text limit",), ("write", "fault"), ("ReadFault",)):
            self.assertEqual((self.palp("explain", *words)[0], self.palp("explain", *words)[2]), (0, ""))

    def test_no_folder_is_made_of_an_option(self):
        with tempfile.TemporaryDirectory() as room:
            for words in ((), ("",), ("--prefix",), ("-n",), ("a", "b")):
                status, wrote, said = run([str(TOP / "palp"), "install", *words], folder=room)
                self.assertEqual((status, wrote, said), (2, "", "palp: install takes one folder, as in: palp install ~/.local\n"))
            self.assertEqual(os.listdir(room), [])

    def test_names_with_examples_are_in_the_pages(self):
        headings = [it[3:].split(", ")[0] for it in (TOP / "docs" / "names.md").read_text(encoding="utf-8").splitlines() if it.startswith("## ")]
        pages = (TOP / "docs" / "formats.md").read_text(encoding="utf-8") + (TOP / "docs" / "limits.md").read_text(encoding="utf-8")
        for name in headings:
            self.assertTrue(f"| `{name}`" in pages or f"| {name} |" in pages or name.isdigit(), name)

    def test_man_page_is_made_of_the_help(self):
        made = subprocess.run([str(TOP / "scripts" / "man-page")], input=(TOP / "docs" / "help.txt").read_bytes(), stdout=subprocess.PIPE, check=True)
        self.assertEqual(made.stdout, (TOP / "docs" / "palp.1").read_bytes(), "run scripts/man-page < docs/help.txt > docs/palp.1")


@unittest.skipUnless(shutil.which("flock"), "flock is missing")
class Building(unittest.TestCase):
    def setUp(self):
        room = tempfile.TemporaryDirectory()
        self.addCleanup(room.cleanup)
        self.top = Path(room.name) / "a clone"
        for name in ("low", "lower", "high", "palp_cli", "unused"):
            (self.top / "crates" / name).mkdir(parents=True)
        (self.top / "crates.txt").write_text("# crates\nlower:\nlow: lower thiserror\nunused: low\n\nhigh: lower\npalp_cli: low high\n")
        (self.top / "scripts").mkdir()
        (self.top / "bin").mkdir()
        shutil.copy(TOP / "palp", self.top)
        shutil.copy(TOP / "scripts" / "build", self.top / "scripts")
        (self.top / "bin" / "rt").write_text(RT)
        (self.top / "bin" / "rt").chmod(0o755)
        self.starts = self.top / "starts"
        path = f"{self.top}/bin:{os.environ['PATH']}"
        self.environment = {**os.environ, "PATH": path, "STARTS": str(self.starts), "TMPDIR": room.name}

    def begin(self):
        streams = {"stdin": subprocess.DEVNULL, "stdout": subprocess.PIPE, "stderr": subprocess.PIPE}
        return subprocess.Popen([str(self.top / "palp"), "poly", "-n"], env=self.environment, **streams)

    def test_many_starts_build_once(self):
        begun = [self.begin() for _ in range(4)]
        ended = [it.communicate(timeout=300) for it in begun]
        self.assertEqual([it[0] for it in ended], [b"ran poly -n\n"] * 4)
        self.assertEqual(sorted(self.starts.read_text(encoding="utf-8").splitlines()), ["lib high", "lib low", "lib lower", "run palp_cli"])
        self.assertEqual(sum(b"proving palp_cli (4 of 4)" in it[1] for it in ended), 1)

    def test_a_failed_build(self):
        (self.top / "fails").touch()
        begun = self.begin()
        wrote, said = begun.communicate(timeout=300)
        self.assertEqual((begun.returncode, wrote), (70, b""))
        self.assertIn(b"the goal is open\n", said)
        (self.top / "fails").unlink()
        begun = self.begin()
        self.assertEqual((begun.communicate(timeout=300)[0], begun.returncode), (b"ran poly -n\n", 0))


    def test_an_edit_during_a_build(self):
        (self.top / "edits").touch()
        for starts in (4, 8, 8):
            begun = self.begin()
            self.assertEqual((begun.communicate(timeout=300)[0], begun.returncode), (b"ran poly -n\n", 0))
            self.assertEqual(len(self.starts.read_text(encoding="utf-8").splitlines()), starts)

    def runs(self, number):
        """Whether a process runs on for a while. One that has ended and that nobody waited for doesn't run."""
        for _ in range(300):
            try:
                if Path(f"/proc/{number}/stat").read_text(encoding="utf-8").rpartition(")")[2].split()[0] in "ZX":
                    return False
            except OSError:
                return False
            time.sleep(0.1)
        return True

    def test_no_proof_runs_on(self):
        for ended, number, status in (("build", signal.SIGTERM, 143), ("build", signal.SIGINT, 130), ("palp", signal.SIGKILL, -9)):
            waits = self.top / "waits"
            waits.write_text("")
            words = [str(self.top / "palp"), "poly"] if ended == "palp" else [sys.executable, str(self.top / "scripts" / "build")]
            begun = subprocess.Popen(words, env=self.environment, stdin=subprocess.DEVNULL, stdout=subprocess.DEVNULL, stderr=subprocess.DEVNULL)
            for _ in range(1200):
                if waits.read_text(encoding="utf-8").endswith("\n"):
                    break
                time.sleep(0.1)
            begun.send_signal(number)
            self.assertEqual(begun.wait(60), status)
            self.assertFalse(any(self.runs(int(it)) for it in waits.read_text(encoding="utf-8").split()))


@unittest.skipUnless(HAS_PROGRAM, "the program isn't built")
class Installing(unittest.TestCase):
    def test_what_is_installed_works_alone(self):
        with tempfile.TemporaryDirectory() as room:
            # The program stands in a clone of its own, since the one in this clone may be older than a source.
            top, to = Path(room) / "clone", Path(room) / "to"
            (top / "crates" / "palp_cli" / "out").mkdir(parents=True)
            (top / "crates.txt").touch()
            shutil.copytree(TOP / "docs", top / "docs")
            shutil.copytree(TOP / "scripts", top / "scripts")
            for name in ("palp", "README.md"):
                shutil.copy(TOP / name, top)
            shutil.copy(PROGRAM, top / "crates" / "palp_cli" / "out" / "palp_cli")
            self.assertEqual(run([str(top / "palp"), "install", str(to)])[0], 0)
            shutil.rmtree(top)
            self.assertEqual(run([str(to / "bin" / "palp"), "poly", "-n"], "3 1 1 1\n", PATH="/usr/bin:/bin"), (0, "3 1 1 1 M:10 3 F:3\n", ""))
            self.assertEqual(run([str(to / "bin" / "palp"), "explain", "Points"])[0], 0)
            self.assertEqual(run([str(to / "bin" / "palp"), "--version"])[1][:13], "palp, commit ")
            self.assertEqual(run([str(to / "bin" / "palp"), "install", room])[0], 2)
            status, wrote, _ = run([str(to / "bin" / "palp-table"), "--columns", "points"], "M:11 3 F:3\n")
            self.assertEqual((status, wrote), (0, "points\n11\n"))
            lines = f"import sys; sys.path.insert(0, {str(to / 'share' / 'palp')!r}); import palp; print(palp.command())"
            self.assertEqual(run([sys.executable, "-c", lines], PALP="")[1], f"{(to / 'bin' / 'palp').resolve()}\n")
            self.assertTrue((to / "share" / "man" / "man1" / "palp.1").exists())


if __name__ == "__main__":
    unittest.main()
