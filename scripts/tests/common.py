"""What the tests of the scripts share."""

import os
import subprocess
import sys
from pathlib import Path

sys.dont_write_bytecode = True
SCRIPTS = Path(__file__).resolve().parent.parent
TOP = SCRIPTS.parent
sys.path.insert(0, str(SCRIPTS))
import palp  # noqa: E402,F401

# The program that is built, or the one that the variable PROGRAM names.
PROGRAM = os.environ.get("PROGRAM") or str(TOP / "crates" / "palp_cli" / "out" / "palp_cli")
HAS_PROGRAM = os.access(PROGRAM, os.X_OK)


def run(words, text="", folder=None, seconds=300, **variables):
    """Runs a script in a folder, and returns its status, what it wrote and what it complained of."""
    words = [sys.executable, str(SCRIPTS / words[0]), *words[1:]] if words[0] in ("scan", "table", "hodge-plot", "build") else words
    environment = {**os.environ, "PALP": PROGRAM, "PYTHONDONTWRITEBYTECODE": "1", **variables}
    done = subprocess.run(
        words, input=text.encode(), stdout=subprocess.PIPE, stderr=subprocess.PIPE, cwd=folder, env=environment, timeout=seconds, check=False
    )
    return done.returncode, done.stdout.decode(), done.stderr.decode()
