"""`make demo`: each result is shown after what it rests on is proved, and a failure ends it. rt and make are replaced by scripts here."""

import os
import subprocess
import sys
from pathlib import Path

import pytest

from tests.paths import ROOT

pytestmark = [pytest.mark.usefixtures("library", "programs"), pytest.mark.xdist_group("demo")]

# As rt prints them; what it says of a crate begins with how it checks it.
RT = f"""#!/bin/sh
for name in $(grep -o '^[a-z_0-9]*' {ROOT}/crates.txt); do printf 'rt: chose --jobs 2 for %s\nlogic=proved functions=1 sum=0\n' $name; done
"""
SOME = """#!/bin/sh
printf 'rt: chose --jobs 2 for sheet\nlogic=proved functions=1 sum=0\n'
"""
MAKE = RT
REFUSES = """#!/bin/sh
printf 'rt: chose --jobs 2 for lists\nlogic=proved functions=0 sum=0\nrt: chose --jobs 2 for rules\nlogic=not-proved functions=1\n'
exit 1
"""


def run_demo(folder: Path, rt: str, make: str) -> "subprocess.CompletedProcess[str]":
    for name, text in (("rt", rt), ("make", make)):
        (folder / name).write_text(text)
        (folder / name).chmod(0o755)
    env = {**os.environ, "PATH": f"{folder}:{os.environ['PATH']}"}
    return subprocess.run([sys.executable, str(ROOT / "tools" / "demo.py")], env=env, capture_output=True, text=True, timeout=120)


def test_each_result_follows_its_proof(tmp_path: Path) -> None:
    done = run_demo(tmp_path, RT, MAKE)
    assert done.returncode == 0, done
    shown = [
        "1. A session:", ", 0 left", "carried  75.22% kept", "proved   74.12% kept", "16:41:10 to 16:47:06", "failed. The picture is target/demo/silver.svg",
        "2. A month:", "proved quoting;", "the fee 308 roubles 27 kopecks", "target/brent.html",
    ]
    places = [done.stdout.index(text) for text in shown]
    assert places == sorted(places) and len(done.stdout.splitlines()) < 45, done.stdout
    assert done.stdout.count(", 0 left") == 2 and "proved before" not in done.stdout and "<svg" in (ROOT / "target" / "demo" / "silver.svg").read_text(encoding="utf-8")


def test_what_was_proved_before_is_counted(tmp_path: Path) -> None:
    done = run_demo(tmp_path, SOME, MAKE)
    assert done.returncode == 0 and "the others were proved before; " in done.stdout and done.stdout.count(", 0 left") == 2, done


@pytest.mark.parametrize("rt, make, shown", [(REFUSES, MAKE, False), (RT, REFUSES, True)], ids=["session", "library"])
def test_what_is_not_proved_is_not_shown(tmp_path: Path, rt: str, make: str, shown: bool) -> None:
    done = run_demo(tmp_path, rt, make)
    assert done.returncode == 1 and "logic=not-proved" in done.stderr and "has failed" in done.stderr, done
    assert ("74.12%" in done.stdout) is shown and "the fee" not in done.stdout


def test_without_the_kit_it_says_so(tmp_path: Path) -> None:
    done = subprocess.run([sys.executable, str(ROOT / "tools" / "demo.py")], env={**os.environ, "PATH": str(tmp_path)}, capture_output=True, text=True)
    assert done.returncode == 1 and done.stderr.startswith("make demo needs rt") and not done.stdout, done
