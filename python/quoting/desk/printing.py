"""Pages as PDF, by Chromium, where it is there."""

import os
import shutil
import subprocess
import tempfile
from pathlib import Path

from quoting import output
from quoting.native import Missing

BROWSERS = ("chromium", "chromium-browser", "google-chrome", "google-chrome-stable")
PATIENCE = 300  # seconds for one page


def browser() -> str:
    for name in BROWSERS:
        found = shutil.which(name)
        if found is not None:
            return found
    raise Missing("--pdf needs Chromium: apt-get install chromium")


def print_page(page: Path) -> Path:
    """Prints a page beside itself; the PDF's name."""
    made = page.with_suffix(".pdf")
    with tempfile.TemporaryDirectory(prefix="quoting-") as folder:
        words = [browser(), "--headless", "--disable-gpu", "--no-pdf-header-footer", f"--user-data-dir={folder}/profile", f"--print-to-pdf={folder}/page.pdf"]
        words += ["--no-sandbox"] * (os.geteuid() == 0)  # Chromium has no sandbox for root
        try:
            done = subprocess.run([*words, page.resolve().as_uri()], capture_output=True, timeout=PATIENCE, check=False)
        except subprocess.TimeoutExpired:
            raise Missing(f"{page}: Chromium did not print it within {PATIENCE} s") from None
        printed = Path(folder) / "page.pdf"
        if not printed.exists():
            last = done.stderr.decode("utf-8", "replace").strip().splitlines()[-1:]
            raise Missing(f"{page}: Chromium printed nothing" + "".join(f": {line}" for line in last))
        output.replace_file(made, [printed.read_bytes()])
    return made
