"""Where modules are searched for when Python is started with `-m quoting`: not in the current folder.

`python3 -m` puts the current folder first on sys.path, so that a file csv.py among a maker's files would run in place of Python's own.
This module is imported before all others of the package, and imports only what is built into Python.
"""

import sys


def command_line() -> list[str]:
    """All words with which Python was started; before Python 3.10 the system has them."""
    found = getattr(sys, "orig_argv", None)
    if found is None:
        try:
            with open("/proc/self/cmdline", encoding="utf-8", errors="surrogateescape") as file:
                found = file.read().split("\0")[:-1]
        except OSError:
            found = []
    return list(found)


def is_run_as_module() -> bool:
    """Whether this import is the start of `python3 -m quoting`: until the module is found, the first argument is -m, and on the command
    line the module is in its place."""
    words, count = command_line(), len(sys.argv)
    named = words[-count] if 0 < count <= len(words) else ""
    return sys.argv[:1] == ["-m"] and named.replace("-m", "", 1).split(".")[0] == "quoting"


def drop_current_folder() -> None:
    """Drops the entry that Python has put first, unless an option (-P, -I) has kept it from doing so."""
    if not (getattr(sys.flags, "safe_path", False) or sys.flags.isolated):
        del sys.path[0]
