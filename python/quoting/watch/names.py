"""Names of files, as the page and the command show them."""

import os


def name_text(name: str) -> str:
    """A file's name as the page shows it: bytes that are not UTF-8 are escaped.

    >>> name_text("day.calls"), name_text("day\\udcff.calls")
    ('day.calls', 'day\\\\xff.calls')
    """
    return os.fsencode(name).decode("utf-8", "backslashreplace")
