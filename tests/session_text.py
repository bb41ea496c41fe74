"""Texts of sessions as the package reads and writes them."""

from quoting import reading, texts

to_bytes, to_text, row_words, lines = texts.session_bytes, texts.session_text, reading.seven_words, reading.lines
