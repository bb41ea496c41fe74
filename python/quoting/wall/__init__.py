"""Every contract of a desk live on one page: `quoting desk watch DESK.toml`.

`state.Wall` keeps the figures and needs no server; `server` shows them.
"""
