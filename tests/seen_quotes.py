"""What the recount meets while it judges the best quotes of a session."""

from contextlib import contextmanager

from recount import book


@contextmanager
def seen_quotes(look):
    """The set of what `look(row, sp, bid, ask)` yields for both best quotes, each time that the recount judges two."""
    seen, within = set(), book.within

    def noting(row, sp, bid, ask):
        if bid is not None and ask is not None:
            seen.update(look(row, sp, bid, ask))
        return within(row, sp, bid, ask)

    book.within = noting
    try:
        yield seen
    finally:
        book.within = within
