"""Locked and crossed quotes (document 02, W2): which of them a recount meets."""

from recount import book
from tests.seen_quotes import seen_quotes

LOCKED, CROSSED = MUST_SHOW = "a locked quote", "a crossed quote"


def kept_before(row, sp, gap):
    """Document 01's sentence alone: what a, SP and b keep, or a strike's limit in their place."""
    return book.narrow(row, sp, gap)


def kind_of(row, sp, bid, ask):
    if ask <= bid and kept_before(row, sp, ask - bid):
        yield LOCKED if ask == bid else CROSSED


def noted():
    """The set of those that the recount meets for a millisecond or more, and that a, SP and b alone
    would have kept: in each such case K is less than without W2's sentence.
    """
    return seen_quotes(kind_of)
