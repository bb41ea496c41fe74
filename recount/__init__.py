"""Document 01 worked out again, in another language than the meter's."""
