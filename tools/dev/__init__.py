"""Developers' tools: counts of lines, and the constants of the weight card."""
