"""The 186 cells of a month by their places, the calls that show them all, and document 01's numbers for the fee.

>>> len(CELLS), CELLS[0], len(SHOW_ALL)
(186, (1, 1, 0), 187)
"""

from quoting import calls as c

Place = tuple[int, ...]  # day, expiry and quantum; without the day, a series

DAYS = range(1, 32)
SERIES: list[Place] = [(expiry, quantum) for expiry in (1, 2) for quantum in (0, 1, 2)]
CELLS: list[Place] = [(day, *series) for day in DAYS for series in SERIES]

LOOKS = [c.block(c.Look(*cell)) for cell in CELLS]
SHOW_ALL = [*LOOKS, c.block(c.Report())]

DIVISOR, CAP = 80_000, 120_000_000  # of the fee: by what the sum is divided, and the most that is paid, in kopecks
ALLOWED = 15  # failed quanta of a series
