"""A maker's whole month: from the programme, the prices, the charges and the logs to each cell, the fee and the page to sign.

>>> from pathlib import Path
>>> shipped = Path(__file__).resolve().parents[3] / "examples" / "desk" / "desk.toml"
>>> desk = Desk.load(shipped)
>>> first = desk.plan()[0]
>>> first.contract.symbol, first.start.isoformat(), first.sp, first.is_eased
('GD-12.26', '2026-11-02T10:00:00+03:00', 39277, False)
>>> settled = desk.settle()
>>> [(month.instrument, month.failed, month.fee) for month in settled.months]
[('gold', 4, 11255633), ('platinum-mini', 5, 3423329)]
>>> settled.cells[1].cell.kept, settled.cells[1].cell.met, len(settled.reasons)
(12929405, True, 6)
"""

from quoting.desk.contracts import Contract
from quoting.desk.desks import Desk
from quoting.desk.faults import DeskError, Fault
from quoting.desk.plan import Planned, Volatility
from quoting.desk.programme import Hours, Instrument, Programme
from quoting.desk.settlement import InstrumentMonth, Remark, Settled, Settlement

__all__ = [
    "Contract", "Desk", "DeskError", "Fault", "Hours", "Instrument", "InstrumentMonth", "Planned", "Programme", "Remark", "Settled", "Settlement", "Volatility",
]
