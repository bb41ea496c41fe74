r"""What an exchange confirmed in FIX logs: the orders of each symbol and account as changes in order of time, cut into quanta.

>>> from quoting import fix
>>> sent = [
...     b"35=8|37=9|11=A1|17=1|150=0|55=BR|1=M7|54=1|44=84.35|151=500|60=20261116-06:59:00|",
...     b"35=8|37=9|11=A1|17=2|150=F|55=BR|1=M7|54=1|32=200|60=20261116-07:00:01.250|",
... ]
>>> reader = LogReader({"BR": "0.01"})
>>> reader.feed("day.log", b"".join(fix.framed(each.replace(b"|", b"\x01")) for each in sent), is_final=True)
>>> list(reader.timelines)
[('BR', 'M7')]
>>> start = milliseconds("20261116-07:00:00")
>>> carried, events = quantum_of(reader.timelines.values(), start, start + 31_500_000)
>>> carried.events(), events.events()
([Add(t=0, id=1, side='buy', price=8435, volume=500)], [Deal(t=1250, id=1, volume=200)])
>>> reader.reasons, reader.counts.fills
([], 1)
"""

from quoting.exchange.book import Counts
from quoting.exchange.fields import milliseconds
from quoting.exchange.reader import LogReader
from quoting.exchange.reasons import Reason, Why
from quoting.exchange.timelines import Change, Quantum, Records, Timeline, quantum_of

__all__ = ["Change", "Counts", "LogReader", "Quantum", "Reason", "Records", "Timeline", "Why", "milliseconds", "quantum_of"]
