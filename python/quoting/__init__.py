"""The quoting meter from Python, over libquoting, whose calls are proved.

>>> import quoting
>>> quoting.weight("7:00:00", "8:45:00", "60%")
20000
"""

from quoting import entry

__version__ = "1.4.0"  # of the package; `version()` is the library's

if entry.is_run_as_module():  # before any module that the current folder could replace
    entry.drop_current_folder()

from quoting import fix
from quoting.accounts import Account, account
from quoting.answers import Accepted, Answer, Asked, Cell, MonthReport, Outlook
from quoting.calculations import board, choose_row, ease, safe_minutes, sigma, volatile_day, weight
from quoting.calls import Strike, Ticket
from quoting.events import Add, Amend, Cancel, Deal, Event, Tick
from quoting.months import Applied, Month, Skipped, answers_to
from quoting.native import Missing, Refused, version
from quoting.rows import Row, Rule
from quoting.sessions import Session, session
from quoting.standings import Standing
from quoting.states import State, Stretch
from quoting.values import Tenths, milliseconds, tenths
from quoting.views import LiveOrder, View

__all__ = [
    "Accepted", "Account", "Add", "Amend", "Answer", "Applied", "Asked", "Cancel", "Cell", "Deal", "Event", "LiveOrder", "Missing", "Month", "MonthReport", "Outlook", "Refused", "Row",
    "Rule", "Session", "Skipped", "Standing", "State", "Stretch", "Strike", "Tenths", "Tick", "Ticket", "View", "account", "answers_to", "board", "choose_row", "ease", "fix", "milliseconds", "safe_minutes",
    "session", "sigma", "tenths", "version", "volatile_day", "weight", "__version__",
]
