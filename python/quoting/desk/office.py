"""What an office signs: who, which month, by which files and versions. The page of the desk and each statement have it."""

import datetime as dt
import os
from hashlib import sha256
from zoneinfo import ZoneInfo

from quoting import native
from quoting.desk.desks import Desk
from quoting.desk.logs import LogsRead
from quoting.formats import counted
from quoting.statement.page import InputFile, Office



def made_at(zone: str) -> str:
    """When the pages are made; SOURCE_DATE_EPOCH fixes it, for pages that are compared."""
    given = os.environ.get("SOURCE_DATE_EPOCH", "")
    now = dt.datetime.fromtimestamp(int(given), dt.timezone.utc) if given.isdigit() else dt.datetime.now(dt.timezone.utc)
    local = now.astimezone(ZoneInfo(zone))
    return f"{date_text(local.date())}, {local:%H:%M:%S} ({zone})"


def date_text(day: dt.date) -> str:
    """A date for people.

    >>> date_text(dt.date(2026, 11, 4))
    '4 November 2026'
    """
    return f"{day.day} {day:%B %Y}"


def period_text(desk: Desk) -> str:
    first, last = desk.date(1), (desk.date(28) + dt.timedelta(days=4)).replace(day=1) - dt.timedelta(days=1)
    return f"{first.day} to {date_text(last)}, {counted(len(desk.days), 'trading day')}"


def holiday_text(desk: Desk) -> str:
    return ", holiday table on day " + ", ".join(map(str, sorted(desk.holidays))) if desk.holidays else ""


def accounts_text(desk: Desk, instrument: str = "") -> str:
    """The accounts whose orders count, of all contracts or of one instrument's."""
    own = [each for each in desk.contracts if instrument in ("", each.month)]
    named = sorted({account for each in own for account in each.accounts or ()})
    everything = [each.symbol for each in own if each.accounts is None]
    more = f"every account of {', '.join(dict.fromkeys(everything))}" if everything else ""
    return "; ".join(filter(None, [", ".join(named), more]))


def files_of(desk: Desk, read: LogsRead) -> list[InputFile]:
    """All input files: those of the desk as they were read, then the logs."""
    small = [InputFile(each.name, len(each.data), sha256(each.data).hexdigest()) for each in desk.inputs if each.data is not None]
    return small + [InputFile(name, *found) for name, found in read.files.items()]


def versions() -> str:
    built = native.built()
    kit = f", proved with {built['kit']}" if "kit" in built else "; the kit that it was proved with is not recorded beside it"
    commit = f", commit {built['commit'][:12]}" if "commit" in built else ""
    return f"libquoting {native.version()}{commit}{kit}"


def office_of(desk: Desk, read: LogsRead, instrument: str = "") -> Office:
    facts = [
        ("client", desk.maker), ("period", period_text(desk)), ("contract", desk.agreement),
        ("programme", f"{desk.programme.name} ({desk.programme_file}){holiday_text(desk)}"), ("accounts", accounts_text(desk, instrument)),
        ("times", desk.programme.timezone), ("library", versions()), ("made", made_at(desk.programme.timezone))]
    return Office([(name, text) for name, text in facts if text], files_of(desk, read), versions())
