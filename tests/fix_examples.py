"""FIX messages that were worked out by hand, and times after their start."""

from datetime import timedelta

from recount import fix
from recount.fix import END

LATE = 2**32  # past 32 bits of milliseconds
TIME = "20261115-10:00:00.000"
START = TIME.encode()

# Length and checksum of these were worked out with other tools; the last is an example that is
# widely printed, of another version and type.
NEW = "8=FIX.4.4|9=54|35=D|11=7|54=1|38=500|44=-99|60=20261115-10:00:00.000|10=211|"
CANCEL = "8=FIX.4.4|9=40|35=F|11=8|41=7|60=20261115-10:00:00.001|10=081|"
LONGEST = (
    "8=FIX.4.4|9=92|35=G|11=4294967295|41=4294967295|54=2|38=4294967295|44=-2147483648"
    "|60=99991231-23:59:59.999|10=236|"
)
PRINTED = (
    "8=FIX.4.2|9=178|35=8|49=PHLX|56=PERS|52=20071123-05:30:00.000|11=ATOMNOCCC9990900|20=3|150=E|39=E"
    "|55=MSFT|167=CS|54=1|38=15|40=2|44=15|58=PHLX EQUITY TESTING|59=0|47=C|32=0|31=0|151=15|14=0|6=0|10=128|"
)

BODIES = {
    "D": f"35=D|11=7|54=1|38=500|44=-99|60={TIME}|",
    "F": f"35=F|11=8|41=7|60={TIME}|",
    "G": f"35=G|11=8|41=7|54=1|38=500|44=-99|60={TIME}|",
}


def raw(text: str) -> bytes:
    """Bytes of a text with | for byte 1."""
    return text.encode("latin-1").replace(b"|", END)


def framed(body: str) -> bytes:
    return fix.framed(raw(body))


def at(t: int) -> str:
    """The time t milliseconds after the start."""
    return f"{fix.instant(START) + timedelta(milliseconds=t):%Y%m%d-%H:%M:%S.%f}"[:21]
