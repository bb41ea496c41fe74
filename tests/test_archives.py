"""The library is made of several archives (lib/link): the calls that must be fast are in objects of their own, with all that they run inlined."""

import re
import subprocess
from pathlib import Path

import pytest

from tests.paths import LIBRARY, ROOT

pytestmark = pytest.mark.usefixtures("library")

# The objects in which everything is inlined, and the call of each.
INLINED = {"session.o": "quoting_session", "c_records.o": "quoting_month_records"}


def functions(path: Path) -> dict[str, dict[str, set[str]]]:
    """Of each object of an archive, its functions: T those that programs see, t its own."""
    said = subprocess.run(["nm", "--defined-only", path], capture_output=True, text=True, check=True).stdout
    found: dict[str, dict[str, set[str]]] = {}
    for line in said.splitlines():
        if line.endswith(".o:"):
            found[line[:-1]] = here = {"T": set(), "t": set()}
        elif (symbol := re.fullmatch(r"[0-9a-f]+ ([Tt]) (.*)", line)):
            here[symbol[1]].add(symbol[2])
    return found


@pytest.fixture(scope="module")
def objects(library: Path) -> dict[str, dict[str, set[str]]]:
    return functions(library / "libquoting.a")


@pytest.mark.parametrize(("name", "call"), INLINED.items())
def test_everything_is_inlined(objects: dict[str, dict[str, set[str]]], name: str, call: str) -> None:
    assert objects[name]["T"] == {call}
    assert not objects[name]["t"], f"{name} has functions of its own, which {call} calls for every record: {sorted(objects[name]['t'])}"


def test_the_check_finds_functions(objects: dict[str, dict[str, set[str]]]) -> None:
    """The main object has many of its own, so `nm` does show them."""
    assert len(objects["quoting.o"]["t"]) > 10


def test_every_call_is_in_one_object(objects: dict[str, dict[str, set[str]]]) -> None:
    shown = [call for each in objects.values() for call in each["T"]]
    assert sorted(shown) == sorted(set(shown)), "two objects have the same call"


def test_symbol_versions() -> None:
    """Each exported call has the version that lib/quoting.map gives it, and addresses are bound as the library is loaded."""
    given = {}
    for version, calls in re.findall(r"^(QUOTING_[\d.]+) \{(.*?)\}", (ROOT / "lib" / "quoting.map").read_text(), re.M | re.S):
        given.update(dict.fromkeys(re.findall(r"\bquoting_\w+", calls), version))
    said = subprocess.run(["nm", "-D", "--defined-only", LIBRARY / "libquoting.so"], capture_output=True, text=True, check=True).stdout
    shown = dict(line.split()[-1].split("@@") for line in said.splitlines() if " T " in line)
    assert shown and shown == {call: given.get(call) for call in shown}
    dynamic = subprocess.run(["readelf", "-d", LIBRARY / "libquoting.so"], capture_output=True, text=True, check=True).stdout
    assert "NOW" in dynamic
