"""The typed headers, quoting_typed.h, quoting_lines.h and quoting.hpp: by themselves, on lists of calls against `replay`, under the sanitizers and valgrind, and with a
month on each of four threads (tests/typed.c, tests/typed.cpp)."""

import random
import re
import shutil
import subprocess
from pathlib import Path
from typing import Iterator

import pytest

from quoting.states import State
from recount import programs
from tests import test_library
from tests.conftest import Note
from tests.paths import EXAMPLES, INCLUDE, LIBRARY, ROOT, TESTS

pytestmark = [pytest.mark.usefixtures("library", "programs"), pytest.mark.xdist_group("typed")]

STRICT = ["-Wall", "-Wextra", "-Wpedantic", "-Wshadow", "-Wconversion", "-Wsign-conversion", "-Wcast-qual", "-Wundef", "-Werror", f"-I{INCLUDE}"]
CPP_STRICT = [*STRICT, "-Wold-style-cast", "-Wzero-as-null-pointer-constant"]
SANITIZED = ["-g", "-O1", "-fsanitize=address,undefined", "-fno-sanitize-recover=all"]
VALGRIND = ["valgrind", "-q", "--error-exitcode=3"]
C_LANGUAGES = [("cc", "c", standard) for standard in ("c99", "c11", "c17")]
CPP_LANGUAGES = [("c++", "c++", standard) for standard in ("c++17", "c++20")]


def compiled(out: Path, *words: object) -> Path:
    done = subprocess.run([*map(str, words), "-o", str(out)], capture_output=True, text=True)
    assert done.returncode == 0, done.stderr
    return out


@pytest.mark.parametrize(("compiler", "language", "standard"), [*C_LANGUAGES, ("c++", "c++", "c++11"), *CPP_LANGUAGES])
def test_c_header_alone(tmp_path: Path, compiler: str, language: str, standard: str) -> None:
    source = tmp_path / "alone"
    source.write_text('#include "quoting_lines.h"\nint main(void) { return quoting_signed(0) + (QUOTING_PAIRS_WORDS(5) != 9) + (QUOTING_SCAN_ROW_WORDS(2) != 8); }\n')
    compiled(tmp_path / "out", compiler, f"-std={standard}", *(STRICT if language == "c" else CPP_STRICT), "-x", language, source, "-x", "none", LIBRARY / "libquoting.a")


@pytest.mark.parametrize(("compiler", "language", "standard"), CPP_LANGUAGES)
def test_cpp_header_alone(tmp_path: Path, compiler: str, language: str, standard: str) -> None:
    source = tmp_path / "alone"
    source.write_text('#include "quoting.hpp"\nint main() { return quoting::Status() ? 0 : 1; }\n')
    compiled(tmp_path / "out", compiler, f"-std={standard}", *CPP_STRICT, "-fno-exceptions", "-x", language, source)


C_DROPPED = "#include \"quoting_typed.h\"\nint main(void) { struct quoting_month m; quoting_month_start(&m); return 0; }\n"
CPP_DROPPED = '#include "quoting.hpp"\nint main() { quoting::Month m; m.tick(5); return 0; }\n'
CPP_DROPPED_ANSWER = '#include "quoting.hpp"\nint main() { quoting::Month m; m.report(); return 0; }\n'


@pytest.mark.parametrize(
    ("compiler", "language", "text"), [("cc", "c", C_DROPPED), ("c++", "c++", CPP_DROPPED), ("c++", "c++", CPP_DROPPED_ANSWER)])
def test_a_status_may_not_be_dropped(tmp_path: Path, compiler: str, language: str, text: str) -> None:
    source = tmp_path / "dropped"
    source.write_text(text)
    done = subprocess.run([compiler, *STRICT, "-x", language, "-c", source, "-o", tmp_path / "out"], capture_output=True, text=True)
    assert done.returncode != 0 and "unused-result" in done.stderr, done.stderr


def test_every_kind_of_call_has_a_function() -> None:
    header, typed = ((INCLUDE / name).read_text() for name in ("quoting.h", "quoting_typed.h"))
    kinds = set(re.findall(r"^    QUOTING_CALL_(\w+) = ", header, re.M))
    assert len(kinds) == 17
    missing = {kind for kind in kinds if not re.search(rf"quoting_month_{kind.lower()}\(\n?", typed) or f"QUOTING_CALL_{kind}" not in typed}
    assert not missing
    for name, body in re.findall(r"^static inline (?!QUOTING_CHECKED)[^\n(]*\b(quoting_\w+)\(([^)]*)\)", typed, re.M):
        assert "quoting_month *" not in body, f"{name} may be refused, and its status may be dropped"


# ---------------------------------------------------------------- on lists of calls


def lists(count: int) -> Iterator[tuple[bytes, str]]:
    """Lists, and what `replay` prints of their calls."""
    for data in test_library.some_lists(random.Random(5), count):
        printed = programs.replay(data)
        if not printed.endswith("too long\n") and len(data) < 1 << 20:
            yield data, "".join(line for line in printed.splitlines(True) if not line.startswith("stopped"))


def printed(words: list[object], data: bytes) -> str:
    done = subprocess.run([str(word) for word in words], input=data, capture_output=True, timeout=600)
    assert done.returncode == 0, (words, done.returncode, done.stderr.decode()[-2000:])
    return done.stdout.decode()


def test_typed_calls_under_sanitizers(tmp_path: Path, is_quick: bool, note: Note) -> None:
    typed = compiled(tmp_path / "typed", "cc", "-std=c11", *SANITIZED, *STRICT, "-pthread", TESTS / "typed.c", LIBRARY / "libquoting.a")
    count = 0
    for data, lines in lists(3 if is_quick else 12):
        assert printed([typed], data) == lines, data.hex()
        count += lines.count("\n")
    assert count > 500
    note(f"typed: {count} calls by their functions agree with replay")


def test_typed_calls_under_valgrind(tmp_path: Path) -> None:
    typed = compiled(tmp_path / "typed", "cc", "-std=c11", "-g", "-O2", *STRICT, "-pthread", TESTS / "typed.c", LIBRARY / "libquoting.a")
    for data, lines in list(lists(1))[:7]:
        assert printed([*VALGRIND, typed], data) == lines, data.hex()


def test_benchmark_of_calls(tmp_path: Path) -> None:
    """Its calls are all accepted."""
    program = compiled(tmp_path / "calls", "cc", "-std=c11", "-O2", *STRICT, ROOT / "bench" / "calls.c", LIBRARY / "libquoting.a")
    assert printed([program], b"").count(" ns\n") == 5


def test_cpp_month_under_sanitizers(tmp_path: Path) -> None:
    for standard in ("c++17", "c++20"):
        program = compiled(tmp_path / standard, "c++", f"-std={standard}", *SANITIZED, *CPP_STRICT, TESTS / "typed.cpp", LIBRARY / "libquoting.a")
        printed([program], b"")


def test_cpp_month_under_valgrind(tmp_path: Path) -> None:
    program = compiled(tmp_path / "typed", "c++", "-std=c++17", "-g", "-O2", "-fno-exceptions", *CPP_STRICT, TESTS / "typed.cpp", LIBRARY / "libquoting.a")
    printed([*VALGRIND, program], b"")


@pytest.mark.parametrize(("compiler", "source"), [("cc", "month.c"), ("cc", "client.c"), ("c++", "pairs.cpp"), ("clang", "month.c"), ("clang++", "pairs.cpp")])
def test_examples_without_a_warning(tmp_path: Path, compiler: str, source: str) -> None:
    if not shutil.which(compiler):
        pytest.skip(f"{compiler} is not installed")
    strict = [*CPP_STRICT, "-std=c++17"] if source.endswith(".cpp") else [*STRICT, "-std=c99"]
    compiled(tmp_path / "out", compiler, *strict, EXAMPLES / source, LIBRARY / "libquoting.a")


@pytest.mark.parametrize("name", ["kept", "no-bid", "no-ask", "neither", "crossed", "wide"])
def test_names_of_states(tmp_path: Path, name: str) -> None:
    """As the account prints them; what is no state has a name too."""
    source = tmp_path / "names.c"
    number = State[name.upper().replace("-", "_")].value
    source.write_text(
        '#include "quoting_lines.h"\n'
        f"int main(void) {{ puts(quoting_state_name((enum quoting_state) {number})); puts(quoting_state_name((enum quoting_state) 6)); return 0; }}\n"
    )
    assert printed([compiled(tmp_path / "out", "cc", *STRICT, source, LIBRARY / "libquoting.a")], b"") == f"{name}\nunknown\n"
