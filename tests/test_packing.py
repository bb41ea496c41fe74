"""What `make library` has built, packed and installed without the kit: a folder for pkg-config and CMake, a tar file, a wheel and a Debian package."""

import os
import shutil
import subprocess
import sys
from pathlib import Path

import pytest

from tests import session_text
from tests.paths import EXAMPLES, ROOT

pytestmark = [pytest.mark.usefixtures("library"), pytest.mark.xdist_group("packing")]

VERSION = (ROOT / "VERSION").read_text().strip()
PARTS = ("Makefile", "VERSION", "CHANGELOG.md", "setup.py", "pyproject.toml", "lib", "include", "python", "examples", "docs", "target/library")
SYSTEM = "/usr/bin:/bin"  # without rt

CLIENT = """cmake_minimum_required(VERSION 3.16)
project(client C CXX)
set(CMAKE_CXX_STANDARD 17)
find_package(quoting {version} REQUIRED)
add_executable(client client.c)
target_link_libraries(client quoting::static)
add_executable(pairs pairs.cpp)
target_link_libraries(pairs quoting::quoting)
"""


def run(*words: object, folder: Path, **settings: str) -> str:
    environment = {**os.environ, "PATH": SYSTEM, **settings}
    done = subprocess.run([str(word) for word in words], cwd=folder, env=environment, capture_output=True, text=True)
    if done.returncode != 0:
        raise RuntimeError(f"{words[0]} ended with {done.returncode}: {done.stdout}{done.stderr}")
    return done.stdout


@pytest.fixture(scope="module")
def tree(library: Path, tmp_path_factory: pytest.TempPathFactory) -> Path:
    """A copy of what packing needs; the kit is not on the path."""
    assert shutil.which("rt", path=SYSTEM) is None
    copy = tmp_path_factory.mktemp("tree")
    for part in PARTS:
        (copy / part).parent.mkdir(parents=True, exist_ok=True)
        if (ROOT / part).is_dir():
            shutil.copytree(ROOT / part, copy / part, symlinks=True, ignore=shutil.ignore_patterns("__pycache__", "*.egg-info"))
        else:
            shutil.copy(ROOT / part, copy / part)
    return copy


@pytest.fixture(scope="module")
def session(tmp_path_factory: pytest.TempPathFactory) -> Path:
    path = tmp_path_factory.mktemp("session") / "brent.bin"
    path.write_bytes(session_text.to_bytes((EXAMPLES / "brent.session").read_text()))
    return path


def built_by_cmake(prefix: Path, version: str, work: Path) -> Path:
    work.mkdir()
    for name in ("client.c", "pairs.cpp"):
        shutil.copy(EXAMPLES / name, work / name)
    (work / "CMakeLists.txt").write_text(CLIENT.format(version=version))
    run("cmake", "-S", work, "-B", work / "out", f"-DCMAKE_PREFIX_PATH={prefix}", folder=work)
    run("cmake", "--build", work / "out", folder=work)
    return work / "out"


def test_tar_file_by_cmake(tree: Path, session: Path, tmp_path: Path) -> None:
    run("make", "-s", "dist", f"PYTHON={sys.executable}", folder=tree)
    run("tar", "-C", tmp_path, "-xzf", tree / "target" / f"quoting-{VERSION}.tar.gz", folder=tree)
    out = built_by_cmake(tmp_path / f"quoting-{VERSION}", "1.0", tmp_path / "work")
    assert run(out / "client", session, folder=tmp_path) == "kept 23610000\n"
    with open(session, "rb") as file:
        done = subprocess.run([out / "pairs"], stdin=file, capture_output=True, text=True, check=True)
    assert done.stdout.startswith("kept 23610000 weight 12294\n")


def test_cmake_refuses_a_newer_version(tree: Path, tmp_path: Path) -> None:
    run("make", "-s", "install", f"DESTDIR={tmp_path}", "PREFIX=/usr", folder=tree)
    with pytest.raises(RuntimeError, match=f"quoting-config.cmake, version: {VERSION}"):
        built_by_cmake(tmp_path / "usr", "1.99", tmp_path / "work")


def test_libdir(tree: Path, tmp_path: Path) -> None:
    """The library in a folder of its own, found by pkg-config and by CMake."""
    run("make", "-s", "install", f"DESTDIR={tmp_path}", "PREFIX=/usr", "LIBDIR=/usr/lib/x86_64-linux-gnu", folder=tree)
    library = tmp_path / "usr/lib/x86_64-linux-gnu"
    assert not (tmp_path / "usr/lib/libquoting.a").exists() and (library / "libquoting.so").exists()
    flags = run("pkg-config", f"--define-variable=prefix={tmp_path}/usr", "--libs", library / "pkgconfig/quoting.pc", folder=tmp_path)
    assert f"-L{library}" in flags
    built_by_cmake(tmp_path / "usr", VERSION, tmp_path / "work")


def test_wheel(tree: Path, tmp_path: Path) -> None:
    """It is for every Python 3 of this system, and has the library."""
    run("make", "-s", "wheel", f"PYTHON={sys.executable}", folder=tree)
    [wheel] = (tree / "target").glob("*.whl")
    assert wheel.name.startswith(f"quoting-{VERSION}-py3-none-linux_"), wheel.name
    run(sys.executable, "-m", "zipfile", "-e", wheel, tmp_path, folder=tmp_path)
    said = run(sys.executable, "-c", "import quoting; print(quoting.version(), quoting.__file__)", folder=tmp_path, PYTHONPATH=str(tmp_path), QUOTING_LIBRARY="")
    assert said.split() == [VERSION, str(tmp_path / "quoting/__init__.py")]


def test_debian_package(tree: Path, tmp_path: Path) -> None:
    run("make", "-s", "deb", folder=tree)
    [package] = (tree / "target").glob("*.deb")
    assert run("dpkg-deb", "-f", package, "Package", "Version", folder=tree) == f"Package: libquoting\nVersion: {VERSION}\n"
    run("dpkg-deb", "-x", package, tmp_path, folder=tree)
    [shared] = tmp_path.glob("usr/lib/*/libquoting.so")
    built_by_cmake(tmp_path / "usr", VERSION, tmp_path / "work")
    assert shared.resolve().name == f"libquoting.so.{VERSION}" and (tmp_path / "usr/include/quoting.hpp").exists()


def test_nothing_built(tree: Path, tmp_path: Path) -> None:
    """Without a library, packing says what to run."""
    done = subprocess.run(["make", "-s", "install", f"DESTDIR={tmp_path}", f"LIBRARY={tmp_path}"], cwd=tree, capture_output=True, text=True)
    assert done.returncode != 0 and "run make library first" in done.stderr
