"""Puts the library that `make library` has built into the package, so that an installed one finds it beside itself."""

import shutil
from pathlib import Path

from setuptools import setup
from setuptools.command.build_py import build_py
from setuptools.dist import Distribution

try:
    from setuptools.command.bdist_wheel import bdist_wheel
except ImportError:  # before setuptools 70
    from wheel.bdist_wheel import bdist_wheel

LIBRARY = Path(__file__).resolve().parent / "target" / "library" / "libquoting.so"
BUILT = LIBRARY.with_name("BUILT")  # its version, its commit and the kit that proved it


class BuildWithLibrary(build_py):
    def run(self) -> None:
        super().run()
        if not LIBRARY.exists():
            raise SystemExit("target/library is not built: run make library first")
        shutil.copyfile(LIBRARY, Path(self.build_lib) / "quoting" / "libquoting.so")
        if BUILT.exists():
            shutil.copyfile(BUILT, Path(self.build_lib) / "quoting" / "BUILT")


class OfOneMachine(Distribution):
    """The package holds compiled code."""

    def has_ext_modules(self) -> bool:
        return True


class WheelOfEveryPython(bdist_wheel):
    """The library is loaded by ctypes: there is no extension module, so the wheel is for every Python 3 of its system."""

    def get_tag(self) -> tuple[str, str, str]:
        return "py3", "none", super().get_tag()[2]


setup(cmdclass={"build_py": BuildWithLibrary, "bdist_wheel": WheelOfEveryPython}, distclass=OfOneMachine)
