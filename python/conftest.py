"""The examples in the package's docstrings need the library."""

import pytest

from tests.conftest import archives, library  # noqa: F401 (fixtures)


@pytest.fixture(autouse=True)
def built_library(library: object) -> None:  # noqa: F811
    """Waits for the library, or fails without it."""
