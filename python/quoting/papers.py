"""The pages for print, the statement and the desk's page: their templates have one style (papers.css) and share some parts (papers.html)."""

from importlib import import_module
from pathlib import Path
from typing import Any, Callable

from quoting.native import Missing

HERE = Path(__file__).parent


def template(name: str, **filters: Callable[..., Any]) -> Any:
    """A page's template, by its path in the package."""
    try:
        jinja: Any = import_module("jinja2")
    except ImportError:
        raise Missing("the pages need Jinja2: apt-get install python3-jinja2") from None
    loader = jinja.FileSystemLoader(HERE)
    made = jinja.Environment(loader=loader, autoescape=True, trim_blocks=True, lstrip_blocks=True, undefined=jinja.StrictUndefined)
    made.filters.update(filters)
    return made.get_template(name)


def safe(text: str) -> Any:
    """A text that is HTML already."""
    return import_module("jinja2.utils").markupsafe.Markup(text)
