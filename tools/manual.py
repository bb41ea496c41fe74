"""The manual page and bash's completion of the command, made from its argument parsers.

    python3 tools/manual.py page > quoting.1
    python3 tools/manual.py completion > quoting.bash
"""

import argparse
import sys
from pathlib import Path
from typing import Iterator

ROOT = Path(__file__).resolve().parent.parent
sys.path.insert(0, str(ROOT / "python"))

from quoting import cli  # noqa: E402

Parser = argparse.ArgumentParser


def subparsers(parser: Parser) -> dict[str, Parser]:
    found = (action.choices for action in parser._actions if isinstance(action, argparse._SubParsersAction))
    return dict(next(found, {}))


def walk(parser: Parser, words: tuple[str, ...] = ()) -> Iterator[tuple[tuple[str, ...], Parser]]:
    """A parser and all below it, each with the words that lead to it."""
    yield words, parser
    for name, each in subparsers(parser).items():
        yield from walk(each, (*words, name))


def arguments(parser: Parser) -> list[argparse.Action]:
    return [action for action in parser._actions if not isinstance(action, (argparse._SubParsersAction, argparse._HelpAction))]


# ---------------------------------------------------------------- the manual page


def plain(text: str) -> str:
    """A text as roff takes it: no line of it is a request."""
    lines = text.replace("\\", "\\e").replace("-", "\\-").splitlines()
    return "\n".join(f"\\&{line}" if line.startswith((".", "'")) else line for line in lines)


def invocation(action: argparse.Action) -> str:
    formatter = argparse.HelpFormatter("quoting")
    return formatter._format_action_invocation(action)


def help_of(parser: Parser, action: argparse.Action) -> str:
    return parser._get_formatter()._expand_help(action) if action.help else ""


def paragraphs(text: str) -> Iterator[str]:
    """A description: paragraphs, with indented lines as they are."""
    for part in text.strip().split("\n\n"):
        if any(line.startswith("  ") for line in part.splitlines()):
            yield f".PP\n.nf\n{plain(part)}\n.fi"
        else:
            yield f".PP\n{plain(' '.join(part.split()))}"


def part_of(words: tuple[str, ...], parser: Parser) -> Iterator[str]:
    """What the page says of a subcommand."""
    usage = " ".join(parser.format_usage().removeprefix("usage: ").split())
    yield f".SS quoting {' '.join(words)}"
    yield f".PP\n{plain(usage)}"
    yield from paragraphs(parser.description or "")
    for action in arguments(parser):
        yield f".TP\n\\fB{plain(invocation(action))}\\fR\n\\&{plain(help_of(parser, action))}"


def page() -> str:
    parser = cli.parser()
    version = (ROOT / "VERSION").read_text(encoding="utf-8").strip()
    head = [
        f'.TH QUOTING 1 "" "quoting {version}" "User Commands"', ".SH NAME", "quoting \\- the quoting meter of a market maker's programme",
        ".SH SYNOPSIS", ".B quoting\nSUBCOMMAND ...", ".SH DESCRIPTION", plain(parser.description or ""), ".SH SUBCOMMANDS",
    ]
    parts = [line for words, each in walk(parser) if words for line in part_of(words, each)]
    tail = [".SH EXIT STATUS", "0; 1 for a refusal or a failed check; 2 for wrong use.", ".SH SEE ALSO", "docs/GUIDE.md and docs/FORMATS.md of the repository."]
    return "\n".join([*head, *parts, *tail]) + "\n"


# ---------------------------------------------------------------- completion

SCRIPT = """# Completion of `quoting` for bash, made by tools/manual.py; in zsh after `autoload bashcompinit && bashcompinit`.
_quoting() {{
    local current="${{COMP_WORDS[COMP_CWORD]}}" before="${{COMP_WORDS[COMP_CWORD - 1]}}" path="" words="" names="" word
    for word in "${{COMP_WORDS[@]:1:COMP_CWORD-1}}"; do
        case "$path $word" in
            {paths}) path="$path $word" ;;
        esac
    done
    case "$path" in
{options}
    esac
    case "$path $before" in
{choices}
        *) ;;
    esac
    if [[ "$current" == -* ]]; then
        COMPREPLY=($(compgen -W "$words" -- "$current"))
    elif [[ -n "$names" ]]; then
        COMPREPLY=($(compgen -W "$names" -- "$current"))
    else
        COMPREPLY=($(compgen -f -- "$current"))
    fi
}}
complete -o filenames -F _quoting quoting
"""


def options_of(parser: Parser) -> str:
    return " ".join(sorted({name for action in parser._actions for name in action.option_strings}))


def chosen(words: tuple[str, ...], parser: Parser) -> Iterator[str]:
    """The values of options that have a list of them."""
    for action in arguments(parser):
        for name in action.option_strings if action.choices else ():
            yield f'        "{"".join(f" {word}" for word in words)} {name}") names="{" ".join(map(str, action.choices or ()))}" ;;'


def completion() -> str:
    found = list(walk(cli.parser()))
    paths = "|".join(f'"{"".join(f" {word}" for word in words)}"' for words, _ in found if words)
    options = [
        f'        "{"".join(f" {word}" for word in words)}") words="{options_of(each)}" names="{" ".join(subparsers(each))}" ;;' for words, each in found
    ]
    choices = [line for words, each in found for line in chosen(words, each)]
    return SCRIPT.format(paths=paths, options="\n".join(options), choices="\n".join(choices))


MADE = {"page": page, "completion": completion}

if __name__ == "__main__":
    if sys.argv[1:] not in [[name] for name in MADE]:
        sys.exit(f"usage: manual.py {'|'.join(MADE)}")
    sys.stdout.write(MADE[sys.argv[1]]())
