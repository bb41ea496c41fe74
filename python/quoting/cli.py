"""The command `quoting`: its subcommands are the modules of quoting.commands, each with `add(parser)` and `run(args)`."""

import argparse
import os
import sys
from importlib import import_module
from pkgutil import iter_modules
from typing import Optional, Sequence

from quoting import commands, inputs, native, output
from quoting.reading import TextError

EPILOG = "Exit status: 0; 1 for a refusal or a failed check; 2 for wrong use. `quoting SUBCOMMAND --help` has examples."


def parser() -> argparse.ArgumentParser:
    made = argparse.ArgumentParser(prog="quoting", description="The quoting meter of a market maker's programme.", epilog=EPILOG)
    made.add_argument("--version", action="store_true", help="the library's version")
    subs = made.add_subparsers(metavar="SUBCOMMAND", dest="subcommand")
    for name in sorted(module.name for module in iter_modules(commands.__path__)):
        module = import_module(f"quoting.commands.{name}")
        about = (module.__doc__ or "").strip()
        sub = subs.add_parser(
            name, help=about.splitlines()[0], description=about, formatter_class=argparse.RawDescriptionHelpFormatter)
        module.add(sub)
        sub.set_defaults(run=module.run)
    return made


def run(args: argparse.Namespace) -> int:
    """A subcommand, its errors as sentences."""
    try:
        status: int = args.run(args)
        return status
    except TextError as error:
        output.complain(error.shown())
    except BrokenPipeError as error:
        silence()
        output.complain(f"{named(error)}: the reader has gone")
    except OSError as error:
        output.complain(f"{named(error)}: {error.strerror or error}")
        silence()
    except KeyboardInterrupt:
        output.complain("stopped")
        return 130
    except inputs.WrongUse as error:
        output.complain(str(error))
        return 2
    except (native.Refused, native.Missing, output.Closed, ValueError) as error:
        output.complain(str(error))
    return 1


def named(error: OSError) -> str:
    """The file of an error; errors of every file but standard output have its name."""
    return os.fsdecode(error.filename) if isinstance(error.filename, (str, bytes)) else "standard output"


def silence() -> None:
    """What could not be written is not tried again at the end."""
    if sys.stdout is not None and sys.stdout is sys.__stdout__:
        os.dup2(os.open(os.devnull, os.O_WRONLY), sys.stdout.fileno())


def show_version(args: argparse.Namespace) -> int:
    output.write(None, f"{native.version()}\n")
    return 0


def main(words: Optional[Sequence[str]] = None) -> int:
    output.prepare()
    made = parser()
    args = made.parse_args(words)
    if args.version:
        args.run = show_version
    elif args.subcommand is None:
        made.print_help(sys.stderr)
        return 2
    return run(args)
