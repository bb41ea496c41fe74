"""The command, as `python3 -m quoting` and the script ./quoting start it."""

import sys


def start() -> None:
    try:
        from quoting.cli import main

        status = main()
    except KeyboardInterrupt:  # before the command has begun
        sys.stderr.write("quoting: stopped\n")
        status = 130
    sys.exit(status)


if __name__ == "__main__":
    start()
