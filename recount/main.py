"""The recount on the command line.

    python3 recount/main.py replay < words       as the program replay
    python3 recount/main.py sheet < bytes        as the program sheet
    python3 recount/main.py account < bytes      as the program account
    python3 recount/main.py probe < bytes        as the program probe
    python3 recount/main.py safe_table < word    as the program safe_table
    python3 recount/main.py card < /dev/null     as the program card
    python3 recount/main.py ccall HEAD RECORDS   the C call's number for two files

Its own checks are tests/test_recount*.py.
"""

import sys
from pathlib import Path

sys.path.insert(0, str(Path(__file__).resolve().parent.parent))

from recount import card, game, programs, session


def main(words):
    inputs = {"replay": programs.replay, "sheet": programs.sheet, "account": programs.account, "probe": programs.probe}
    inputs["safe_table"] = game.safe_table
    inputs["card"] = card.card
    if len(words) == 1 and words[0] in inputs:
        sys.stdout.write(inputs[words[0]](sys.stdin.buffer.read()))
    elif len(words) == 3 and words[0] == "ccall":
        with open(words[1], "rb") as head, open(words[2], "rb") as data:
            print(session.ccall(head.read(), data.read()))
    else:
        sys.stderr.write(__doc__)
        return 2
    return 0


if __name__ == "__main__":
    sys.exit(main(sys.argv[1:]))
