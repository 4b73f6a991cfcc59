"""Plays a scenario and prints its trace: python3 -m evlsim [FILE] [--limit N], or --version. Standard input where no
FILE is named. Status 1: the trace can't be written; 2: the text is refused, or there is no file; 4: no memory."""

import argparse
import sys
from typing import Optional

from . import BadBoard, BadStep, BadText, play, version

MOST = 1048576


def read(name: Optional[str]) -> bytes:
    with open(0 if name is None else name, "rb", closefd=name is not None) as file:
        return file.read(MOST + 1)


def tell(trace: str) -> int:
    try:
        with open(1, "w", encoding="utf-8", closefd=False) as out:
            out.write(trace)
        return 0
    except OSError as why:
        print(f"evlsim: write fault: {why}", file=sys.stderr)
    return 1


def main() -> int:
    words = argparse.ArgumentParser(prog="python3 -m evlsim", description="Plays a scenario and prints its trace.")
    words.add_argument("file", nargs="?", help="the scenario; standard input where it isn't named")
    words.add_argument("--limit", type=int, default=0, help="how many entries the history may have, 1 to 1,000,000")
    words.add_argument("--version", action="version", version=f"evlsim {version()}")
    given = words.parse_args()
    try:
        return tell(play(read(given.file), given.limit))
    except OSError as why:
        print(f"evlsim: no file: {why}", file=sys.stderr)
    except (BadText, BadBoard, BadStep) as why:
        told = str(why)  # of the text: "bad text: ..", "bad board: ..", "bad step N: .."; or of the limit
        print(f"evlsim: {told if told.startswith('bad ') else f'bad board: {told}'}", file=sys.stderr)
    except MemoryError:
        print("evlsim: no memory", file=sys.stderr)
        return 4
    return 2


if __name__ == "__main__":
    sys.exit(main())
