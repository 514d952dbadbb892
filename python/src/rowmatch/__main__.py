"""``rowmatch``, the command: the program itself, with the arguments as they are."""

from __future__ import annotations

import os
import sys

from ._program import command, environment
from .errors import ProgramError


def main() -> None:
    """Puts the program in the place of this process, so that a signal to it ends the program."""
    arguments = sys.argv[1:]
    try:
        words = command(arguments)
    except ProgramError as error:
        sys.exit(f"rowmatch: {error}")
    os.execve(words[0], words, environment(arguments))


if __name__ == "__main__":
    main()
