"""The arguments of a script, and its `--help`."""
import os
import sys


def arguments(document, most=0):
    """The arguments of this script, at most so many. `--help` prints the document and exits with 0; an option, or one argument more,
    prints it to standard error and exits with 2."""
    given = sys.argv[1:]
    if given == ["--help"]:
        try:
            print(document.strip(), flush=True)
        except BrokenPipeError:
            # the reader, such as `head`, has enough
            os.dup2(os.open(os.devnull, os.O_WRONLY), 1)
        sys.exit(0)
    if len(given) > most or any(it.startswith("-") for it in given):
        print(document.strip(), file=sys.stderr)
        sys.exit(2)
    return given
