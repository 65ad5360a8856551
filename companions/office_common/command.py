"""How every command begins and ends: its arguments, its messages and its exit status."""
import argparse
import signal
import sys
from collections.abc import Callable

from office_common.errors import IMPOSSIBLE, USAGE, WRONG, Refused

ERROR = 3
"""the priority of an error in the journal of systemd"""


def parser(name: str, usage: str | None = None) -> argparse.ArgumentParser:
    """Returns a parser of arguments, none of which may be abbreviated."""
    return argparse.ArgumentParser(name, usage, allow_abbrev=False)


def number(least: int, most: int | None = None) -> Callable[[str], int]:
    """Returns a reader of whole numbers in ASCII digits, within these bounds."""
    def read(text: str) -> int:
        if text.isascii() and text.isdigit() and least <= int(text) and (most is None or int(text) <= most):
            return int(text)
        end = "" if most is None else f" to {most}"
        raise argparse.ArgumentTypeError(f"'{text}' is no number from {least}{end}")
    return read


def operands(usage: str, least: int, most: int | None = None) -> list[str]:
    """Returns the arguments of a command without options. If it has fewer or more, the command ends with its usage."""
    args = sys.argv[1:]
    if len(args) < least or most is not None and len(args) > most:
        print(f"usage: {usage}", file=sys.stderr)
        sys.exit(USAGE)
    return args


def end_by_signals() -> None:
    """Lets a signal that ends this process end it as an error does, so that it clears away what it began."""
    for number in (signal.SIGHUP, signal.SIGINT, signal.SIGTERM):
        signal.signal(number, lambda *_: sys.exit(WRONG))


def report(name: str, text: str, level: int | None = None) -> None:
    """Prints a message of a command on standard error, with a priority for the journal of systemd if it is given."""
    print(f"{'' if level is None else f'<{level}>'}{name}: {text}", file=sys.stderr, flush=True)


def run(name: str, work: Callable[[], int | None], failures: tuple[type[Exception], ...] = (OSError,)) -> int:
    """Does the work of a command, reports why it ended early, and returns the exit status. These failures of the
    machine are IMPOSSIBLE."""
    try:
        return work() or 0
    except Refused as refused:
        report(name, str(refused))
        return refused.status
    except argparse.ArgumentTypeError as error:
        report(name, str(error))
        return USAGE
    except failures as error:
        report(name, str(error))
        return IMPOSSIBLE
