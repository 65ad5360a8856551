"""Prints the help of a Python command and of its words as JSON, as its own argparse writes them. The command does nothing.

    python3 -I help_of.py COMMAND

A command without argparse prints its usage, and has no words.
"""
import argparse
import contextlib
import io
import json
import os
import runpy
import sys


class Parser(BaseException):
    """The parser of the command, at the moment in which it would read its arguments."""

    def __init__(self, parser: argparse.ArgumentParser) -> None:
        super().__init__()
        self.parser = parser


def stop(parser: argparse.ArgumentParser, *_: object, **__: object) -> None:
    raise Parser(parser)


def words_of(parser: argparse.ArgumentParser) -> dict[str, str]:
    """Returns the help of each word that a parser knows."""
    found: dict[str, str] = {}
    for action in parser._actions:
        if isinstance(action, argparse._SubParsersAction):
            found |= {name: each.format_help() for name, each in action.choices.items()}
    return found


def main() -> None:
    # a line of the help is a line, however long it is
    os.environ["COLUMNS"] = "2000"
    sys.dont_write_bytecode = True
    argparse.ArgumentParser.parse_args = argparse.ArgumentParser.parse_known_args = stop  # type: ignore[assignment]
    sys.argv = [sys.argv[1], "--help"]
    text = io.StringIO()
    words: dict[str, str] = {}
    try:
        with contextlib.redirect_stdout(text), contextlib.redirect_stderr(text):
            runpy.run_path(sys.argv[0], run_name="__main__")
    except Parser as stopped:
        text, words = io.StringIO(stopped.parser.format_help()), words_of(stopped.parser)
    except SystemExit:
        pass
    print(json.dumps({"help": text.getvalue() or text.read(), "words": words}))


if __name__ == "__main__":
    main()
