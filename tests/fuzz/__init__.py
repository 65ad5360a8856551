"""A model of the office in plain Python, and what the fuzzer sends; the forms of acts are those that office-check reads."""
import pathlib
import sys

COMPANIONS = pathlib.Path(__file__).resolve().parents[2] / "companions"
sys.path += [str(COMPANIONS / "sheets"), str(COMPANIONS)]
