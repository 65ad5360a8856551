"""Runs a program of Debian."""
import os
import subprocess

from office_common.errors import IMPOSSIBLE, Refused


def tool(*args: str, data: bytes = b"") -> bytes:
    """Runs a program and returns what it prints."""
    try:
        done = subprocess.run(args, input=data, capture_output=True, check=False,
                              env={**os.environ, "SSH_ASKPASS_REQUIRE": "never", "LC_ALL": "C"})
    except OSError as why:
        raise Refused(IMPOSSIBLE, f"there is no {args[0]}: {why.strerror}") from why
    if done.returncode:
        raise Refused(IMPOSSIBLE, f"{args[0]}: {(done.stderr or done.stdout).decode(errors='replace').strip()}")
    return done.stdout
