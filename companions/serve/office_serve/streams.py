"""Where the program writes what went wrong: into the journal of systemd, with the priority of an error."""
import ctypes
import os

ERROR = 3
"""the priority of an error, as syslog has it"""


def error_stream() -> int | None:
    """Returns a stream of the journal whose lines are errors; None if this process has no journal, or no libsystemd."""
    if "JOURNAL_STREAM" not in os.environ:
        return None
    try:
        stream = int(ctypes.CDLL("libsystemd.so.0").sd_journal_stream_fd(b"office", ERROR, 1))
    except (OSError, AttributeError):
        return None
    return stream if stream >= 0 else None
