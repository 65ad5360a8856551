"""FILE and its log: whether an office is there, and how FILE is closed."""
from pathlib import Path

from office_common import files, program
from office_common.errors import IMPOSSIBLE, USAGE, Refused


def check(file: Path) -> None:
    """Refuses a FILE that the program would replace by a new, empty office."""
    log = files.log_of(file)
    try:
        if files.size_of(file) > 0:
            return
        has_acts = files.has_acts(log)
    except OSError as error:
        raise Refused(USAGE, f"{file} cannot be looked at: {error.strerror}") from error
    if has_acts:
        raise Refused(USAGE, f"{file} is missing or empty, but {log} has {files.size_of(log)} bytes, which may be acts "
                             "that were answered. A new office in the place of FILE would destroy them, so nothing was "
                             f"started. Put FILE back (is its disk mounted?), or move {log} away and restore a backup")
    raise Refused(USAGE, f"there is no office in {file}. Is its disk mounted? If it was lost, restore a backup; if this "
                         f"is a new office, make it as the user of the service: office init {file}")


def close_if_open(path: str, file: Path) -> None:
    """Closes FILE if its log still has acts. Without FILE it does nothing: an opening would make a new office."""
    log = files.log_of(file)
    if files.size_of(file) == 0 or not files.has_acts(log):
        return
    status = program.init(path, file)
    if status or files.has_acts(log):
        raise Refused(IMPOSSIBLE, f"{file} was not closed (status {status}): its last acts are in {log}, so copy both "
                                  "files, or neither")
