"""How a command ends that cannot do its work, and the two ways in which an office gives no answer."""

WRONG, USAGE, IMPOSSIBLE = 1, 2, 3
"""exit statuses: what was found is wrong; somebody has to look first, as at an argument, a setting or a key; it could
not be done, and a later call may succeed"""


class Refused(Exception):
    """Ends a command with one of these statuses, or with 4 in a vault: an argument must confirm what it would do."""

    def __init__(self, status: int, text: str) -> None:
        super().__init__(text)
        self.status = status


class NoAnswer(Exception):
    """There is no answer: Away or Lost."""


class Away(NoAnswer):
    """Nobody took the connection: nothing was sent."""


class Lost(NoAnswer):
    """An answer is late, cut or malformed: what was sent may be done, or may not."""

    def __init__(self, text: str, is_late: bool = False) -> None:
        super().__init__(text)
        self.is_late = is_late
