"""The wish to stop: SIGTERM or SIGINT, which a select or poll sees too."""
import os
import signal
import time


class Stop:
    """Says whether somebody asked office-serve to stop, and how long the request under way may still take."""

    def __init__(self, seconds: int) -> None:
        self.seconds = seconds
        self.asked_at: float | None = None
        self.reader, writer = os.pipe2(os.O_NONBLOCK | os.O_CLOEXEC)
        signal.set_wakeup_fd(writer, warn_on_full_buffer=False)
        for number in (signal.SIGTERM, signal.SIGINT):
            signal.signal(number, self.ask)

    def ask(self, *_: object) -> None:
        if self.asked_at is None:
            self.asked_at = time.monotonic()

    def is_asked(self) -> bool:
        return self.asked_at is not None

    def fileno(self) -> int:
        return self.reader

    def clear(self) -> None:
        """Takes what the signals wrote, so that a poll does not see it again."""
        try:
            while os.read(self.reader, 512):
                pass
        except BlockingIOError:
            pass

    def left(self) -> float | None:
        """Returns the seconds that the request under way still has; None if nobody asked to stop."""
        if self.asked_at is None:
            return None
        return max(0.0, self.asked_at + self.seconds - time.monotonic())
