"""An office in a file of its own, in which the acts of a journal are done once more."""
import http.client
import os
import shutil
import socket
import subprocess
from pathlib import Path
from typing import Any

from office_gate.body import Json, text_of, value_of
from office_gate.errors import Refused

SECONDS = 600


class Player:
    """The program, serving a file of this replay at a port of this machine, for as long as the replay takes."""

    def __init__(self, file: Path) -> None:
        self.program = os.environ.get("OFFICE", "office")
        self.file = file
        self.process: subprocess.Popen[bytes] | None = None
        self.port = 0

    def start(self) -> None:
        with socket.create_server(("127.0.0.1", 0)) as held:
            self.port = held.getsockname()[1]
        # of a replay that the machine's end cuts off nothing is kept, so it needs half the syncs
        self.process = subprocess.Popen([self.program, "serve", str(self.file), str(self.port), "1000000"],
                                        stdout=subprocess.PIPE, stdin=subprocess.DEVNULL,
                                        env={**os.environ, "OFFICE_DISK": "powersafe"})
        assert self.process.stdout is not None
        if not self.process.stdout.readline().startswith(b"listening"):
            raise Refused(3, f"{self.program} does not serve {self.file}: status {self.process.wait()}")

    def stop(self) -> None:
        """Ends the program. All that it answered is in the file and its log."""
        if self.process:
            self.process.kill()
            self.process.wait()
            self.process = None

    def post(self, path: str, body: bytes) -> object:
        if self.process is None:
            self.start()
        link = http.client.HTTPConnection("127.0.0.1", self.port, timeout=SECONDS)
        try:
            link.request("POST", path, body)
            return value_of(link.getresponse().read().decode())
        except (OSError, http.client.HTTPException, ValueError) as error:
            raise Refused(3, f"the replay's office does not answer: {error}") from error
        finally:
            link.close()

    def acts(self, acts: list[Json]) -> list[Any] | None:
        """Does acts, and returns their answers; None if the office does none of them, as of a list that is no list."""
        if not acts:
            return []
        answers = self.post("/acts", text_of(acts).encode())
        if isinstance(answers, list):
            return answers
        if isinstance(answers, dict) and answers.get("error") in ("json", "act", "size"):
            return None
        raise Refused(3, f"the replay's office answers {text_of(answers)}")

    def resume(self) -> object:
        return self.post("/run/resume", b"")

    # ---- the file

    def copy_to(self, place: Path) -> None:
        """Copies the file and its log, while the program waits."""
        copy(self.file, place)

    def back_to(self, place: Path) -> None:
        self.stop()
        copy(place, self.file)

    def close(self) -> None:
        """Closes the file: it alone has every act then."""
        self.stop()
        done = subprocess.run([self.program, "init", str(self.file)], stdout=subprocess.DEVNULL, check=False)
        if done.returncode:
            raise Refused(3, f"{self.file} is not closed: status {done.returncode}")


def copy(source: Path, target: Path) -> None:
    for end in ("", "-wal"):
        place, new = Path(f"{source}{end}"), Path(f"{target}{end}")
        new.unlink(missing_ok=True)
        if place.exists():
            shutil.copyfile(place, new)
            new.chmod(0o600)
