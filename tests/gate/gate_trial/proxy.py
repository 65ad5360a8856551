"""nginx in front of an office, with its gate or alone, and what is asked there."""
import base64
import http.client
import json
import pathlib
import socket
import ssl

from gate_trial.world import LEADERS, STARTED, TOKEN, TOP, free_port, parted, said
from kit.nginx import Sites, line_of

PASSWORD = "one for all"


class Proxy(Sites):
    """nginx in front of an office: with its gate (gated.conf), or alone (offices.conf)."""

    def __init__(self, folder: pathlib.Path, site: str, names: list[str], gate: pathlib.Path, office: int,
                 catalogue: pathlib.Path, more: dict[str, str] | None = None) -> None:
        port = free_port()
        self.here = f"https://localhost:{port}"
        places = {"/etc/nginx/office": str(folder), "/var/log/nginx": f"{folder}/log",
                  "/var/log/office": f"{folder}/log",
                  "/run/office-gate/city/socket": str(gate), "127.0.0.1:8081": f"127.0.0.1:{office}",
                  "/var/lib/office-catalogues/city/now": str(catalogue),
                  "listen 80;": f"listen 127.0.0.1:{free_port()};",
                  "listen 443": f"listen 127.0.0.1:{port}", "/usr/local/share/office/web": str(TOP / "page"),
                  "|https://$server_name": f"|https://$server_name:{port}"} | (more or {})
        super().__init__(folder, port, places)
        self.put("gate_tokens.conf", f'"~^/city/" {TOKEN};\n')
        self.put("vaults.conf", '"/city/" city;\n')
        self.put("actors.conf", "".join(f'"{it} /city/" 1;\n' for it in names))
        # SHA-1, so that the time of a password's check is not what is measured
        self.put("office.htpasswd", "".join(line_of(it, PASSWORD, "-1") for it in names))
        self.put("monitor.htpasswd", line_of("monitor", PASSWORD, "-1"))
        self.configure(f"include {folder}/{site};")

    def start(self) -> None:
        """Starts nginx, which ends with the part."""
        super().start()
        STARTED.append(self.process)
        LEADERS.add(self.process.pid)

    # ---- requests

    def context(self) -> ssl.SSLContext:
        return ssl.create_default_context(cafile=str(self.folder / "office.crt"))

    def lines(self, name: str, password: str = PASSWORD, origin: str = "") -> dict[str, str]:
        word = base64.b64encode(f"{name}:{password}".encode()).decode()
        return {"Authorization": f"Basic {word}", "Origin": origin or self.here}

    def ask(self, name: str, method: str, path: str, body: bytes | None = None, lines: dict[str, str] | None = None,
            **how: str) -> tuple[int, bytes]:
        """Asks as a client does, with a name and its password."""
        it = http.client.HTTPSConnection("localhost", self.port, timeout=60, context=self.context())
        try:
            it.request(method, path, body, self.lines(name, **how) | (lines or {}))
            answer = it.getresponse()
            return answer.status, answer.read()
        finally:
            it.close()

    def act(self, name: str, acts: list[dict], **lines: str) -> tuple[int, object]:
        given = {it.replace("_", "-"): value for it, value in lines.items()}
        status, body = self.ask(name, "POST", "/city/acts", json.dumps(acts).encode(), given)
        return status, said(body)

    def raw(self, data: bytes) -> tuple[int, bytes]:
        """Sends bytes over TLS, and returns the first answer."""
        with socket.create_connection(("127.0.0.1", self.port), 30) as plain, \
                self.context().wrap_socket(plain, server_hostname="localhost") as link:
            link.sendall(data)
            found = b""
            try:
                while block := link.recv(65536):
                    found += block
                    if b"\r\n\r\n" in found:
                        break
            except OSError:
                pass
            return parted(found)
