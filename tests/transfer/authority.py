"""A time-stamping authority (RFC 3161) of the trial's own, made by openssl."""
import http.server
import pathlib
import subprocess
import threading


CONFIG = """
[tsa]
default_tsa = at
[at]
serial = {folder}/serial
signer_cert = {folder}/tsa.pem
signer_key = {folder}/tsa.key
certs = {folder}/ca.pem
signer_digest = {digest}
default_policy = 1.2.3.4.1
digests = sha256, sha384, sha512
accuracy = secs:1
ordering = no
tsa_name = yes
ess_cert_id_chain = no
ess_cert_id_alg = sha256
[tsa_ext]
basicConstraints = critical,CA:FALSE
keyUsage = critical,digitalSignature
extendedKeyUsage = critical,timeStamping
[ca]
default_ca = of
[of]
database = {folder}/index
crlnumber = {folder}/crlnumber
certificate = {folder}/ca.pem
private_key = {folder}/ca.key
default_md = sha256
default_crl_days = 30
"""
KEY = ("-newkey", "ec", "-pkeyopt", "ec_paramgen_curve:P-256", "-nodes")


class Authority:
    """An authority at a port, with its certificate in a file, which is good for some days from its clock on."""

    def __init__(self, folder: pathlib.Path, days: int = 2, clock: str = "", digest: str = "sha256") -> None:
        folder.mkdir(parents=True)
        self.clock = clock
        self.folder, self.certificate = folder, folder / "ca.pem"
        self.refuses = self.replays = self.forges = False
        (folder / "conf").write_text(CONFIG.format(folder=folder, digest=digest))
        (folder / "serial").write_text("01\n")
        (folder / "crlnumber").write_text("01\n")
        (folder / "index").write_text("")
        self.openssl("req", "-x509", *KEY, "-days", str(days), "-subj", f"/CN=CA {folder.name}",
                     "-keyout", "ca.key", "-out", "ca.pem")
        self.openssl("req", *KEY, "-subj", "/CN=TSA", "-keyout", "tsa.key", "-out", "tsa.csr")
        self.openssl("x509", "-req", "-in", "tsa.csr", "-CA", "ca.pem", "-CAkey", "ca.key", "-CAcreateserial", "-days", str(days),
                     "-extfile", "conf", "-extensions", "tsa_ext", "-out", "tsa.pem")

    def openssl(self, *words: str) -> None:
        clock = ["faketime", "-f", self.clock] if self.clock else []
        subprocess.run([*clock, "openssl", *words], cwd=self.folder, check=True, capture_output=True)

    def reply(self, query: bytes) -> bytes:
        """The stamp of a query; if it replays that of one of its own; if it forges that of other bytes, nonce alike."""
        if self.forges:
            at = query.index(b"\x04\x40") + 2
            query = query[:at] + bytes(64) + query[at + 64:]
        (self.folder / "query").write_bytes(query)
        if self.replays:
            self.openssl("ts", "-query", "-data", "conf", "-sha256", "-cert", "-out", "query")
        self.openssl("ts", "-reply", "-config", "conf", "-section", "at", "-queryfile", "query", "-out", "reply")
        return (self.folder / "reply").read_bytes()

    def revoke(self, clock: str, *reason: str) -> pathlib.Path:
        """Revokes the certificate of the time stamps, and returns the list that has it."""
        self.clock = clock
        (self.folder / "index").write_text("")
        self.openssl("ca", "-config", "conf", "-name", "of", "-revoke", "tsa.pem", *reason)
        self.openssl("ca", "-config", "conf", "-name", "of", "-gencrl", "-out", "crl.pem")
        return self.folder / "crl.pem"

    def __enter__(self) -> "Authority":
        authority = self

        class Handler(http.server.BaseHTTPRequestHandler):
            def do_POST(self) -> None:
                query = self.rfile.read(int(self.headers["Content-Length"]))
                body = b"no" if authority.refuses else authority.reply(query)
                self.send_response(200)
                self.send_header("Content-Type", "application/timestamp-reply")
                self.send_header("Content-Length", str(len(body)))
                self.end_headers()
                self.wfile.write(body)

            def log_message(self, *_: object) -> None:
                pass

        self.server = http.server.ThreadingHTTPServer(("127.0.0.1", 0), Handler)
        self.url = f"http://127.0.0.1:{self.server.server_address[1]}/"
        threading.Thread(target=self.server.serve_forever, daemon=True).start()
        return self

    def __exit__(self, *_: object) -> None:
        self.server.shutdown()
        self.server.server_close()
