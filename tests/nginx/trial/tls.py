"""Which TLS nginx speaks, with a certificate of RSA, whose older ciphers have no forward secrecy."""
import shutil
import time

from kit.judging import judge
from trial.place import run

AT = "/etc/nginx/office/office"
RSA = (f"openssl req -x509 -newkey rsa:2048 -nodes -days 2 -subj /CN=localhost -addext subjectAltName=DNS:localhost "
       f"-keyout {AT}.key -out {AT}.crt")


def shaken(words: str) -> bool:
    call = f"openssl s_client -connect 127.0.0.1:443 -servername localhost -CAfile {AT}.crt -verify_return_error"
    return run(f"{call} {words}").returncode == 0


def reload() -> None:
    """Lets nginx take the certificate that is there, and waits until its workers have it."""
    run("nginx -s reload")
    until = time.monotonic() + 60
    while not shaken("-tls1_3") and time.monotonic() < until:
        time.sleep(0.5)


def versions() -> None:
    for end in ("key", "crt"):
        shutil.copy(f"{AT}.{end}", f"{AT}.{end}.before")
    run(RSA)
    reload()
    for words, holds in (
        ("-tls1_3", True),
        ("-tls1_2", True),
        ("-tls1_2 -cipher ECDHE-RSA-AES128-GCM-SHA256", True),
        ("-tls1_2 -cipher ECDHE-RSA-CHACHA20-POLY1305", True),
        ("-tls1_2 -cipher AES128-SHA:AES256-SHA", False),
        ("-tls1_2 -cipher AES128-GCM-SHA256:AES256-GCM-SHA384", False),
        ("-tls1_2 -cipher ECDHE-RSA-AES128-SHA", False),
        ("-tls1_1 -cipher DEFAULT@SECLEVEL=0", False),
    ):
        judge(f"openssl s_client {words} is {'served' if holds else 'refused'}", shaken(words) == holds)
    for end in ("key", "crt"):
        shutil.move(f"{AT}.{end}.before", f"{AT}.{end}")
    reload()
