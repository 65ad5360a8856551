"""A provider of OpenID Connect, written anew for this trial: it states what it is asked to, also what is not true."""
from __future__ import annotations

import base64
import hashlib
import http.server
import json
import secrets
import threading
import time
import urllib.parse
from collections.abc import Callable
from typing import Any

from cryptography.hazmat.primitives import hashes
from cryptography.hazmat.primitives.asymmetric import ec, padding, rsa
from cryptography.hazmat.primitives.asymmetric.utils import decode_dss_signature

CLIENT, SECRET = "office", "secret-of:the client/"
PEOPLE = {
    "anna": {"sub": "8a1c-anna", "preferred_username": "anna", "groups": ["records-registry", "canteen"]},
    "bert": {"sub": "9b2d-bert", "preferred_username": "bert", "groups": "canteen; Records Managers"},
    "carl": {"sub": "7c3e-carl", "preferred_username": "carl", "groups": ["canteen"]},
}
Change = Callable[[dict[str, Any], dict[str, Any]], object]
"""changes the head and the claims of a token before it is signed"""


def coded(data: bytes) -> str:
    return base64.urlsafe_b64encode(data).rstrip(b"=").decode()


def number(value: int) -> str:
    return coded(value.to_bytes((value.bit_length() + 7) // 8, "big"))


class Keys:
    """A key of RSA and one of the curve P-256, with what is public of them."""

    def __init__(self) -> None:
        self.rsa = rsa.generate_private_key(public_exponent=65537, key_size=2048)
        self.ec = ec.generate_private_key(ec.SECP256R1())

    def public(self) -> list[dict[str, str]]:
        """Returns the keys as a provider shows them."""
        big, point = self.rsa.public_key().public_numbers(), self.ec.public_key().public_numbers()
        return [{"kty": "RSA", "kid": "r", "use": "sig", "alg": "RS256", "n": number(big.n), "e": number(big.e)},
                {"kty": "EC", "kid": "e", "use": "sig", "crv": "P-256", "x": coded(point.x.to_bytes(32, "big")),
                 "y": coded(point.y.to_bytes(32, "big"))}]

    def signature(self, kind: str, data: bytes) -> bytes:
        """Signs bytes, by RS256 or ES256."""
        if kind == "ES256":
            numbers = decode_dss_signature(self.ec.sign(data, ec.ECDSA(hashes.SHA256())))
            return b"".join(value.to_bytes(32, "big") for value in numbers)
        return self.rsa.sign(data, padding.PKCS1v15(), hashes.SHA256())


class Issuer:
    """The provider, at a port of loopback."""

    def __init__(self) -> None:
        self.keys = Keys()
        self.codes: dict[str, dict[str, str]] = {}
        self.refreshing: dict[str, str] = {}
        self.change: Change = lambda head, claims: None
        self.signs: Callable[[dict[str, Any], bytes], bytes] = lambda head, data: self.keys.signature(head["alg"], data)
        self.answer: dict[str, Any] = {}
        self.userinfo: dict[str, Any] = {}
        self.discovery: dict[str, Any] = {}
        self.alg, self.gives_refresh, self.asked = "RS256", True, list[str]()
        handler = type("Handler", (Handler,), {"issuer": self})
        self.server = http.server.ThreadingHTTPServer(("127.0.0.1", 0), handler)
        self.place = f"http://127.0.0.1:{self.server.server_port}"
        threading.Thread(target=self.server.serve_forever, daemon=True).start()

    def stated(self) -> dict[str, Any]:
        """Returns what the provider states of itself."""
        own = {"issuer": self.place, "authorization_endpoint": f"{self.place}/authorize", "token_endpoint": f"{self.place}/token",
               "jwks_uri": f"{self.place}/jwks", "userinfo_endpoint": f"{self.place}/userinfo",
               "end_session_endpoint": f"{self.place}/out"}
        return {**own, **self.discovery}

    def authorize(self, address: str, name: str) -> str:
        """Signs somebody in here, and returns the code."""
        fields = dict(urllib.parse.parse_qsl(urllib.parse.urlsplit(address).query))
        assert fields["response_type"] == "code" and fields["code_challenge_method"] == "S256", fields
        code = secrets.token_urlsafe(16)
        self.codes[code] = {**fields, "who": name}
        return code

    def token(self, who: str, nonce: str | None) -> str:
        """Makes an ID token."""
        now = int(time.time())
        head = {"alg": self.alg, "kid": {"RS256": "r", "ES256": "e"}.get(self.alg, "r"), "typ": "JWT"}
        claims = {"iss": self.place, "aud": CLIENT, "iat": now, "exp": now + 300, **PEOPLE[who]}
        if nonce is not None:
            claims["nonce"] = nonce
        self.change(head, claims)
        data = f"{coded(json.dumps(head).encode())}.{coded(json.dumps(claims).encode())}"
        return f"{data}.{coded(self.signs(head, data.encode()))}"

    def exchange(self, fields: dict[str, str], login: str) -> tuple[int, dict[str, Any]]:
        """Gives tokens for a code, or for what was given to ask again."""
        wanted = ":".join(urllib.parse.quote(part, safe="") for part in (CLIENT, SECRET))
        if login != "Basic " + base64.b64encode(wanted.encode()).decode():
            return 401, {"error": "invalid_client"}
        if fields.get("grant_type") == "refresh_token":
            who, nonce = self.refreshing.get(fields.get("refresh_token", ""), ""), None
            if not who:
                return 400, {"error": "invalid_grant"}
        else:
            held = self.codes.pop(fields.get("code", ""), {})
            challenge = coded(hashlib.sha256(fields.get("code_verifier", "").encode()).digest())
            if not held or held["code_challenge"] != challenge or held["redirect_uri"] != fields.get("redirect_uri"):
                return 400, {"error": "invalid_grant"}
            who, nonce = held["who"], held["nonce"]
        refresh = secrets.token_urlsafe(16)
        self.refreshing[refresh] = who
        more = {"refresh_token": refresh} if self.gives_refresh else {}
        return 200, {"access_token": f"access-{who}", "id_token": self.token(who, nonce), "token_type": "Bearer", **more, **self.answer}

    def stop(self) -> None:
        self.server.shutdown()
        self.server.server_close()


class Handler(http.server.BaseHTTPRequestHandler):
    """The paths of the provider."""

    issuer: Issuer

    def log_message(self, *_: object) -> None:
        pass

    def give(self, status: int, value: object) -> None:
        data = json.dumps(value).encode()
        self.send_response(status)
        if status == 302:
            self.send_header("Location", f"{self.issuer.place}/elsewhere")
        self.send_header("Content-Length", str(len(data)))
        self.end_headers()
        self.wfile.write(data)

    def do_GET(self) -> None:
        self.issuer.asked.append(self.path)
        if self.path == "/.well-known/openid-configuration":
            self.give(200, self.issuer.stated())
        elif self.path == "/jwks":
            self.give(200, {"keys": self.issuer.keys.public()})
        elif self.path == "/userinfo":
            who = self.headers.get("Authorization", "").removeprefix("Bearer access-")
            self.give(200, {**PEOPLE.get(who, {}), **self.issuer.userinfo})
        else:
            self.give(404, {})

    def do_POST(self) -> None:
        body = self.rfile.read(int(self.headers.get("Content-Length", "0"))).decode()
        self.issuer.asked.append(f"POST {self.path}")
        self.give(*self.issuer.exchange(dict(urllib.parse.parse_qsl(body)), self.headers.get("Authorization", "")))
