"""An OpenID Connect provider: sign-ins by an authorization code, with PKCE, a state and a nonce that count once."""
import base64
import hashlib
import hmac
import http.client
import json
import secrets
import ssl
import time
import urllib.error
import urllib.parse
import urllib.request
from collections.abc import Mapping
from typing import Any, NamedTuple

from office_signin.clock import Moment
from office_signin.directory import Away, Known
from office_signin.settings import Provider, secret_in
from office_signin.statements import Untrue, check_nonce, claims_of, known_by

SECONDS = 10
MOST_BYTES = 1 << 20
BEGUN_SECONDS = 600
KEPT_SECONDS = 3_600
FRESH_SECONDS = 60
"""keys of the provider are asked for again if none fits, and no more often"""
LONGEST_CODE = 4_096
MOST_USED = 100_000


class Held(NamedTuple):
    """What a sign-in that was begun is held to."""

    state: str
    nonce: str
    verifier: str
    to: str
    ends: float


class Begun(NamedTuple):
    """A sign-in that was begun: where the browser goes, and what it keeps."""

    address: str
    cookie: str


class Quiet(urllib.request.HTTPRedirectHandler):
    """No redirection is followed: a secret or a token would go along."""

    def redirect_request(self, *_: Any) -> None:
        return None


def coded(data: bytes) -> str:
    """Writes bytes in letters that a cookie and an address take as they are."""
    return base64.urlsafe_b64encode(data).rstrip(b"=").decode()


def decoded(text: str) -> bytes:
    return base64.urlsafe_b64decode(text + "=" * (-len(text) % 4))


class Provided:
    """The provider of the settings."""

    def __init__(self, settings: Provider, site: str) -> None:
        self.settings, self.back = settings, f"{site}/sign-in/back"
        self.site, self.secret, self.key = site, secret_in(settings.secret), secrets.token_bytes(32)
        context = ssl.create_default_context(cafile=str(settings.authority) if settings.authority else None)
        self.opener = urllib.request.build_opener(Quiet, urllib.request.HTTPSHandler(context=context),
                                                  urllib.request.ProxyHandler({}))
        self.found: dict[str, Any] = {}
        self.keys: list[Any] = []
        self.found_at = self.keys_at = float("-inf")
        self.used: dict[str, float] = {}

    # ---- what is asked of the provider

    def fetch(self, address: str, data: Mapping[str, str] | None = None, authorization: str | None = None) -> Any:
        """Returns a JSON object of the provider."""
        request = urllib.request.Request(address, urllib.parse.urlencode(data).encode() if data else None,
                                         {"Accept": "application/json"})
        if authorization:
            request.add_header("Authorization", authorization)
        try:
            with self.opener.open(request, timeout=SECONDS) as answer:
                found = json.loads(answer.read(MOST_BYTES))
        except urllib.error.HTTPError as error:
            raise Untrue(f"the provider answers {error.code}: {shown(error)}") from error
        except (OSError, ValueError, http.client.HTTPException) as error:
            raise Untrue(f"the provider does not answer: {error}") from error
        if not isinstance(found, dict):
            raise Untrue("the provider answers no JSON object")
        return found

    def discovered(self) -> dict[str, Any]:
        """Returns what the provider states of itself."""
        if time.monotonic() - self.found_at > KEPT_SECONDS:
            found = self.fetch(self.settings.issuer.rstrip("/") + "/.well-known/openid-configuration")
            if found.get("issuer") != self.settings.issuer:
                raise Untrue(f"the provider is {found.get('issuer')}, and not {self.settings.issuer}")
            scheme = urllib.parse.urlsplit(self.settings.issuer).scheme
            for name in ("authorization_endpoint", "token_endpoint", "jwks_uri"):
                if urllib.parse.urlsplit(str(found.get(name))).scheme not in ("https", scheme):
                    raise Untrue(f"{name} of the provider has no TLS")
            self.found, self.found_at = found, time.monotonic()
        return self.found

    def keys_again(self, is_fresh: bool) -> list[Any]:
        """Returns the keys of the provider; fresh ones, unless they were asked for just now."""
        age = time.monotonic() - self.keys_at
        if age > (FRESH_SECONDS if is_fresh else KEPT_SECONDS):
            keys = self.fetch(self.discovered()["jwks_uri"]).get("keys")
            self.keys, self.keys_at = keys if isinstance(keys, list) else [], time.monotonic()
        return self.keys

    # ---- a sign-in

    def begin(self, to: str, moment: Moment) -> Begun:
        """Begins a sign-in. The browser keeps what it is held to, with a mark that only this process makes."""
        held = Held(secrets.token_urlsafe(32), secrets.token_urlsafe(32), secrets.token_urlsafe(48), to,
                    moment.machine + BEGUN_SECONDS)
        fields = {"response_type": "code", "client_id": self.settings.client, "redirect_uri": self.back,
                  "scope": self.settings.scope, "state": held.state, "nonce": held.nonce,
                  "code_challenge": coded(hashlib.sha256(held.verifier.encode()).digest()),
                  "code_challenge_method": "S256"}
        where = self.discovered()["authorization_endpoint"]
        mark = "&" if urllib.parse.urlsplit(where).query else "?"
        data = coded(json.dumps(held).encode())
        return Begun(f"{where}{mark}{urllib.parse.urlencode(fields)}", f"{data}.{self.mark_of(data)}")

    def mark_of(self, data: str) -> str:
        return hmac.digest(self.key, b"begun\0" + data.encode("utf-8", "surrogateescape"), "sha256").hex()

    def held(self, cookie: str, fields: Mapping[str, str], moment: Moment) -> Held:
        """Returns what a sign-in is held to that comes back now. It counts once."""
        data, _, mark = cookie.partition(".")
        if not hmac.compare_digest(self.mark_of(data).encode(), mark.encode("utf-8", "surrogateescape")):
            raise Untrue("this browser began none here")
        held = Held(*json.loads(decoded(data)))
        if held.ends < moment.machine:
            raise Untrue("it is too old")
        if not hmac.compare_digest(held.state.encode(), fields.get("state", "").encode("utf-8", "surrogateescape")):
            raise Untrue("the state is that of another sign-in")
        if fields.get("iss", self.settings.issuer) != self.settings.issuer:
            raise Untrue("another provider answers")
        if "error" in fields or not 0 < len(fields.get("code", "")) <= LONGEST_CODE:
            raise Untrue(f"there is no code: {fields.get('error', '-')[:100]!r}")
        self.use(held, moment)
        return held

    def use(self, held: Held, moment: Moment) -> None:
        """Notes a state as used, and refuses one that was."""
        if held.state in self.used:
            raise Untrue("it came back before")
        self.used = {state: ends for state, ends in self.used.items() if ends >= moment.machine}
        if len(self.used) >= MOST_USED:
            raise Untrue("too many come back")
        self.used[held.state] = held.ends

    def end(self, held: Held, code: str) -> tuple[Known, str | None]:
        """Returns whom the provider states for a code, and what it gives to be asked again."""
        tokens = self.tokens({"grant_type": "authorization_code", "code": code, "redirect_uri": self.back,
                              "code_verifier": held.verifier})
        claims = claims_of(tokens.get("id_token"), self.settings, self.keys_again)
        check_nonce(claims, held.nonce)
        refresh = tokens.get("refresh_token")
        return known_by(self.settings, self.completed(claims, tokens)), refresh if isinstance(refresh, str) else None

    def tokens(self, fields: dict[str, str]) -> dict[str, Any]:
        """Asks for tokens, as this client."""
        found = self.discovered()
        methods = found.get("token_endpoint_auth_methods_supported", ["client_secret_basic"])
        if "client_secret_basic" in methods:
            pair = ":".join(urllib.parse.quote(part, safe="") for part in (self.settings.client, self.secret))
            authorization = "Basic " + base64.b64encode(pair.encode()).decode()
            return dict(self.fetch(found["token_endpoint"], fields, authorization))
        own = {"client_id": self.settings.client, "client_secret": self.secret}
        return dict(self.fetch(found["token_endpoint"], fields | own))

    def completed(self, claims: dict[str, Any], tokens: Mapping[str, Any]) -> dict[str, Any]:
        """Returns the claims with those that the provider states elsewhere, which are of the same person."""
        where, access = self.discovered().get("userinfo_endpoint"), tokens.get("access_token")
        if self.settings.groups in claims and self.settings.name in claims or not where or not isinstance(access, str):
            return claims
        more = self.fetch(where, authorization=f"Bearer {access}")
        if more.get("sub") != claims["sub"]:
            raise Untrue("what the provider states elsewhere is of somebody else")
        return {**more, **claims}

    def again(self, refresh: str) -> tuple[Known | None, str | None]:
        """Returns what the provider states now, and what it gives to be asked again: nobody if it ended the sign-in."""
        try:
            tokens = self.tokens({"grant_type": "refresh_token", "refresh_token": refresh})
            claims = claims_of(tokens.get("id_token"), self.settings, self.keys_again)
            known = known_by(self.settings, self.completed(claims, tokens))
        except Untrue as untrue:
            if "answers 400" in str(untrue) and "invalid_grant" in str(untrue):
                return None, None
            raise Away(str(untrue)) from untrue
        newer = tokens.get("refresh_token")
        return known, newer if isinstance(newer, str) else refresh

    def out(self) -> str | None:
        """Returns where somebody signs out at the provider, if it stated that already."""
        where = self.found.get("end_session_endpoint")
        if not isinstance(where, str) or not where.startswith(("https://", "http://")):
            return None
        fields = {"client_id": self.settings.client, "post_logout_redirect_uri": f"{self.site}/sign-in"}
        return f"{where}?{urllib.parse.urlencode(fields)}"


def shown(error: urllib.error.HTTPError) -> str:
    """Returns the word of an error of the provider."""
    try:
        found = json.loads(error.read(MOST_BYTES))
        return str(found.get("error"))[:100] if isinstance(found, dict) else "-"
    except (ValueError, OSError, http.client.HTTPException):
        return "-"
