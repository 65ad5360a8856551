"""What a request says: the lines that nginx passes on, its cookies, and the marks by which a form is known to be ours."""
import base64
import hmac
import secrets
from typing import NamedTuple

from aiohttp import web

SESSION, FORM, BEGUN = "__Host-office", "__Host-office-form", "__Host-office-begun"
"""cookies: browsers take them from this very host alone, over TLS"""
LONGEST_COOKIE = 4_096
FROM_HERE = ("same-origin", "none")


def one(request: web.Request, name: str) -> str:
    """Returns a line of the head, or nothing if it is not there exactly once."""
    values: list[str] = request.headers.getall(name, [])
    return values[0] if len(values) == 1 else ""


def cookie(request: web.Request, name: str) -> str:
    """Returns a cookie, or nothing if it is not there exactly once."""
    pairs = [part.strip().partition("=") for part in one(request, "Cookie").split(";")]
    values = [value for key, mark, value in pairs if key == name and mark]
    return values[0] if len(values) == 1 and len(values[0]) <= LONGEST_COOKIE else ""


def address(request: web.Request) -> str:
    """Returns where a request is from, as nginx states it."""
    return one(request, "Office-From")[:64]


class Login(NamedTuple):
    """A name and a token, as programs send them."""

    name: str
    token: str


def login(request: web.Request) -> Login | None:
    """Returns what a program sent, or None."""
    kind, _, text = one(request, "Authorization").partition(" ")
    if kind.lower() != "basic":
        return None
    try:
        name, mark, token = base64.b64decode(text.strip(), validate=True).decode().partition(":")
    except ValueError:
        return None
    return Login(name, token) if mark else None


def is_from_here(request: web.Request, site: str) -> bool:
    """Whether a page of this site sent a form: the browser says so by Origin, and by Sec-Fetch-Site if it knows that."""
    return one(request, "Origin") == site and one(request, "Sec-Fetch-Site") in ("", "same-origin")


def is_led_here(request: web.Request, site: str) -> bool:
    """Whether a request is of a page of this site, or typed by hand: no other page leads a browser to it."""
    fetched, origin = one(request, "Sec-Fetch-Site"), one(request, "Origin")
    return fetched in ("", *FROM_HERE) and origin in ("", site)


class Marks:
    """Marks of forms: each fits one cookie, and only this process makes them."""

    def __init__(self) -> None:
        self.key = secrets.token_bytes(32)

    def of(self, value: str) -> str:
        return hmac.digest(self.key, b"form\0" + value.encode("utf-8", "surrogateescape"), "sha256").hex()

    def fits(self, value: str, mark: str) -> bool:
        return bool(value) and hmac.compare_digest(self.of(value).encode(), mark.encode("utf-8", "surrogateescape"))


def set_cookie(response: web.Response, name: str, value: str, seconds: int | None = None) -> None:
    response.set_cookie(name, value, max_age=seconds, path="/", secure=True, httponly=True, samesite="Lax")


def drop_cookie(response: web.Response, name: str) -> None:
    set_cookie(response, name, "", 0)
