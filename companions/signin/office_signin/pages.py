"""The pages by which people sign in: plain forms without a script, in the language of the browser."""
import html
import urllib.parse

from aiohttp import web

from office_signin.texts import TEXTS, language_of

STYLE = """body { font: 1rem/1.5 system-ui, sans-serif; margin: 10vh auto; max-width: 22rem; padding: 0 1rem; color: #1b1b1b;
  background: #fff; }
label, input, button, a.button { display: block; width: 100%; box-sizing: border-box; font: inherit; }
input { margin: .2rem 0 1rem; padding: .5rem; border: 1px solid #767676; }
button, a.button { padding: .6rem; border: 0; background: #1f4d7a; color: #fff; text-align: center; text-decoration: none;
  cursor: pointer; }
:focus-visible { outline: 3px solid #d08700; outline-offset: 2px; }
[role=alert] { border-left: 4px solid #a4262c; padding-left: .7rem; }
"""
LINES = {
    "Content-Security-Policy": "default-src 'none'; style-src 'self'; form-action 'self'; base-uri 'none'; "
                               "frame-ancestors 'none'",
    "Cross-Origin-Opener-Policy": "same-origin", "Cross-Origin-Resource-Policy": "same-origin",
    "Referrer-Policy": "same-origin", "X-Content-Type-Options": "nosniff", "Cache-Control": "no-store",
    "Permissions-Policy": "camera=(), display-capture=(), geolocation=(), microphone=(), payment=(), usb=()",
}
HOME = "/"


def safe_place(to: str) -> str:
    """Returns where to go afterwards: a path of this site, and nothing that a browser takes for another one."""
    is_path = to.startswith("/") and not to.startswith("//") and "\\" not in to and len(to) <= 1_000
    return to if is_path and to.isascii() and to.isprintable() and " " not in to else HOME


class Page:
    """A page in one language."""

    def __init__(self, accepted: str) -> None:
        self.language = language_of(accepted)
        self.texts = TEXTS[self.language]

    def text(self, key: str) -> str:
        return html.escape(self.texts[key], quote=True)

    def reply(self, status: int, body: str) -> web.Response:
        whole = (f"<!doctype html>\n<html lang=\"{self.language}\"><head><meta charset=\"utf-8\">"
                 "<meta name=\"viewport\" content=\"width=device-width\"><link rel=\"stylesheet\" href=\"/sign-in/style.css\">"
                 f"<title>{self.text('title')}</title></head>\n<body><main><h1>{self.text('title')}</h1>\n{body}</main>"
                 "</body></html>\n")
        return web.Response(status=status, text=whole, content_type="text/html", headers=LINES)

    def alert(self, key: str | None) -> str:
        return f"<p role=\"alert\">{self.text(key)}</p>\n" if key else ""

    def form(self, status: int, mark: str, to: str, wrong: str | None = None) -> web.Response:
        """Returns the form for a name and a password."""
        hidden = "".join(f"<input type=\"hidden\" name=\"{name}\" value=\"{html.escape(value, quote=True)}\">"
                         for name, value in (("mark", mark), ("to", to)))
        return self.reply(status, (
            f"{self.alert(wrong)}<form method=\"post\" action=\"/sign-in\">{hidden}\n"
            f"<label>{self.text('name')} <input name=\"name\" autocomplete=\"username\" required></label>\n"
            f"<label>{self.text('password')} <input name=\"password\" type=\"password\" autocomplete=\"current-password\" "
            f"required></label>\n<button>{self.text('go')}</button></form>\n"))

    def link(self, status: int, to: str, wrong: str | None = None, out: str | None = None) -> web.Response:
        """Returns the link to the provider, and the one by which somebody signs out there."""
        begin = html.escape(f"/sign-in/begin?{urllib.parse.urlencode({'to': to})}", quote=True)
        there = f"<p><a href=\"{html.escape(out, quote=True)}\">{self.text('out-there')}</a></p>\n" if out else ""
        return self.reply(status, f"{self.alert(wrong)}<p><a class=\"button\" href=\"{begin}\">{self.text('by-provider')}"
                                  f"</a></p>\n{there}")

    def refusal(self, status: int, why: str) -> web.Response:
        """Returns why nobody was signed in, with a link to begin again."""
        return self.reply(status, f"{self.alert(why)}<p><a href=\"/sign-in\">{self.text('again')}</a></p>\n")


def style() -> web.Response:
    return web.Response(text=STYLE, content_type="text/css", headers=LINES)
