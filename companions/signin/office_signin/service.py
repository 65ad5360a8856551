"""The service behind nginx: who somebody is, and the pages by which people sign in and out."""
import asyncio
import functools
import os
import secrets
import signal
import sys
import traceback
import urllib.parse
from collections.abc import Awaitable, Callable, Sequence
from pathlib import Path

from aiohttp import web

from office_common.command import ERROR, report
from office_common.notify import ready

from office_signin import pages, requests
from office_signin.clock import now
from office_signin.pages import Page, safe_place
from office_signin.requests import BEGUN, FORM, SESSION, Marks, address, cookie, is_from_here, is_led_here, one
from office_signin.settings import PROVIDER
from office_signin.signing_in import TOKEN, Refusal, SigningIn
from office_signin.statements import Untrue

MOST_BYTES = 16_384
LONGEST_FIELD = 1_024
BEGUN_SECONDS = 600
Handler = Callable[[web.Request], Awaitable[web.StreamResponse]]


def reply(status: int, **lines: str) -> web.Response:
    """Returns an answer without a body. A line `Office-Name` is written as `Office_Name`."""
    named = {key.replace("_", "-"): value for key, value in lines.items()}
    return web.Response(status=status, headers={"Cache-Control": "no-store", **named})


def field_of(values: Sequence[object]) -> str:
    """Returns a field of a form, which is there once."""
    text = values[0] if len(values) == 1 else ""
    return text if isinstance(text, str) and len(text) <= LONGEST_FIELD else ""


class Front:
    """The paths of the service."""

    def __init__(self, signing_in: SigningIn) -> None:
        self.signing_in, self.settings = signing_in, signing_in.settings
        self.marks = Marks()

    def application(self) -> web.Application:
        """Returns the application of aiohttp, with its paths."""
        app = web.Application(client_max_size=MOST_BYTES, middlewares=[self.guarded])
        app.add_routes([
            web.get("/who", self.who, allow_head=False), web.get("/sign-in", self.form, allow_head=False),
            web.post("/sign-in", self.password), web.get("/sign-in/begin", self.begin, allow_head=False),
            web.get("/sign-in/back", self.back, allow_head=False), web.get("/sign-in/local", self.local, allow_head=False),
            web.get("/sign-in/style.css", self.style, allow_head=False), web.get("/sign-out", self.out, allow_head=False)])
        return app

    @web.middleware
    async def guarded(self, request: web.Request, handler: Handler) -> web.StreamResponse:
        """Turns what went wrong into an answer: nobody is signed in by an error."""
        try:
            return await handler(request)
        except Refusal as refusal:
            page = Page(one(request, "Accept-Language")).refusal(refusal.status, refusal.word)
            if refusal.status in (429, 503):
                page.headers["Retry-After"] = "60"
            return page
        except web.HTTPException as error:
            return reply(error.status)
        except Exception:
            traceback.print_exc(file=sys.stderr)
            return reply(500)

    # ---- nginx asks

    async def who(self, request: web.Request) -> web.Response:
        """Answers nginx who sent a request: 204 with the name for the gate, or 401."""
        key = cookie(request, SESSION)
        session = self.signing_in.sessions.find(key, now()) if key else None
        if session is not None:
            return reply(204, Office_Name=session.name, Office_Way=f"{session.way}:{session.line}")
        login = requests.login(request)
        known = self.signing_in.program(login.name, login.token, address(request)) if login else None
        if known is None:
            return reply(401)
        return reply(204, Office_Name=known[0].name, Office_Way=f"{TOKEN}:{known[1]}")

    # ---- people sign in

    async def form(self, request: web.Request) -> web.Response:
        """Shows the form, or the link to the provider. Whoever has a session goes on at once."""
        to = safe_place(request.query.get("to", pages.HOME))
        key = cookie(request, SESSION)
        if key and self.signing_in.sessions.find(key, now()):
            return reply(303, Location=to)
        if self.signing_in.provided is not None:
            return Page(one(request, "Accept-Language")).link(200, to, out=self.signing_in.provided.out())
        return self.blank(request, 200, to)

    async def local(self, request: web.Request) -> web.Response:
        """Shows the form for the local names, where others sign in at a provider."""
        return self.blank(request, 200, safe_place(request.query.get("to", pages.HOME)))

    def blank(self, request: web.Request, status: int, to: str, wrong: str | None = None) -> web.Response:
        """Returns an empty form. Its mark fits the cookie that comes with it."""
        value = cookie(request, FORM)
        is_new = len(value) < 40
        value = secrets.token_urlsafe(32) if is_new else value
        page = Page(one(request, "Accept-Language")).form(status, self.marks.of(value), to, wrong)
        if is_new:
            requests.set_cookie(page, FORM, value)
        return page

    async def password(self, request: web.Request) -> web.Response:
        """Takes the form."""
        if not is_from_here(request, self.settings.site):
            raise Refusal(403, "origin")
        fields = await request.post()
        name, password, mark, to = (field_of(list(fields.getall(key, []))) for key in ("name", "password", "mark", "to"))
        if not self.marks.fits(cookie(request, FORM), mark):
            raise Refusal(403, "state")
        try:
            key = await self.signing_in.by_password(name, password, address(request))
        except Refusal as refusal:
            page = self.blank(request, refusal.status, safe_place(to), refusal.word)
            if refusal.status in (429, 503):
                page.headers["Retry-After"] = "60"
            return page
        return self.signed_in(request, key, safe_place(to))

    def signed_in(self, request: web.Request, key: str, to: str) -> web.Response:
        """Returns the way to the page, with the key of the new session; the one before ends."""
        before = cookie(request, SESSION)
        if before:
            self.signing_in.sign_out(before)
        back = reply(303, Location=to)
        requests.set_cookie(back, SESSION, key)
        requests.drop_cookie(back, FORM)
        return back

    # ---- at a provider

    async def begin(self, request: web.Request) -> web.Response:
        """Sends somebody to the provider."""
        provided = self.signing_in.provided
        if provided is None:
            return reply(404)
        to = safe_place(request.query.get("to", pages.HOME))
        try:
            begun = await self.signing_in.asking.run(functools.partial(provided.begin, to, now()))
        except Untrue as untrue:
            report("office-sign-in", f"the provider is away: {untrue}", ERROR)
            raise Refusal(503, "away") from untrue
        back = reply(302, Location=begun.address)
        requests.set_cookie(back, BEGUN, begun.cookie, BEGUN_SECONDS)
        return back

    async def back(self, request: web.Request) -> web.Response:
        """Takes what the provider sends somebody back with. It counts once, in the browser that began."""
        provided = self.signing_in.provided
        if provided is None:
            return reply(404)
        query = [(key, value) for key, value in urllib.parse.parse_qsl(request.query_string, keep_blank_values=True)]
        fields = dict(query) if len(dict(query)) == len(query) else {}
        try:
            held = provided.held(cookie(request, BEGUN), fields, now())
        except Untrue as untrue:
            self.signing_in.journal.write("refused", why="state", **{"from": address(request)})
            report("office-sign-in", f"a sign-in was not begun here: {untrue}")
            raise Refusal(403, "state") from untrue
        try:
            known, refresh = await self.signing_in.asking.run(functools.partial(provided.end, held, fields["code"]))
        except Untrue as untrue:
            self.signing_in.journal.write("refused", why="provider", **{"from": address(request)})
            report("office-sign-in", f"the provider's statement is not taken: {untrue}", ERROR)
            raise Refusal(403, "provider") from untrue
        key = await self.signing_in.known(known, PROVIDER, address(request), refresh)
        page = self.signed_in(request, key, safe_place(held.to))
        requests.drop_cookie(page, BEGUN)
        return page

    # ---- the rest

    async def out(self, request: web.Request) -> web.Response:
        """Signs somebody out: a page of this site asks, and no other."""
        if not is_led_here(request, self.settings.site):
            return reply(403)
        self.signing_in.sign_out(cookie(request, SESSION))
        back = web.json_response({"error": "password"}, status=401, headers={"Cache-Control": "no-store"})
        requests.drop_cookie(back, SESSION)
        return back

    async def style(self, _: web.Request) -> web.Response:
        return pages.style()


async def served(signing_in: SigningIn, socket: Path) -> None:
    """Serves until a signal ends the process."""
    runner = web.AppRunner(Front(signing_in).application(), access_log=None, keepalive_timeout=75)
    await runner.setup()
    socket.unlink(missing_ok=True)
    mask = os.umask(0o117)
    await web.UnixSite(runner, str(socket)).start()
    os.umask(mask)
    over = asyncio.Event()
    loop = asyncio.get_running_loop()
    for number in (signal.SIGTERM, signal.SIGINT):
        loop.add_signal_handler(number, over.set)
    at_once = asyncio.Event()

    def reload() -> None:
        signing_in.journal.reopen()
        at_once.set()
    loop.add_signal_handler(signal.SIGHUP, reload)
    signing_in.journal.write("opened")
    asking = asyncio.create_task(signing_in.go_on_asking(at_once))
    ready()
    print(f"listening {socket}", flush=True)
    await over.wait()
    asking.cancel()
    await runner.cleanup()
    signing_in.journal.write("closed")


def serve(signing_in: SigningIn, socket: Path) -> None:
    asyncio.run(served(signing_in, socket))
