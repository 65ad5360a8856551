"""Passwords of the names of this site, for the day on which the directory is away, and tokens of programs."""
import datetime
import hashlib
import hmac
import secrets

from office_signin.clock import Moment
from office_signin.settings import Program, Settings

COST, BLOCK, AT_ONCE = 15, 8, 1
"""scrypt: 2 to the power of the cost, and so 32 MB and a tenth of a second for each look at a password"""
MEMORY = 1 << 27
TOKEN_BYTES = 32
NOBODY = f"scrypt:{COST}:{BLOCK}:{AT_ONCE}:{'0' * 32}:{'0' * 64}"
"""what a password is compared with that belongs to no name, so that each answer takes as long"""


def hashed(password: str, cost: int, block: int, at_once: int, salt: bytes) -> bytes:
    return hashlib.scrypt(password.encode(), salt=salt, n=1 << cost, r=block, p=at_once, maxmem=MEMORY, dklen=32)


def hash_of(password: str) -> str:
    """Returns what the settings have of a password."""
    salt = secrets.token_bytes(16)
    return f"scrypt:{COST}:{BLOCK}:{AT_ONCE}:{salt.hex()}:{hashed(password, COST, BLOCK, AT_ONCE, salt).hex()}"


def is_right(settings: Settings, name: str, password: str) -> bool:
    """Reports whether a password is that of a local name."""
    _, cost, block, at_once, salt, wanted = settings.local.get(name, NOBODY).split(":")
    try:
        given = hashed(password, int(cost), int(block), int(at_once), bytes.fromhex(salt))
    except ValueError:
        # a surrogate in the password, or numbers that scrypt does not take
        return False
    return hmac.compare_digest(given, bytes.fromhex(wanted)) and name in settings.local


def new_token() -> str:
    return secrets.token_urlsafe(TOKEN_BYTES)


def digest_of(token: str) -> str:
    return hashlib.sha256(token.encode("utf-8", "surrogateescape")).hexdigest()


def program_of(settings: Settings, name: str, token: str, now: Moment) -> Program | None:
    """Returns the program whose token this is, up to the end of its last day."""
    program = settings.programs.get(name)
    is_its_own = hmac.compare_digest(digest_of(token), program.digest if program else "0" * 64)
    if program is None or not is_its_own:
        return None
    today = now_day(settings, now)
    return program if today <= program.ends.isoformat() else None


def now_day(settings: Settings, now: Moment) -> str:
    """Returns the day of a moment, in the zone of the offices."""
    return datetime.datetime.fromtimestamp(now.wall, settings.times.zone).date().isoformat()
