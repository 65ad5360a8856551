"""What a provider states of somebody: an ID token is taken if a key of the provider signed it, for this client and now."""
import hashlib
import hmac
import time
from collections.abc import Callable, Mapping
from typing import Any

from office_signin.directory import ID, Known, library
from office_signin.settings import Provider

ALGORITHMS = {"RS256": "RSA", "PS256": "RSA", "ES256": "EC"}
"""how a token may be signed, with the kind of the key: with the secret of this client, or not at all, is none of them"""
LEEWAY = 60
LONGEST_ID, MOST_GROUPS = 255, 1_000


class Untrue(Exception):
    """A statement that is not taken, and why."""


def key_in(keys: Any, header: Mapping[str, Any]) -> Any:
    """Returns the key of the provider by which a token says that it is signed, or None if there is no such key."""
    kind = ALGORITHMS.get(str(header.get("alg")))
    if kind is None:
        raise Untrue(f"a token is signed by {header.get('alg')}, which is none of {', '.join(ALGORITHMS)}")
    fitting = [key for key in keys if isinstance(key, dict) and key.get("kty") == kind and key.get("use", "sig") == "sig"
               and key.get("alg", header["alg"]) == header["alg"]]
    kid = header.get("kid")
    if kid is None:
        return fitting[0] if len(fitting) == 1 else None
    named = [key for key in fitting if key.get("kid") == kid]
    return named[0] if len(named) == 1 else None


def claims_of(token: object, settings: Provider, keys_again: Callable[[bool], Any]) -> dict[str, Any]:
    """Returns the claims of an ID token. Untrue says why it is not taken."""
    jwt = library("jwt", "python3-jwt")
    if not isinstance(token, str):
        raise Untrue("there is no ID token")
    try:
        header = jwt.get_unverified_header(token)
        if "crit" in header:
            raise Untrue("a token has a critical header that nobody here knows")
        found = key_in(keys_again(False), header) or key_in(keys_again(True), header)
        if found is None:
            raise Untrue("no key of the provider has signed a token")
        claims: dict[str, Any] = jwt.decode(
            token, jwt.PyJWK.from_dict(found, header["alg"]).key, algorithms=[header["alg"]], audience=settings.client,
            issuer=settings.issuer, leeway=LEEWAY, options={"require": ["exp", "iat", "iss", "aud", "sub"]})
    except (jwt.PyJWTError, ValueError, TypeError, KeyError) as error:
        raise Untrue(f"a token is not taken: {type(error).__name__}: {error}") from error
    check_claims(claims, settings)
    return claims


def check_claims(claims: Mapping[str, Any], settings: Provider) -> None:
    """Refuses what is not for this client alone, or not from now."""
    audience = claims["aud"]
    if isinstance(audience, list) and len(audience) > 1 and claims.get("azp") != settings.client:
        raise Untrue("a token is for several clients, and not said to be for this one")
    if "azp" in claims and claims["azp"] != settings.client:
        raise Untrue("a token was given to another client")
    if claims["iat"] > time.time() + LEEWAY:
        raise Untrue("a token is of the future")
    if not isinstance(claims["sub"], str) or not 0 < len(claims["sub"]) <= LONGEST_ID:
        raise Untrue("a token is of nobody")


def check_nonce(claims: Mapping[str, Any], nonce: str) -> None:
    """Refuses a token that answers another sign-in."""
    given = claims.get("nonce")
    if not isinstance(given, str) or not hmac.compare_digest(given.encode(), nonce.encode()):
        raise Untrue("the nonce is that of another sign-in")


def stable_id(settings: Provider, claims: Mapping[str, Any]) -> str:
    """Returns the stable id: the claim itself or, if a gate would not take that as a name, its SHA-256."""
    value = claims.get(settings.id)
    if not isinstance(value, str) or not 0 < len(value) <= LONGEST_ID:
        raise Untrue(f"there is no {settings.id}")
    if ID.fullmatch(value) and not value.startswith("h-"):
        return value
    return "h-" + hashlib.sha256(f"{settings.issuer}\n{value}".encode()).hexdigest()[:40]


def groups_in(settings: Provider, claims: Mapping[str, Any]) -> tuple[str, ...]:
    """Returns the groups: a list, or one text parted by semicolons, as LemonLDAP::NG sends it."""
    # Entra ID leaves them out above 200, and says so
    if settings.groups in (claims.get("_claim_names") or {}):
        raise Untrue("the provider left the groups out, since there are too many: have it send application roles")
    groups = claims.get(settings.groups, [])
    if isinstance(groups, str):
        groups = [group.strip() for group in groups.split(";") if group.strip()]
    if not isinstance(groups, list) or len(groups) > MOST_GROUPS or not all(isinstance(group, str) for group in groups):
        raise Untrue(f"{settings.groups} is no list of groups")
    return tuple(sorted(set(groups)))


def known_by(settings: Provider, claims: Mapping[str, Any]) -> Known:
    """Returns whom the claims are about."""
    id_ = stable_id(settings, claims)
    name = claims.get(settings.name)
    name = name if isinstance(name, str) and name else id_
    return Known(id_, name, name, groups_in(settings, claims))
