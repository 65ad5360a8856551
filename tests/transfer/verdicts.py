"""The words of office-verify for a seal that is not good, over years too, each with its status of --strict."""
import pathlib
import random
import shutil
from collections.abc import Callable

import authority
from fake import Fake
from forging import at, day_of, ends, forge
from kit.judging import judge
from place import Done, run
from sealing import SEAL, Place

FORGED, FOREIGN, WITHDRAWN = "forged", "another office's", "key withdrawn before this"
# the years for which a key and an authority are good, and how many of them follow one another
YEARS, TURNS = 3, 3


def words_of(done: Done) -> dict[str, str]:
    """Returns the lines between the last line and those that begin with WRONG or note."""
    lines = [it for it in done.out.splitlines()[:-1] if not it.startswith(("WRONG: ", "note: "))]
    return dict(it.split(": ", 1) for it in lines)


def judge_words(name: str, place: Place, expected: dict[str, str], status: int, *options: object, clock: str = "") -> None:
    """Compares the words, the status without --strict, and the one with it."""
    done = place.verify(*options, clock=clock)
    strict = place.verify(*options, "--strict", "--quiet", clock=clock)
    is_wrong = status not in (0, 4)
    judge(f"{name}: {', '.join(expected) or 'no word'}; status {int(is_wrong)}, with --strict {status}",
          words_of(done) == words_of(strict) == expected and done.status == is_wrong and strict.status == status
          and ("WRONG: " in done.out) == is_wrong, (done, strict))


def chain_of(folder: pathlib.Path, fake: Fake) -> Place:
    """Returns a chain of two honest seals, with a key that has ended, and with the key of another office."""
    place = Place(folder, fake)
    place.close(4)
    place.fetch()
    forge(place, place.key, at(days=700))
    second = place.new_key("second")
    forge(place, second, at(days=400))
    ends(place, "first", day_of(days=500))
    court = place.new_key("court")
    place.signers.write_text(place.signers.read_text().replace(
        f'city namespaces="office-seal" {place.public(court)}', f'court namespaces="office-seal" {place.public(court)}'))
    run("ssh-keygen", "-q", "-t", "ed25519", "-N", "", "-f", place.folder / "thief")
    return place


def words(folder: pathlib.Path) -> None:
    """Each way to make a seal that is not good has its word."""
    with Fake() as fake:
        place = chain_of(folder, fake)
        judge_words("a key that has ended, and the one that followed it", place, {}, 0)
        first, second, court, thief = (place.folder / it for it in ("first", "second", "court", "thief"))

        def judge_forged(name: str, make: Callable[[], pathlib.Path], word: str, status: int) -> None:
            made = make()
            judge_words(name, place, {word: "000003"} if word else {}, status)
            shutil.rmtree(made)

        judge_forged("a key of nobody", lambda: forge(place, thief, at(days=3)), FORGED, 1)
        judge_forged("a key that has ended, at its own moment", lambda: forge(place, first, at(days=3)), WITHDRAWN, 6)
        judge_forged("a key that has ended, its moment put back", lambda: forge(place, first, at(days=600)), WITHDRAWN, 6)
        place.signers.write_text(place.signers.read_text().replace(day_of(days=500), day_of(days=300)))
        judge_forged("a key that has ended, and comes again", lambda: forge(place, first, at(days=390)), WITHDRAWN, 6)
        judge_forged("a seal of another office", lambda: forge(place, court, at(days=3), office="court"), FOREIGN, 5)
        judge_forged("a seal of this office by the key of another", lambda: forge(place, court, at(days=3)), FOREIGN, 5)
        judge_forged("a seal of another office by a key of nobody", lambda: forge(place, thief, at(days=3), office="tax"),
                     FOREIGN, 5)
        judge_forged("a key that goes on, its moment put back: it may have been the clock",
                     lambda: forge(place, second, at(days=401)), "", 1)
        judge_forged("a moment that has not come", lambda: forge(place, second, at(days=-2)), "", 1)
        judge_forged("a clock that is some hours ahead", lambda: forge(place, second, at(hours=-20)), "", 0)
        third = place.new_key("third")
        made = [forge(place, third, at(days=-10))]
        ends(place, "second", day_of(days=-1))
        made.append(forge(place, second, at(minutes=1)))
        judge_words("after a moment that has not come a key has not ended yet", place, {}, 1)
        for it in made:
            shutil.rmtree(it)
        several(place)


def several(place: Place) -> None:
    """Several words at once, keys in the file of those that were withdrawn, and what has no word."""
    second, court, thief = (place.folder / it for it in ("second", "court", "thief"))
    place.withdrawn.write_text(place.public(second) + "\n")
    judge_words("a key in the list of withdrawn ones", place, {WITHDRAWN: "000002"}, 6, "--withdrawn", place.withdrawn)
    forge(place, court, at(days=3))
    judge_words("two words: the status of the worse", place, {FOREIGN: "000003", WITHDRAWN: "000002"}, 5, "--withdrawn",
                place.withdrawn)
    forge(place, thief, at(days=2))
    judge_words("three words", place, {FORGED: "000004", FOREIGN: "000003", WITHDRAWN: "000002"}, 1, "--withdrawn",
                place.withdrawn)
    text = place.seals / "000002/certificate-2.txt"
    whole = text.read_bytes()
    text.write_bytes(whole.replace(b"Vane", b"Vale"))
    judge_words("the worst word of a seal counts", place, {FORGED: "000002, 000004", FOREIGN: "000003"}, 1, "--withdrawn",
                place.withdrawn)
    text.write_bytes(whole)
    shutil.rmtree(place.seals / "000004")
    shutil.rmtree(place.seals / "000003")
    for _ in range(2):
        forge(place, second, at(days=1))
    judge_words("a whole chain of another office", place, {FOREIGN: "000001 to 000004"}, 5, "--office-name", "court")
    judge_words("the chain itself", place, {}, 0)
    texts = {it: it.read_bytes() for it in place.seals.glob("*/certificate-[134].txt")}
    for text, whole in texts.items():
        text.write_bytes(whole.replace(b"Vane", b"Vale"))
    judge_words("seals that do not all follow one another", place, {FORGED: "000001, 000003, 000004"}, 1)
    for text, whole in texts.items():
        text.write_bytes(whole)
    (place.seals / "000004/certificate-4.txt").unlink()
    judge_words("a text that is missing has no word", place, {}, 1)
    shutil.rmtree(place.seals / "000002")
    judge_words("nor has a seal that is missing", place, {}, 1)


def bytes_of_a_seal(folder: pathlib.Path) -> None:
    """One byte of each file of a stamped seal is changed, at places by chance."""
    rng, silent, seen = random.Random(11), [], 0
    with Fake() as fake, authority.Authority(folder / "authority") as one:
        place = Place(folder, fake)
        place.close(2)
        place.fetch()
        place.sign()
        stamp(place, one)
        trusted = ("--authority", one.certificate)
        judge_words("a chain that is stamped", place, {}, 0, *trusted)
        other = authority.Authority(folder / "other")
        judge_words("an authority that the auditor does not know", place, {}, 1, "--authority", other.certificate)
        whole = place.verify(*trusted)
        for name in ("certificate-2.txt", "seal.txt", "seal.txt.sig", "seal.txt.tsr"):
            file = place.seals / "000002" / name
            data = file.read_bytes()
            for spot in sorted(rng.sample(range(len(data)), 10)):
                file.write_bytes(data[:spot] + bytes([data[spot] ^ 1]) + data[spot + 1:])
                done = place.verify(*trusted)
                # no authority signs what lies around its words: then each line is as before, the moment too
                is_as_before = name == "seal.txt.tsr" and done == whole
                # a certificate in a stamp that was changed may be that of another authority
                is_other = "another authority" in done.out and "certificate verify error" in done.out
                seen += not is_as_before
                if not is_as_before and (done.status != 1 or words_of(done) != ({} if is_other else {FORGED: "000002"})):
                    silent.append((name, spot, done))
            file.write_bytes(data)
    judge(f"{seen} changes of one byte of a certificate, a seal, a signature and a stamp have the word {FORGED}",
          not silent and seen >= 33, silent[:2])


def stamp(place: Place, one: authority.Authority, clock: str = "") -> None:
    """Has the seals stamped by an authority whose clock is that of the office."""
    one.clock = clock
    done = run(*(["faketime", "-f", clock] if clock else []), SEAL, "stamp", "--name", "city", "--url", one.url, "--ca",
               one.certificate, place.seals)
    judge("the authority stamps it", done.out == f"stamps: {done.out[8:-1]}\n" and done.status == 0, done)


def last_day(one: authority.Authority) -> str:
    """Returns the day on which the certificate of an authority ends."""
    return run("openssl", "x509", "-noout", "-enddate", "-dateopt", "iso_8601", "-in", one.certificate).out[9:19]


def years(folder: pathlib.Path) -> None:
    """Nine years of seals, with a key and an authority of three years each."""
    with Fake() as fake:
        place = Place(folder, fake)
        place.close(7)
        place.fetch()
        trusted, days, expected = place.folder / "authorities", [], {}
        trusted.write_text("")
        authorities = []
        for turn in range(TURNS):
            clock = f"+{YEARS * turn}y"
            key = place.new_key(f"key{turn}") if turn else place.key
            with authority.Authority(folder / f"authority{turn}", 365 * YEARS, clock) as one:
                authorities.append(one)
                trusted.write_text(trusted.read_text() + one.certificate.read_text())
                for month in (1, 20):
                    seal_at(place, key, YEARS * 365 * turn + 30 * month)
                    stamp(place, one, f"+{YEARS * 365 * turn + 30 * month}d")
                ends(place, key.name, day_of(days=-YEARS * 365 * (turn + 1)))
            now = f"+{YEARS * 365 * turn + 700}d"
            judge_words(f"year {YEARS * turn + 2}", place, expected, 4 if expected else 0, "--authority", trusted, clock=now)
            days.append(last_day(one))
            expected = {f"unproved since {day}": f"{2 * it + 1:06}, {2 * it + 2:06}" for it, day in enumerate(days)}
        judge_words("thirty years on", place, expected, 4, "--authority", trusted, clock="+30y")
        retired(place, authorities, trusted, expected)


def seal_at(place: Place, key: pathlib.Path, day: int) -> pathlib.Path:
    """Adds the next seal, of a day after now."""
    return forge(place, key, at(days=-day))


def retired(place: Place, authorities: list[authority.Authority], trusted: pathlib.Path, expected: dict[str, str]) -> None:
    """Whoever has a key that has ended makes a seal: stamped today, or by an authority whose key is stolen too."""
    now = YEARS * 365 * (TURNS - 1) + 800
    last = {it: expected[it] for it in list(expected)[:-1]}
    with authorities[-1] as one:
        made = seal_at(place, place.key, now)
        stamp(place, one, f"+{now}d")
        judge_words("a key that has ended, with a stamp of today", place, {WITHDRAWN: "000007", **last}, 6, "--authority",
                    trusted, clock=f"+{now}d")
        shutil.rmtree(made)
    with authorities[0] as one:
        seal_at(place, place.key, 650)
        stamp(place, one, "+650d")
        judge_words("a key and an authority that have ended", place, {WITHDRAWN: "000007", **last}, 6, "--authority",
                    trusted, clock=f"+{now}d")
