"""The day of an act against the clock of the machine, in the time zone of the office."""
import datetime
import pathlib
import zoneinfo

from gate_trial.base import SETTINGS, made
from kit.judging import judge, same
from gate_trial.world import World, today

LATE = "role late may lift-hold later-day\nname late is late\n"


def tried(folder: pathlib.Path) -> None:
    world = made(folder, LATE)
    later(world)
    earlier(world)
    zones(world)
    world.end()


def later(world: World) -> None:
    """Tomorrow needs a right of its own; what is no day the office refuses."""
    for day in (today(1), today(400), "2999-12-31", "9999-99-99"):
        status, said = world.act("legal", {"act": "lift-hold", "hold": "NONE", "day": day})
        same(f"day {day}", (status, said["error"], said["place"]), (403, "future", 0))
    for body in (f'[{{"act":"lift-hold","d\\u0061y":"{today(1)}","hold":"NONE"}}]',
                 f'[{{"act":"lift-hold","day":"\\u0032{today(1)[1:]}","hold":"NONE"}}]'):
        same(body, world.text("legal", body)[1]["error"], "future")
    status, said = world.act("legal", {"act": "lift-hold", "hold": "NONE"},
                             {"act": "lift-hold", "hold": "X", "day": today(1)})
    same("the second of two", (status, said["place"]), (403, 1))
    same("it is in the journal", world.last("refused")["count"], 2)
    for day in ("2999-12-31 ", "29991231", "2999-1-1", "+2999-12-31", "12999-01-01", "2999-12-31\n", 2999, None,
                "\u0662999-12-31"):
        status, said = world.act("legal", {"act": "lift-hold", "hold": "NONE", "day": day})
        same(f"{day!r} is no day", (status, said), (400, {"error": "act", "place": 0, "refused": 2}))
    same("today", world.act("legal", {"act": "lift-hold", "hold": "NONE"})[0], 409)


def earlier(world: World) -> None:
    """An earlier day is the office's to judge, and the journal marks it."""
    same("yesterday", world.act("legal", {"act": "lift-hold", "hold": "NONE"},
                                {"act": "lift-hold", "hold": "NONE", "day": today(-1)})[0], 409)
    same("the mark", world.last("asked")["earlier"], [1])
    world.act("legal", {"act": "lift-hold", "hold": "NONE"})
    judge("today has none", "earlier" not in world.last("asked"))


def zones(world: World) -> None:
    """Today is that of the zone of the office: it ends at another moment in each."""
    for zone in ("Pacific/Kiritimati", "Pacific/Pago_Pago", "Europe/Berlin", "America/Los_Angeles"):
        here = datetime.datetime.now(zoneinfo.ZoneInfo(zone)).date()
        world.reload(SETTINGS + LATE, zone)
        same(f"today in {zone}", world.get("legal", "/rights")[1]["today"], here.isoformat())
        after = (here + datetime.timedelta(1)).isoformat()
        same(f"tomorrow in {zone}", world.act("legal", {"act": "lift-hold", "hold": "NONE", "day": after})[0], 403)
        # the office's own day may be later there, so that it refuses
        same(f"today passes in {zone}",
             world.act("legal", {"act": "lift-hold", "hold": "NONE", "day": here.isoformat()})[0], 409)
    same("who has the right may write tomorrow", world.act("late", {"act": "lift-hold", "hold": "NONE",
                                                                    "day": "2999-12-31"})[0],
         409)

