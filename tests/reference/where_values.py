"""The reference for `where --json`, from docs/FORMATS.md, "As JSON": how things stand behind the steps of a log, as one
value."""

from __future__ import annotations

from tests.reference import naming, origins
from tests.reference.explain import position
from tests.reference.explain_json import Members, line_of
from tests.reference.modules import ClockName, Frame, Standing, Status
from tests.reference.source import Parser
from tests.reference.where import NAMED, Place


def spot(place: Place, frame: Frame) -> Members:
    """Where a frame stands."""
    found: Members = {"unit": frame.unit, "place": frame.place}
    if place.program.is_module:
        return found
    line, column = position(place.program.data, place.program.offset(frame))
    return found | {"line": line, "column": column}


def excerpt(key: str, acts: list[int]) -> Members:
    """The first of some activities, and how many there are."""
    return {key: acts[:NAMED], f"{key}_count": len(acts)}


def activity(place: Place, who: int) -> Members:
    doing = place.doing(who)
    told: Members = {"act": who, "does": doing}
    if doing == "has ended":
        return told
    there = place.played.world.activities[who]
    standings = ((number, clock.standing(who)) for number, clock in enumerate(place.played.world.clocks))
    told["clocks"] = [
        {"clock": number, "standing": standing.name.lower()}
        for number, standing in standings
        if standing is not Standing.APART
    ]
    awaited = excerpt("waits_for", sorted(there.finishes[-1])) if doing == "waits in finish" else {}
    return told | spot(place, there.frames[-1]) | awaited


def clock(place: Place, number: int) -> Members:
    there = place.played.world.clocks[number]
    holders = [who for who in place.everybody if who in there.registered and who not in there.resumed]
    return {"clock": number, "phase": place.played.phases.get(number, 0)} | excerpt("held_by", holders)


def held(place: Place, frame: Frame) -> list[Members]:
    """What the names of a frame hold."""
    names, told = origins.origins(place.program.data)[frame.unit].slots, list[Members]()
    for slot, value in enumerate(frame.slots):
        limited = place.limited(frame, slot)
        if value is None:
            continue
        if isinstance(value, ClockName):
            told += [{"name": naming.cut(names[slot]), "clock": value.number}] if slot in names else []
        elif slot in names:
            told.append({"name": naming.cut(names[slot]), "number": value})
        elif limited:
            told.append({"name": naming.cut(names[limited[0]]), "up_to": min(value, limited[1])})
    return told


def frames(place: Place, who: int) -> list[Members]:
    """The frame in which an activity stands, and those that wait for it to return. Those stand behind their calls
    here."""
    there = place.played.world.activities[who]
    if there.status is Status.ENDED:
        return []
    *waiting, own = there.frames
    told = list[Members]()
    for frame in [own, *(frame._replace(place=frame.place - 1) for frame in reversed(waiting))]:
        known: Members = {}
        if not place.program.is_module:
            known = {"in": place.method(frame), "names": held(place, frame)}
        told.append({"act": who} | spot(place, frame) | known)
    return told


def shared(place: Place) -> list[Members]:
    told: list[Members] = [{"shared": number, "value": value} for number, value in enumerate(place.played.world.shared)]
    if place.program.is_module:
        return told
    names = [naming.cut(one.name.text) for one in Parser(place.program.data).program().shared]
    return [one | {"name": name} for one, name in zip(told, names, strict=True)]


def standings(place: Place, ends: int | None) -> str:
    """How things stand; the log ends at this step, where one behind it was asked for."""
    world = place.played.world
    told: Members = {
        "steps": place.played.steps,
        "activities": [activity(place, who) for who in place.everybody],
        "clocks": [clock(place, number) for number in range(len(world.clocks))],
        "frames": [frame for who in place.everybody for frame in frames(place, who)],
        "shared": shared(place),
    }
    if place.stop:
        act = place.stop.entry.activity
        step: Members = {"entry": place.stop.number, "step": place.stop.step, "steps": place.stop.entry.steps}
        told["stopped"] = {"act": act, "does": place.doing(act)} | step
    if ends is not None:
        told["log_ends"] = ends
    return line_of(told)
