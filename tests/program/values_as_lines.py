"""The lines that `where` and `span` print, made of what they tell as JSON: so nothing that stands there is left out."""

from __future__ import annotations

from typing import Any

Value = dict[str, Any]
# So many stretches of the path, lines of the text, places of waits, phases and activities of one are lines at most.
STRETCHES, LINES, PLACES, PHASES, NAMES = 200, 5, 6, 40, 8
WHY = {
    "start": "started by",
    "clock": "passes a clock that waited for",
    "finish": "closes a finish that waited for",
}


def place_of(value: Value) -> str:
    """Where a step was taken, or an activity stands."""
    if "line" in value:
        return f"at {value['line']}:{value['column']}"
    return f"unit {value['unit']} place {value['place']}"


def spot_of(value: Value) -> str:
    return place_of(value).removeprefix("at ")


# ---- where


def listed(acts: list[int], count: int) -> str:
    more = count - len(acts)
    return "".join(f" {act}" for act in acts) + (f" and {more} more" if more else "")


def registration(value: Value, standing: Value, is_waiting: bool) -> str:
    told = f", clock {standing['clock']} {standing['standing']}"
    clock = value["clocks"][standing["clock"]]
    if is_waiting and standing["standing"] == "signalled":
        return f"{told} held by{listed(clock['held_by'], clock['held_by_count'])}"
    return told


def activity(value: Value, one: Value) -> str:
    does = one["does"]
    if does == "has ended":
        return f"act {one['act']} has ended\n"
    awaited = f" for{listed(one['waits_for'], one['waits_for_count'])}" if "waits_for" in one else ""
    clocks = "".join(registration(value, standing, does == "waits for clocks") for standing in one["clocks"])
    return f"act {one['act']} {place_of(one)} {does}{awaited}{clocks}\n"


def held(name: Value) -> str:
    if "clock" in name:
        return f", {name['name']} is clock {name['clock']}"
    return f", {name['name']} = {name['number']}" if "number" in name else f", {name['name']} up to {name['up_to']}"


def frames(value: Value, act: int) -> str:
    told = ""
    for depth, frame in enumerate(one for one in value["frames"] if one["act"] == act and "in" in one):
        names = "".join(map(held, frame["names"]))
        if depth:
            told += f"act {act} called by {frame['in']} {place_of(frame)}{names}\n"
        elif names:
            told += f"act {act} in {frame['in']}{names}\n"
    return told


def shared(one: Value) -> str:
    return f"{one['name']} = {one['value']}\n" if "name" in one else f"shared {one['shared']} is {one['value']}\n"


def standings(value: Value) -> str:
    """What `where` prints."""
    told = f"steps {value['steps']}\n"
    told += "".join(activity(value, one) + frames(value, one["act"]) for one in value["activities"])
    told += "".join(f"clock {clock['clock']} phase {clock['phase']}\n" for clock in value["clocks"])
    told += "".join(map(shared, value["shared"]))
    if stop := value.get("stopped"):
        step = f"entry {stop['entry']} step {stop['step']} of {stop['steps']}"
        told += f"{step}: act {stop['act']} {stop['does']}\n"
    return told + (f"the log ends after step {value['log_ends']}\n" if "log_ends" in value else "")


# ---- span


def few(words: list[str], most: int, rest: str) -> list[str]:
    """The first of these, and how many more there are."""
    more = len(words) - most
    return words[:most] + ([rest.format(more)] if more > 0 else [])


def stretch(one: Value) -> str:
    why = f", {WHY[one['why']]} act {one['behind']}" if "behind" in one else ""
    first, last = one["first"], one["last"]
    rounds = f"path rounds {one['start']} to {one['stop']}"
    return f"{rounds} act {first['act']} from {spot_of(first)} to {spot_of(last)}{why}\n"


def path_lines(value: Value) -> str:
    most = sorted(value["lines"], key=lambda line: -line["steps"])[:LINES]
    told = ", ".join(f"{line['line']} with {line['steps']}" for line in most)
    return f"path lines {told}\n" if told else ""


def phase(one: Value) -> str:
    lasts = [f", last act {step['act']} at {spot_of(step)}" for step in one["last"]]
    earlier = [f"; act {came['act']} earlier by {came['rounds']}" for came in one["earlier"]]
    told = "".join([*few(lasts, NAMES, " and {} more"), *few(earlier, NAMES, " and {} more")])
    return f"clock {one['clock']} phase {one['phase']} round {one['round']}{told}\n"


def waits(value: Value) -> str:
    longest = sorted(value["waits"], key=lambda wait: -wait["rounds"])[:PLACES]
    return "".join(
        f"waited {wait['rounds']} rounds {place_of(wait)} {wait['event']}, {wait['times']} times\n" for wait in longest
    )


def timing(value: Value) -> str:
    """What `span` prints."""
    work, span = value["work"], value["span"]
    ratio = (200 * work + span) // (2 * span)
    parallelism = f"{ratio // 100}.{ratio // 10 % 10}{ratio % 10}"
    on = (f"on {one['processors']} processors rounds {one['least']} to {one['most']}\n" for one in value["processors"])
    scope = "every schedule has this work and span, and this widest round" if value["every_schedule"] else ""
    return "".join(
        [
            f"work {work} span {span} parallelism {parallelism} widest {value['widest']}\n",
            *on,
            *few([stretch(one) for one in value["path"]], STRETCHES, "path and {} stretches more\n"),
            path_lines(value),
            *few([phase(one) for one in value["phases"]], PHASES, "and {} phases more\n"),
            waits(value),
            f"{scope or 'of this run alone'}\n",
        ]
    )
