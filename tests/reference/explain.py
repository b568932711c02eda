"""The reference for what `explain` prints on standard output, from docs/EXPLAIN.md: its rules in words, its tables and
its notes."""

from __future__ import annotations

import re
from functools import cache

from tests.harness import TOP
from tests.reference import declarations, expected, hints, origins, sums
from tests.reference.names import cut
from tests.reference.source import RULES, faults_of, tokens_of
from tests.reference.sums import Note

PAGE = TOP / "docs/EXPLAIN.md"
ROW = re.compile(r"\| (?P<rule>[FMV]\d+) \w+ \| (?P<wrong>.*) \| (?P<repair>.*) \|")
HABIT = re.compile(r"\| (?P<rule>F\d+) \| (?P<where>at|behind|before|in) \| (?P<what>.*?) \| (?P<repair>.*) \|")
OF_SOURCE = re.compile(r"\| (?P<rule>V\d+) of a source text \| (?P<wrong>.*) \|")
SECOND = "| Rule | Where | What stands there, where nothing above fits |"
KIND = re.compile(r"\| (?P<kind>unset|number|live|resumed|out) \| (?P<holds>.*) \|")
FRONT = re.compile(r"(?P<title>(?P<rule>F\d+) \w+) at (?P<at>\d+)")
TEXT = re.compile(r"(?P<title>(?P<rule>M\d+) \w+)")
PLACE = re.compile(
    r"(?P<title>(?P<rule>V\d+) \w+) (?P<place>unit \d+ at \d+)(?: slot (?P<slot>\d+) (?P<kind>\w+) walk (?P<walk>.*))?"
)
BOUND = re.compile(r"(?P<title>(?P<rule>V\d+) \w+) over (?P<limit>\d+)")
# So many signs are shown on either side of a place, at most, and of a line of a walk.
WINDOW, TOLD = 80, 60
# So many faults of names are shown at once.
SHOWN_AT_ONCE = 10
MORE = f"\n   = there are more faults of names: these are the first {SHOWN_AT_ONCE}\n"
WAYS = "   = ways go round loops and into both branches, whatever the numbers are\n"
WORD = re.compile(rb"[0-9A-Za-z_]*")
WORDS = re.compile(rb"[0-9A-Za-z_]+")
LAST_WORD = re.compile(rb"[0-9A-Za-z_]*\Z")
BLANKS = b" \t\n\r"
COMMENT = re.compile(rb"//[^\n]*|/\*.*?\*/", re.DOTALL)
MARK = b"\xef\xbb\xbf"
WITHOUT_PLACE = ("F4", "F9")
RESERVED = b"shared def val var if else for in async clocked finish atomic Clock Long Console".split()
TYPES = b"let const final mut auto int long Int bool boolean float double unsigned short".split()
STATEMENTS = b"if for while finish async clocked atomic Console System Clock".split()
ALONE_IN = (b"", b"val", b"var", b"shared", b"Clock")
COMPARED_IN = (b"", b"val", b"var", b"Console", b"console", b"System")


@cache
def tables() -> tuple[dict[str, tuple[str, str]], dict[str, str]]:
    """What is wrong, and the usual repair, by rule; and what a slot holds, by kind."""
    page = PAGE.read_text().splitlines()
    rules = {found["rule"]: (found["wrong"], found["repair"]) for line in page if (found := ROW.fullmatch(line))}
    return rules, {found["kind"]: found["holds"] for line in page if (found := KIND.fullmatch(line))}


@cache
def wrong_in_source(rule: str) -> str:
    """What is wrong with a source text by a rule of the verifier."""
    found = (OF_SOURCE.fullmatch(line) for line in PAGE.read_text().splitlines())
    return next((row["wrong"] for row in found if row and row["rule"] == rule), tables()[0][rule][0])


@cache
def habits() -> tuple[list[tuple[str, str, str, str]], list[tuple[str, str, str, str]]]:
    """Rule, where, what stands there, and the repair, row by row: of the first table, and of the second one."""
    first, second = PAGE.read_text().split(SECOND)
    return rows(first), rows(second)


def rows(page: str) -> list[tuple[str, str, str, str]]:
    found = (HABIT.fullmatch(line) for line in page.splitlines())
    return [
        (row["rule"], row["where"], *(row[cell].replace("\\|", "|") for cell in ("what", "repair")))
        for row in found
        if row
    ]


def signs(line: bytes) -> list[bytes]:
    """The characters of a line, and single bytes that belong to none, or to a control sign."""
    found = []
    while line:
        length = next((n for n in (1, 2, 3, 4) if is_character(line[:n])), 1)
        found.append(line[:length])
        line = line[length:]
    return found


def is_character(piece: bytes) -> bool:
    try:
        text = piece.decode()
    except UnicodeDecodeError:
        return False
    return len(text) == 1 and not "\x80" <= text < "\xa0"


def shown(sign: bytes) -> str:
    if len(sign) > 1:
        text = sign.decode()
        return f"\\u{{{ord(text):x}}}" if "\u2028" <= text <= "\u202e" or "\u2066" <= text <= "\u2069" else text
    if sign == b"\t":
        return " "
    return sign.decode() if b" " <= sign <= b"~" else f"\\x{sign[0]:02x}"


def columns(text: str | bytes) -> int:
    """Bytes but those that go on a character of UTF-8."""
    return sum(not 0x80 <= byte <= 0xBF for byte in (text if isinstance(text, bytes) else text.encode()))


def position(text: bytes, at: int) -> tuple[int, int]:
    start = text.rfind(b"\n", 0, at) + 1
    return text.count(b"\n", 0, at) + 1, columns(text[start:at]) + 1


def whole_line(text: bytes, at: int) -> bytes:
    """The line of an offset, without its end."""
    start = text.rfind(b"\n", 0, at) + 1
    end = text.find(b"\n", start)
    line = text[start : end if end >= 0 else len(text)]
    return line.removesuffix(b"\r") if end >= 0 else line


def excerpt(text: bytes, at: int, marked: int) -> str:
    start = text.rfind(b"\n", 0, at) + 1
    line = whole_line(text, at)
    before, behind = signs(line[: at - start]), signs(line[at - start :])
    left = (".." if len(before) > WINDOW else "") + "".join(map(shown, before[-WINDOW:]))
    right = "".join(map(shown, behind[:WINDOW])) + (".." if len(behind) > WINDOW else "")
    carets = max(1, columns("".join(map(shown, behind[: min(marked, WINDOW)]))))
    number = str(position(text, at)[0])
    margin = " " * (len(number) + 2)
    return f"{margin}|\n {number} | {left}{right}\n{margin}| {' ' * columns(left)}{'^' * carets}\n"


def repair(rule: str) -> str:
    return repair_line(tables()[0][rule][1])


def repair_line(said: str) -> str:
    return f"   = usual repair: {said}\n"


def without_comments(text: bytes) -> bytes:
    """Blanks in their place, on as many lines."""
    return COMMENT.sub(lambda comment: re.sub(rb"[^\n]", b" ", comment[0]), text)


def head(blanked: bytes) -> bytes:
    """The last word that a statement is known by, behind each `;`, `{` and `}`."""
    known = {word for table in habits() for _, where, what, _ in table if where == "in" for word in cells(what)}
    words = WORDS.findall(re.split(rb"[;{}]", blanked)[-1])
    return next((word for word in reversed(words) if word in known), b"")


def cells(what: str) -> list[bytes]:
    """What is in backticks."""
    return [cell.encode() for cell in re.findall(r"`([^`]*)`", what)]


def before_word(kept: bytes) -> bytes:
    """Without the word that a text ends with, and without the blanks before that."""
    return kept[: len(kept) - len(LAST_WORD.search(kept)[0])].rstrip(BLANKS)


def is_alone(kept: bytes) -> bool:
    """Whether a text ends with a word behind the end of a statement."""
    word = LAST_WORD.search(kept)[0]
    is_name = word != b"" and word not in RESERVED and not word[:1].isdigit()
    return is_name and before_word(kept).endswith((b";", b"{", b"}", b")"))


def is_bound(kept: bytes) -> bool:
    """Whether it ends with a name behind `val` or `var`."""
    return LAST_WORD.search(kept)[0] != b"" and LAST_WORD.search(before_word(kept))[0] in (b"val", b"var")


def depth(text: bytes, at: int) -> int:
    """How many `{` are open there."""
    found = 0
    for token in tokens_of(text):
        if token.at < at:
            found = found + 1 if token.text == "{" else max(found - 1, 0) if token.text == "}" else found
    return found


def is_within(rest: bytes, first: int, last: int) -> bool:
    """Whether a text goes on with a sign of these numbers."""
    sign = rest[:3].decode("utf-8", "ignore")[:1]
    return sign != "" and first <= ord(sign) <= last


def is_other_blank(rest: bytes) -> bool:
    blanks = ((0x2000, 0x200A), (0x202F, 0x202F), (0x205F, 0x205F), (0x3000, 0x3000))
    return any(is_within(rest, *ends) for ends in blanks)


def is_without_width(rest: bytes) -> bool:
    marks = ((0xAD, 0xAD), (0x200B, 0x200F), (0x2060, 0x2060), (0xFEFF, 0xFEFF))
    return any(is_within(rest, *ends) for ends in marks)


def is_unseen(rest: bytes) -> bool:
    return is_within(rest, 0xA0, 0xA0) or is_other_blank(rest) or is_without_width(rest)


def signs_of_unicode(what: str, rest: bytes) -> bool | None:
    """Whether a sign that isn't of ASCII stands there, which a row describes in words."""
    tests = {
        "a no-break space": is_within(rest, 0xA0, 0xA0),
        "a typographic quote": is_within(rest, 0x2018, 0x201F) or rest.startswith(("«".encode(), "»".encode())),
        "a dash": rest.startswith(tuple(sign.encode() for sign in "\u2013\u2014\u2212")),
        "a sign of full width": rest.startswith((b"\xef\xbc", b"\xef\xbd")),
        "a blank of another width": is_other_blank(rest),
        "a sign without any width": is_without_width(rest),
        "no ASCII": rest[:1] >= b"\x80",
    }
    return tests.get(what)


def outside(what: str, text: bytes, at: int, kept: bytes) -> bool | None:
    """The same of rows on what stands where no `{` is open."""
    rest = text[at:]
    head_of = re.match(rb"[^{;=]*", rest)[0]
    ends_with, is_open = rest[len(head_of) :][:1], depth(text, at) > 0
    word = WORD.match(rest)[0]
    tests = {
        "the head of a method, where no `{` is open": b"(" in head_of and ends_with == b"{" and word not in STATEMENTS,
        "a word before `def`, where no `{` is open": word != b""
        and WORD.match(without_comments(rest[len(word) :]).lstrip(BLANKS))[0] == b"def",
        "a number's name, where no `{` is open": word != b"" and b"(" not in head_of and ends_with == b"=",
        "`}`, at a `}`, where no `{` is open": kept.endswith(b"}") and rest.startswith(b"}"),
        "`}`, where no `{` is open": kept.endswith(b"}"),
    }
    return None if what not in tests else not is_open and tests[what]


def between(what: str, kept: bytes, rest: bytes, blanked: bytes) -> bool | None:
    """The same of rows on signs, and on what stands before them."""
    word, last = WORD.match(rest)[0], LAST_WORD.search(kept)[0]
    behind_word = without_comments(rest[len(word) :]).lstrip(BLANKS)
    equal, compared = rest.startswith(b"=="), rest.startswith((b"==", b"!=", b"<", b">"))
    tests = {
        "a type or its like, in a `for`": last in TYPES and head(blanked) in (b"for", b"For"),
        "a type or its like, in a `shared`": last in TYPES and head(blanked) == b"shared",
        "a type or its like, in a `def`": last in TYPES and head(blanked) == b"def",
        "`Long`, in a `def`": word == b"Long" and head(blanked) == b"def",
        "`Rail`, `String`, `Array`, in a `def`": word in (b"Rail", b"String", b"Array") and head(blanked) == b"def",
        "`range`, behind an `in`": word == b"range" and last == b"in",
        "`:`, behind a `)`, in a `def`": rest.startswith(b":") and kept.endswith(b")") and head(blanked) == b"def",
        "a listed word, in a `def`": last != b""
        and before_word(kept).endswith((b"(", b","))
        and head(blanked) == b"def",
        "`:`, behind a `)` or an `else`": rest.startswith(b":") and (kept.endswith(b")") or last == b"else"),
        "`def`, at `Long`, `Clock`": last == b"def" and word in (b"Long", b"Clock"),
        "`val`, `var`, at `Clock`": last in (b"val", b"var") and word == b"Clock",
        "`val`, `var`, at `Long`": last in (b"val", b"var") and word == b"Long",
        "`return`, at a `;`": last == b"return" and rest.startswith(b";"),
        "`def`, `val`, `var`, at a word of the language": last in (b"def", b"val", b"var") and word in RESERVED,
        "a `-`, in an `atomic`": rest.startswith(b"-")
        and not rest.startswith((b"-=", b"--"))
        and head(blanked) == b"atomic",
        "a number and a `;`, behind a `=` in an `atomic`": re.match(rb"[0-9]\w*;", rest) is not None
        and kept.endswith(b"=")
        and head(blanked) == b"atomic",
        "`Clock`, `clock`, which is no type": last in (b"Clock", b"clock") and not before_word(kept).endswith(b":"),
        "`;`, `)`, `,`, behind a `+`, `-`, `*`, `=` or `,`": rest.startswith((b";", b")", b","))
        and kept.endswith((b"+", b"-", b"*", b"=", b",")),
        "`*`, behind a `*`": rest.startswith(b"*") and kept.endswith(b"*"),
        "`,`, behind no `(`, in no statement, or in a `val`, `var`, `shared`, `Clock`": rest.startswith(b",")
        and not kept.endswith(b"(")
        and head(blanked) in ALONE_IN,
        "`>`, behind a `<`": rest.startswith(b">") and kept.endswith(b"<"),
        "`<`, `>`, behind the same": rest[:1] in (b"<", b">") and kept.endswith(rest[:1]),
        "`=`, behind a `)`": rest.startswith(b"=") and not equal and kept.endswith(b")"),
        "`=`, behind a `:`": rest.startswith(b"=") and kept.endswith(b":"),
        "`==`, behind a name alone, or one that is declared": equal
        and head(blanked) in COMPARED_IN
        and (is_alone(kept) or is_bound(kept)),
        "a comparison, in no statement, or in a `val`, `var`, `Console`": compared and head(blanked) in COMPARED_IN,
        "`;`, behind the name or the type of a `val`, `var`": rest.startswith(b";")
        and head(blanked) in (b"val", b"var")
        and (is_bound(kept) or before_word(kept).endswith(b":")),
        "a word before a `=`, behind a name alone": word != b"" and is_alone(kept) and behind_word.startswith(b"="),
        "a word before a `;`, behind a name alone": word != b"" and is_alone(kept) and behind_word.startswith(b";"),
        "`.`, at a name before a `(`": kept.endswith(b".") and behind_word.startswith(b"("),
        "`:`, behind a name alone": rest.startswith(b":") and is_alone(kept),
        "`x10log`, behind nothing": word == b"x10log" and not kept,
        "`val`, `var`, behind nothing or a `;`": word in (b"val", b"var") and (not kept or kept.endswith(b";")),
        "`;` behind a lone `next`, `advance`, `barrier`": rest.startswith(b";")
        and last in (b"next", b"advance", b"barrier")
        and is_alone(kept),
        "`=`, of an `atomic`": re.search(rb"\batomic[ \t\n\r]+\w+[ \t\n\r]*=\Z", kept) is not None,
        "`;`, behind a word alone": rest.startswith(b";") and is_alone(kept),
    }
    return tests.get(what)


def stands_by_name(what: str, text: bytes, at: int) -> bool | None:
    """Whether that stands at an offset which a row describes in words; None of what it spells."""
    before, rest = text[:at], text[at:]
    blanked = without_comments(before)
    kept = blanked.rstrip(BLANKS)
    last = LAST_WORD.search(kept)[0]
    tests = {
        "a byte order mark, where the text begins": at == 0 and rest.startswith(MARK),
        "the text's end": not rest,
        "a line's end": b"\n" in before[len(kept) :] and (last != b"" or kept.endswith(b")")),
        "a number": LAST_WORD.search(before)[0][:1].isdigit() and (WORD.match(rest)[0] != b"" or rest.startswith(b".")),
        "nothing": kept == b"",
        "a 0": rest.startswith(b"0"),
    }
    if near := re.fullmatch(r"a name near `(\w+)`", what):
        return last != b"" and last not in RESERVED and declarations.is_near(last.decode(), near[1])
    found = (tests.get(what), signs_of_unicode(what, rest), between(what, kept, rest, blanked))
    return next((test for test in (*found, outside(what, text, at, kept)) if test is not None), None)


def stands(where: str, what: str, text: bytes, at: int) -> bool:
    """Whether this stands at an offset, before or behind what stands there, or is what its statement is known by."""
    found = stands_by_name(what, text, at)
    if found is not None:
        return found
    before, rest, spelled = text[:at], text[at:], cells(what)
    blanked = without_comments(before)
    kept = blanked.rstrip(BLANKS)
    word = WORD.match(rest)[0]
    if where == "behind":
        signs_spelled = tuple(sign for sign in spelled if not sign.isalnum())
        return LAST_WORD.search(kept)[0] in spelled or kept.endswith(signs_spelled)
    if where == "in":
        return head(blanked) in spelled
    return word in spelled or any(rest.startswith(sign) for sign in spelled if not sign.isalnum())


def advised(table: list[tuple[str, str, str, str]], rule: str, text: bytes, at: int) -> str | None:
    """What the first row of a table says that fits."""
    return next((said for of, where, what, said in table if of == rule and stands(where, what, text, at)), None)


def repair_at(rule: str, text: bytes, at: int) -> str:
    """What the first table says, or what the notes call for, or what the second table says, or what is usual."""
    first, second = habits()
    found = advised(first, rule, text, at)
    if found:
        return found
    further = advised(second, rule, text, at)
    called_for = expected.repair(text, rule, at, further is not None) or declarations.repair(text, rule, at)
    return called_for or further or tables()[0][rule][1]


def notes_on(data: bytes, said: str, is_module: bool) -> list[Note]:
    """The notes beside a line of `check` on what is refused, without `x10clock: `."""
    if found := FRONT.fullmatch(said):
        where = data, found["rule"], int(found["at"])
        return expected.notes(*where) + declarations.notes(*where)
    return sums.of_refused(data, said, is_module)


def note_lines(data: bytes, notes: list[Note]) -> str:
    """A line for each note."""
    return "".join(
        f"   = {words}\n" if at is None else f"   = {place_title(data, at)}: {words}\n" for at, words in notes
    )


def front(file: str, text: bytes, found: re.Match[str], notes: str) -> str:
    rule, wrong = found["rule"], tables()[0][found["rule"]][0]
    if rule in WITHOUT_PLACE:
        return f"{file}: {found['title']}: {wrong}\n{repair(rule)}"
    at = min(int(found["at"]), len(text))
    word = WORD.match(text, at)
    line, column = position(text, at)
    marked = 2 if is_unseen(text[at:]) else max(1, len(word[0]) if word else 0)
    seen = at if at < len(text) else max(0, len(without_comments(text).rstrip(BLANKS)) - 1)
    if seen < at:
        marked = max(1, len(WORD.match(text, seen)[0]))
    head = f"{file}:{line}:{column}: {found['title']}: {wrong}\n{excerpt(text, seen, marked)}"
    return head + notes + repair_line(repair_at(rule, text, at))


def further(text: bytes, said: str) -> tuple[list[str], bool]:
    """The lines of the faults of names behind that of a line, as far as they are shown, and whether there are more."""
    found = FRONT.fullmatch(said)
    first = int(found["at"]), int(found["rule"][1:])
    behind = [f"F{rule} {RULES[rule]} at {at}" for at, rule in faults_of(text) if (at, rule) > first]
    return behind[: SHOWN_AT_ONCE - 1], len(behind) >= SHOWN_AT_ONCE


def fronts(file: str, text: bytes, said: str) -> str:
    """What is said of a fault, and of those of names behind it."""
    behind, more = further(text, said)
    notes = {line: note_lines(text, notes_on(text, line, False)) for line in (said, *behind)}
    return "\n".join(front(file, text, FRONT.fullmatch(line), notes[line]) for line in notes) + (MORE if more else "")


def walk(slot: str, kinds: list[str], places: list[str]) -> str:
    lines = [f"     at {place}  {kind}: {tables()[1][kind]}\n" for place, kind in zip(places, kinds, strict=True)]
    return f"   = a way to it, and what slot {slot} holds before each instruction:\n{''.join(lines)}{WAYS}"


def line_text(text: bytes, at: int) -> str:
    """The line of an offset as it is shown, without the blanks that it begins with, and no more than 60 signs of it."""
    return "".join(map(shown, signs(whole_line(text, at).lstrip(b" \t"))[:TOLD]))


def place_title(text: bytes, at: int) -> str:
    return "{}:{}".format(*position(text, at))


def stops(text: bytes, offsets: list[int], places: list[int], kinds: list[str]) -> str:
    """The stops of a walk, statement by statement; a walk goes back where a turn of a loop begins. In between and up to
    its end it goes on in the text."""
    said, told, last = "", -1, len(places) - 1
    for number, (place, kind) in enumerate(zip(places, kinds, strict=True)):
        at, holds = offsets[place], tables()[1][kind]
        if number < last and places[number + 1] <= place:
            said, told = f"{said}     {place_title(text, at)}  {holds}, and then the next turn\n", -1
        elif at > told or number == last and at != told:
            said, told = f"{said}     {place_title(text, at)}  {holds}: {line_text(text, at)}\n", at
    return said


def in_source(file: str, text: bytes, found: re.Match[str], kinds: list[str], notes: str) -> str:
    """What is said of a place of a source text that the verifier refuses."""
    rule, number, place = found["rule"], *map(int, re.findall(r"\d+", found["place"]))
    unit = origins.origins(text)[number]
    title = f"in {cut(unit.name)}" if unit.name else f"in the `async` at {place_title(text, unit.at)}"
    at = unit.offsets[place]
    word = WORD.match(text, at)
    said = f"{file}:{place_title(text, at)}: {found['title']}, {title}: {wrong_in_source(rule)}\n" + excerpt(
        text, at, max(1, len(word[0]))
    )
    said += notes
    if found["walk"]:
        slot = int(found["slot"])
        name = f"`{cut(unit.slots[slot])}`" if slot in unit.slots else "the clock without a name"
        said += f"   = a way to it, and what {name} holds before each statement:\n"
        said += stops(text, unit.offsets, list(map(int, found["walk"].split())), kinds) + WAYS
    return said + repair(rule)


def shown_name(file: str) -> str:
    """FILE as it is shown."""
    return "".join(map(shown, signs(file.encode())))


def explained(name: str, text: bytes, line: str, kinds: list[str], is_module: bool) -> str:
    """What is said where standard error gets this line; the kinds are those of the walk."""
    file = shown_name(name)
    said = line.removeprefix("x10clock: ").removesuffix("\n")
    if FRONT.fullmatch(said):
        return fronts(file, text, said)
    notes = note_lines(text, notes_on(text, said, is_module))
    if (found := PLACE.fullmatch(said)) and not is_module:
        return in_source(file, text, found, kinds, notes)
    if found := PLACE.fullmatch(said):
        rule = found["rule"]
        head = f"{file}: {found['title']}, {found['place']}: {tables()[0][rule][0]}\n"
        return (
            head + notes + (walk(found["slot"], kinds, found["walk"].split()) if found["walk"] else "") + repair(rule)
        )
    if found := BOUND.fullmatch(said):
        rule = found["rule"]
        head = f"{file}: {found['title']}: {tables()[0][rule][0]}\n"
        return f"{head}   = at most {found['limit']} are allowed\n{notes}{repair(rule)}"
    if found := TEXT.fullmatch(said):
        return f"{file}: {found['title']}: {tables()[0][found['rule']][0]}\n{repair(found['rule'])}"
    return ""


def notes_on_accepted(text: bytes, is_module: bool) -> list[Note]:
    """The notes on a program that is accepted: what its numbers come from, and hints."""
    return [*sums.of_accepted(text, is_module), *hints.of_accepted(text, is_module)]


def accepted(text: bytes, line: str, is_module: bool) -> str:
    """What is said of a program of which `check` says this line."""
    return line + note_lines(text, notes_on_accepted(text, is_module))
