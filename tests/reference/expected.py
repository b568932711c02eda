"""The reference for the notes on what could stand where a token can't, and for what is missing before it: each token is
tried there, and the text read up to it. It has no table of the grammar."""

from __future__ import annotations

import re

from tests.reference.source import Fault, Sort, Token, parse, tokens_of

# Each token that is named alone, in the order of docs/EXPLAIN.md, and how it is named.
ALONE = """; , ) } ( { = : . .. + - * == != < <= > >= shared def else in async finish Clock Long
    Math min make resume drop advanceAll OUT println""".split()
END = "the end of the text"
BEGINS_NO_FURTHER = "its `}` is missing before this line, which begins no further right"
# A name that no place of the grammar wants by its letters.
ANY = "anything"
# What a group is called, by which tokens it is known, and the tokens that aren't named alone beside it.
NAMES = {"Math", "min", "make", "resume", "drop", "advanceAll", "OUT", "println"}
GROUPS = [
    ("a statement", ["val"], NAMES | set("{ ; async finish Clock".split())),
    ("an expression", ["1", ANY], NAMES | {"(", "-"}),
    ("a number", ["1"], {"-"}),
    ("a name", [ANY], NAMES),
]


def can_stand(front: bytes, token: str) -> bool:
    """Whether the text up to there, with this token behind it, is refused there by F1 or F2."""
    begun = front + b"\n"
    try:
        parse(begun + token.encode())
    except Fault as fault:
        return fault.rule not in (1, 2) or fault.offset > len(begun)
    return True


def can_end(front: bytes) -> bool:
    try:
        parse(front)
    except Fault as fault:
        return fault.rule not in (1, 2)
    return True


# A sign that stands between others, and may be missing.
JOINING = "; , ) } ( { : . .. in".split()
# More than 64 bits: no place takes such a number.
MOST = 2**63


def next_tokens(text: bytes, at: int) -> list[Token]:
    """The token at an offset, and the one behind it, if it isn't the end."""
    found = [token for token in tokens_of(text) if token.at >= at]
    return found[:2] if found and found[0].sort is not Sort.END else found[:1]


def can_follow(front: bytes, tokens: list[Token]) -> bool:
    """Whether these can stand behind a text, one after another."""
    text = front
    for token in tokens:
        if token.sort is Sort.END:
            return can_end(text)
        if token.sort is Sort.STRAY or token.sort is Sort.DIGITS and int(token.text) > MOST:
            return False
        if not can_stand(text, token.text):
            return False
        # A number that no place takes, as 007, would be refused before what stands behind it.
        text += b"\n" + (b"1" if token.sort is Sort.DIGITS else token.text.encode())
    return True


def missing(text: bytes, at: int) -> list[str]:
    """The signs with which what comes could stand there."""
    front, tokens = text[:at], next_tokens(text, at)
    candidates = [sign for sign in JOINING if not (sign == ";" and tokens[0].text == "{")]
    return [
        sign
        for sign in candidates
        if can_stand(front, sign) and can_follow(front + b"\n" + sign.encode(), tokens)
    ]


def is_closed_too_often(text: bytes, at: int) -> bool:
    """Whether a `)` stands there, and no `(` is open."""
    front = [token.text for token in tokens_of(text) if token.at < at]
    return next_tokens(text, at)[0].text == ")" and front.count("(") == front.count(")")


def repair(text: bytes, rule: str, at: int, is_advised: bool) -> str | None:
    """What is to be taken away, or is missing; or, if nothing else is advised, the one token that could stand."""
    if rule != "F2" or not told(text, at):
        return None
    if is_closed_too_often(text, at):
        return "take this `)` away: no `(` is open"
    place = missing_brace(text, at)
    if place is not None:
        return "write `}}` before {}:{}".format(*line_and_column(text, place))
    if next_tokens(text, at)[0].sort is Sort.END:
        return None
    signs = missing(text, at)
    if len(signs) == 1:
        return f"write `{signs[0]}` before it"
    alone = re.fullmatch(r"`([^`]+)`", ", ".join(told(text, at)))
    return None if is_advised or not alone else f"write `{alone[1]}` here"


def indent(text: bytes, at: int) -> int:
    """With how many blanks the line of an offset begins."""
    line = text[text.rfind(b"\n", 0, at) + 1 :]
    return len(line) - len(line.lstrip(b" \t"))


def is_at_end(text: bytes, at: int) -> bool:
    """Whether the text ends at an offset, or goes on with a method."""
    token = next_tokens(text, at)[0]
    return token.sort is Sort.END or token.text == "def"


def brackets(text: bytes, at: int) -> tuple[Token | None, Token | None]:
    """The last bracket that is open at an offset, and the first `{` before it whose `}` stands further left."""
    opened, left = [], None
    for token in tokens_of(text):
        if token.at >= at:
            break
        if token.text in ("(", "{"):
            opened.append(token)
        elif token.text in (")", "}"):
            closed = opened.pop()
            if token.text == "}" and left is None and indent(text, token.at) < indent(text, closed.at):
                left = closed
    return (opened[-1] if opened else None), left


def unclosed(text: bytes, at: int) -> Token | None:
    """The bracket that isn't closed: the last that is open; of braces the first whose `}` stands further left."""
    last, left = brackets(text, at)
    return left if left and last and last.text == "{" else last


def missing_brace(text: bytes, at: int) -> int | None:
    """Where the `}` is missing of a `{` whose `}` stands further left: before the next line that begins no further
    right than the line of the `{`."""
    last, left = brackets(text, at)
    if not is_at_end(text, at) or not left or not last or last.text != "{":
        return None
    behind = text.find(b"\n", left.at)
    starts = [token.at for token in tokens_of(text) if token.at > behind]
    return next((start for start in starts if indent(text, start) <= indent(text, left.at)), None)


def line_and_column(text: bytes, at: int) -> tuple[int, int]:
    """The place of an offset, in characters."""
    front = text[:at].rpartition(b"\n")[2]
    return text.count(b"\n", 0, at) + 1, sum(not 0x80 <= byte <= 0xBF for byte in front) + 1


def told(text: bytes, at: int) -> list[str]:
    """What could stand there, group by group and token by token."""
    front = text[:at]
    group, within = next(
        ((said, within) for said, known, within in GROUPS if all(can_stand(front, token) for token in known)),
        (None, set()),
    )
    found = [group] if group else []
    found += [f"`{token}`" for token in ALONE if token not in within and can_stand(front, token)]
    return found + ([END] if can_end(front) else [])


def notes(text: bytes, rule: str, at: int) -> list[tuple[int | None, str]]:
    """The notes beside a fault of a text: of F2 alone."""
    if rule != "F2":
        return []
    found: list[tuple[int | None, str]] = [(None, "could stand here: " + ", ".join(told(text, at)))]
    bracket = unclosed(text, at) if is_at_end(text, at) else None
    place = missing_brace(text, at)
    found += [(bracket.at, f"this `{bracket.text}` is not closed")] if bracket else []
    return found + ([(place, BEGINS_NO_FURTHER)] if place is not None else [])
