"""The reference for the notes on a fault of names: where else the name that stands there is declared. It goes by
tokens, without a tree."""

from __future__ import annotations

import re
from collections.abc import Iterator

from tests.reference.names import SHOWN, cut
from tests.reference.source import Token, tokens_of

ON_NAMES = ("F5", "F6", "F7", "F8", "F10", "F11", "F12")
METHOD, SHARED = "a method with ", "a shared number"
CLOCKS = ("a clock", "a parameter (a clock)")
# So many are named one by one.
MOST = 8
WORD = re.compile(rb"[0-9A-Za-z_]*")
LAST_WORD = re.compile(rb"[0-9A-Za-z_]*\Z")
BLANKS = b" \t\n\r"
COMMENT = re.compile(rb"//[^\n]*|/\*.*?(?:\*/|\Z)", re.DOTALL)


def parameters(tokens: list[Token]) -> list[tuple[Token, str]]:
    """Those that begin a list: a name, a colon and a type each, up to the `)`."""
    found = []
    while tokens[0].text != ")":
        found.append((tokens[0], "a parameter (a clock)" if tokens[2].text == "Clock" else "a parameter (a number)"))
        tokens = tokens[4:] if tokens[3].text == "," else tokens[3:]
    return found


def method(count: int) -> str:
    return METHOD + {0: "no parameters", 1: "1 parameter"}.get(count, f"{count} parameters")


def declarations(text: bytes) -> Iterator[tuple[Token, str]]:
    """Each name that is declared in a text that has a tree, and as what."""
    tokens = tokens_of(text)
    for i, token in enumerate(tokens):
        behind = tokens[i + 1 :]
        if token.text == "shared":
            yield behind[0], "a shared number"
        elif token.text == "def":
            taken = parameters(behind[2:])
            yield behind[0], method(len(taken))
            yield from taken
        elif token.text == "var":
            yield behind[0], "a `var`"
        elif token.text == "val":
            right = behind[4] if behind[1].text == ":" else behind[2]
            yield behind[0], "a clock" if right.text == "Clock" else "a `val`"
        elif token.text == "for":
            yield behind[1], "the number of a loop"


def closing(tokens: list[Token], i: int) -> int:
    """The number of the `}` or `)` that closes the bracket of this number."""
    depth = 0
    for k in range(i, len(tokens)):
        depth += (tokens[k].text in ("{", "(")) - (tokens[k].text in ("}", ")"))
        if depth == 0:
            return k
    raise AssertionError("a text that has a tree")


def statement_end(tokens: list[Token], i: int) -> int:
    """The number of the last token of the statement that begins with the token of this number."""
    word = tokens[i].text
    if word == "{":
        return closing(tokens, i)
    if word in ("if", "for"):
        end = statement_end(tokens, closing(tokens, i + 1) + 1)
        has_else = word == "if" and tokens[end + 1].text == "else"
        return statement_end(tokens, end + 2) if has_else else end
    if word in ("async", "finish", "clocked"):
        i += 1
        while tokens[i].text in ("clocked", "async", "finish", "("):
            i = closing(tokens, i) + 1 if tokens[i].text == "(" else i + 1
        return statement_end(tokens, i)
    while tokens[i].text != ";":
        i += 1
    return i


def is_listed(tokens: list[Token], i: int) -> bool:
    """Whether the token of this number begins a statement in a list of statements, which stand behind a `{`, a `;` or
    a `}`, and don't stand alone behind an `if` and its like."""
    opened = [k for k in range(i) if tokens[k].text == "{" and closing(tokens, k) > i]
    k = opened[-1] + 1
    while k < i:
        k = statement_end(tokens, k) + 1
    return k == i


def extent(tokens: list[Token], i: int, role: str) -> range:
    """The offsets at which the name that this token declares is visible."""
    if role == SHARED:
        return range(0, tokens[-1].at + 1)
    if role == "the number of a loop":
        body = closing(tokens, i - 1) + 1
        return range(tokens[body].at, tokens[statement_end(tokens, body)].at + 1)
    if role.startswith("a parameter"):
        body = next(k for k in range(i, len(tokens)) if tokens[k].text == "{")
        return range(tokens[i].at + 1, tokens[closing(tokens, body)].at + 1)
    if not is_listed(tokens, i - 1):
        return range(0)
    block = [k for k in range(i) if tokens[k].text == "{" and closing(tokens, k) > i][-1]
    return range(tokens[statement_end(tokens, i - 1)].at + 1, tokens[closing(tokens, block)].at + 1)


def visible(text: bytes, at: int) -> Iterator[tuple[Token, str]]:
    """The numbers and clocks that are visible at an offset."""
    tokens = tokens_of(text)
    numbers = {token.at: i for i, token in enumerate(tokens)}
    for token, role in declarations(text):
        if not role.startswith(METHOD) and at in extent(tokens, numbers[token.at], role):
            yield token, role


def namesakes(text: bytes, name: str, at: int) -> list[tuple[Token, str]]:
    """Where else a name is declared."""
    return [(token, role) for token, role in declarations(text) if token.text == name and token.at != at]


def word_at(text: bytes, at: int) -> str:
    return WORD.match(text, at)[0].decode()


def behind(text: bytes, at: int) -> str:
    """The token behind the word at an offset, or nothing."""
    end = at + len(word_at(text, at))
    return next((token.text for token in tokens_of(text) if token.at >= end), "")


def is_near(one: str, other: str) -> bool:
    """Whether they differ by the size of letters, or are long enough and one edit apart."""
    if one.lower() == other.lower():
        return True
    if min(len(one), len(other)) < 3:
        return False
    cuts = [(one[:i], one[i:]) for i in range(len(one) + 1)]
    others = [(other[:i], other[i:]) for i in range(len(other) + 1)]
    left_out = {front + back[1:] for front, back in cuts}
    swapped = {front + back[1] + back[0] + back[2:] for front, back in cuts if len(back) > 1}
    put_in = {front + back[1:] for front, back in others}
    replaced = len(one) == len(other) and sum(a != b for a, b in zip(one, other, strict=True)) == 1
    return other in left_out | swapped or one in put_in or replaced


def meant(text: bytes, name: str, at: int) -> tuple[Token, str] | None:
    """The last declaration that may be meant by a name that isn't visible, and that nothing else has."""
    methods = ((token, role) for token, role in declarations(text) if role.startswith(METHOD))
    seen = methods if behind(text, at) == "(" else visible(text, at)
    may_be = [(token, role) for token, role in seen if is_near(name, token.text)]
    return may_be[-1] if may_be else None


def blanked(text: bytes) -> bytes:
    """Blanks in the place of comments, also of one that isn't closed."""
    return COMMENT.sub(lambda comment: b" " * len(comment[0]), text)


def trimmed(text: bytes) -> bytes:
    """Without the blanks and comments around."""
    kept = blanked(text)
    return text[len(kept) - len(kept.lstrip(BLANKS)) : len(kept.rstrip(BLANKS))]


def added(text: bytes, name: str, at: int) -> str | None:
    """What is added behind a name, as a term; None where that isn't known."""
    end = at + len(name)
    sign = next(token for token in tokens_of(text) if token.at >= end)
    addend = trimmed(text[sign.at + 1 :].split(b";")[0]).decode("utf-8", "replace")
    if sign.text not in ("+", "-") or len(addend) > SHOWN or not re.fullmatch(r"[ -.0-~]+", addend):
        return None
    if sign.text == "-" and re.search(r"[+-]", addend):
        return None
    term = addend if re.fullmatch(r"[0-9A-Za-z_]+", addend) else f"({addend})"
    return f"-{term}" if sign.text == "-" else term


def free_name(text: bytes) -> str | None:
    """The first of these that nothing in the text is declared by."""
    taken = {token.text for token, _ in declarations(text)}
    return next((name for name in ("t", "t1", "t2") if name not in taken), None)


def of_shared(text: bytes, name: str, at: int) -> str:
    """The repair where a shared number is read."""
    front, _, value = text[:at].rpartition(b"=")
    assigned = LAST_WORD.search(blanked(front).rstrip(BLANKS))[0].decode()
    told = cut(name)
    if assigned != name or re.search(rb"[;{}]", value):
        new = free_name(text)
        kept = f": `val {new} = {told};`" if new else ", into a `val` of another name"
        return f"read `{told}` first, which is shared{kept}"
    term = None if trimmed(value) else added(text, name, at)
    if term:
        return f"write `atomic {told} = {told} + {term};`: it adds in one step"
    step = f"add in one step, as by `atomic {told} = {told} + 1;`"
    return f"{step}: between a read and a write another activity may write"


def parameters_of(text: bytes, name: str) -> str | None:
    """The parameters of the first method of a name."""
    tokens = tokens_of(text)
    for i, token in enumerate(tokens):
        if token.text == "def" and tokens[i + 1].text == name:
            taken = parameters(tokens[i + 3 :])
            return ", ".join(f"{cut(p.text)}: {'Clock' if role in CLOCKS else 'Long'}" for p, role in taken)
    return None


def callee(text: bytes, at: int) -> str:
    """The name of what a place is an argument of, behind no other parenthesis; or nothing."""
    front, _, arguments = text[:at].rpartition(b"(")
    if re.search(rb"[);{}]", arguments):
        return ""
    return LAST_WORD.search(blanked(front).rstrip(BLANKS))[0].decode()


# What is said of a name that stays, and is assigned to.
STAYS = {
    "a parameter (a number)": "`{0}` is a parameter, which stays: keep it in a `var` of another name, and assign to "
    "that",
    "the number of a loop": "`{0}` is the number of a loop, which goes on by itself: assign to a `var`",
    "a clock": "`{0}` is a clock, which stays: make another one, by a `val` of another name",
    "a parameter (a clock)": "`{0}` is a clock, which stays: make another one, by a `val` of another name",
}
# Of a name that isn't visible where it stands.
UNSEEN = {
    "the number of a loop": "`{0}` is seen in its loop alone: use it there, or keep it in a `var` that is declared in "
    "front of the loop",
    "a parameter (a number)": "`{0}` is a parameter of another method: take it as one here, too",
    "a parameter (a clock)": "`{0}` is a parameter of another method: make a clock here by `val {0} = Clock.make();`, "
    "in the innermost `finish`, and drop it before that ends",
    "a clock": "`{0}` is a clock, and isn't seen here: declare it further out, or in a method take it as a parameter, "
    "`{0}: Clock`",
}
OUTSIDE = (
    "`{0}` isn't seen outside of its block, nor before it is declared: declare it further out, and where an `async` "
    "writes it as a shared number"
)
UNCALLED = "`{0}` is no method: take its parentheses away, or call a method of another name"
METHOD_ALONE = (
    "`{0}` is a method, which gives nothing back: call it by `{0}();`, and read the shared number that it writes"
)
KEPT = "take a `val {1} = {0};` before the `async`: a `var` as `{0}` isn't seen in it"
KEPT_APART = "keep `{0}` in a `val` of another name before the `async`: a `var` isn't seen in it"
WRITTEN = (
    "an `async` doesn't write `{0}`, which is a `var`: declare it as `shared {0} = 0;` in front of the methods"
)
IN_PLACE = "write `clocked finish` in place of this `finish`"
NEW_METHOD = "write a method `def {0}() {{ .. }}`, with as many parameters as it is given, or look for another spelling"
NEW_NUMBER = (
    "declare it before, by `var {0} = 0;`, or where an `async` writes it by `shared {0} = 0;` in front of the methods"
)


def role_at(text: bytes, name: str, at: int) -> str | None:
    """As what a name is declared last of those that are visible."""
    return next((role for token, role in reversed([*visible(text, at)]) if token.text == name), None)


def of_kind(text: bytes, name: str, at: int) -> str | None:
    """The repair where a name is used as what it isn't."""
    role = role_at(text, name, at)
    if role is None:
        return None
    if role == SHARED:
        return of_shared(text, name, at)
    if behind(text, at) == "=":
        return STAYS.get(role, "`{0}` is a `val`, which stays: declare it by `var`").format(cut(name))
    method = callee(text, at)
    taken = parameters_of(text, method) if method else None
    if taken is not None:
        kinds = "a number for each `Long` and a clock for each `Clock`"
        return f"give `{cut(method)}` {kinds}, in the order of `({taken})`"
    if role in CLOCKS:
        return f"give a number in place of `{cut(name)}`, which is a clock"
    return f"give a clock in place of `{cut(name)}`, which is a number"


def of_captured(text: bytes, name: str, at: int) -> str | None:
    """The repair where the body of an `async` doesn't see a name."""
    role = role_at(text, name, at)
    if role in CLOCKS:
        return f"hand `{cut(name)}` on: write `async clocked ({cut(name)})`"
    if role != "a `var`":
        return None
    new = free_name(text)
    said = WRITTEN if behind(text, at) == "=" else KEPT if new else KEPT_APART
    return said.format(cut(name), new)


def of_unknown(text: bytes, name: str, at: int) -> str | None:
    """The repair where a name isn't visible."""
    same = namesakes(text, name, at)
    if same:
        role = same[0][1]
        if behind(text, at) == "(":
            return UNCALLED.format(cut(name))
        if role.startswith(METHOD):
            return METHOD_ALONE.format(cut(name))
        return None if role == SHARED else UNSEEN.get(role, OUTSIDE).format(cut(name))
    near = meant(text, name, at)
    if near:
        return f"perhaps `{cut(near[0].text)}` is meant"
    return (NEW_METHOD if behind(text, at) == "(" else NEW_NUMBER).format(cut(name))


def activity(tokens: list[Token], i: int) -> tuple[str, int] | None:
    """How the `async` that begins with this token has its clocks, and the number of the token that its statement begins
    with; None of any other token."""
    if tokens[i].text == "clocked" and tokens[i + 1].text == "async":
        return "ahead", i + 2
    if tokens[i].text != "async" or i > 0 and tokens[i - 1].text == "clocked":
        return None
    if tokens[i + 1].text != "clocked":
        return "none", i + 1
    return "listed", closing(tokens, i + 2) + 1


def plain_finish(text: bytes, at: int) -> Token | None:
    """The innermost `finish` around the `clocked async` at an offset, if there is no other `async` between the two than
    such that take its clock."""
    tokens = tokens_of(text)
    here = next(i for i, token in enumerate(tokens) if token.at == at)
    for i in reversed(range(here)):
        started = activity(tokens, i)
        if started and started[0] != "ahead" and statement_end(tokens, started[1]) >= here:
            return None
        if tokens[i].text == "finish" and statement_end(tokens, i + 1) >= here:
            return tokens[i]
    return None


def lender(text: bytes, at: int) -> tuple[Token, str] | None:
    """The method around a `clocked async` without a clock, and the repair, if it may be called with one."""
    tokens = tokens_of(text)
    heads = [i for i, token in enumerate(tokens) if token.text == "def" and tokens[i + 1].at < at]
    if not heads:
        return None
    name = tokens[heads[-1] + 1]
    if name.text == "main" or b"finish" in text[name.at : at]:
        return None
    taken = parameters(tokens[heads[-1] + 3 :])
    params = "".join(f"{cut(token.text)}: {'Clock' if role in CLOCKS else 'Long'}, " for token, role in taken)
    clock = "clock" if any(token.text == "c" for token, _ in declarations(text)) else "c"
    head = f"def {cut(name.text)}({params}{clock}: Clock)"
    return name, f"take the clock as a parameter, `{head}`, and write `async clocked ({clock})`"


def repair(text: bytes, rule: str, at: int) -> str | None:
    """The repair that the notes beside a fault call for."""
    if rule == "F15":
        found = lender(text, at)
        return found[1] if found else IN_PLACE if plain_finish(text, at) else None
    name = word_at(text, at)
    if rule == "F5":
        return of_unknown(text, name, at)
    if rule == "F11":
        taken = parameters_of(text, name)
        told = f"give `{cut(name)}` one argument for each of `({taken})`, in this order"
        return None if taken is None or not namesakes(text, name, at) else told
    if rule not in ("F7", "F8") or not namesakes(text, name, at):
        return None
    return of_kind(text, name, at) if rule == "F7" else of_captured(text, name, at)


def notes(text: bytes, rule: str, at: int) -> list[tuple[int | None, str]]:
    """The notes beside a fault of a text, each with its offset, if it has one."""
    if rule == "F15":
        found, finish = lender(text, at), plain_finish(text, at)
        if found:
            return [(found[0].at, f"`{cut(found[0].text)}` doesn't see the clocks of those that call it")]
        return [(finish.at, "this `finish` has no clock")] if finish else []
    if rule not in ON_NAMES:
        return []
    name = word_at(text, at)
    same = namesakes(text, name, at)
    if rule == "F5" and not same:
        near = meant(text, name, at)
        if not near:
            return [(None, f"nothing is declared as `{cut(name)}`")]
        same = [near]
    found = [(token.at, f"`{cut(token.text)}` is declared here, as {role}") for token, role in same]
    further = [(None, f"further declarations of `{cut(name)}`: {len(found) - MOST}")] if len(found) > MOST else []
    return found[:MOST] + further
