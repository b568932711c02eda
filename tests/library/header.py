#!/usr/bin/env python3
"""Whether the header `library/x10clock.h` and the Python module fit the functions that `crates/x10clock_c` exports.

    python3 -m tests.library.header

Nothing else compares them: a C compiler sees the header alone. Each function that is exported has its prototype there,
and no other has one; each parameter is there in its place, a slice as a pointer and a length; and each struct has the
same fields. `python/x10clock/library.py` tells ctypes the same. It fails where it finds none.
"""

from __future__ import annotations

import re
import sys
from collections.abc import Iterator

from tests.harness import TOP

CODE = TOP / "crates/x10clock_c/src"
HEADER = TOP / "library/x10clock.h"
PYTHON = TOP / "python/x10clock/library.py"
NUMBERS = {"u8": "uint8_t", "u32": "uint32_t", "u64": "uint64_t", "usize": "size_t"}
EXPORT = re.compile(r'#\[unsafe\(no_mangle\)\]\s*pub extern "C" fn (\w+)\(([^)]*)\) -> (\w+)')
STRUCT = re.compile(r"#\[repr\(C\)\][^{]*pub struct (\w+) \{([^}]*)\}")
# What is the other way round in a header that is wrong on purpose: two parameters, and two fields.
TURNED = (
    ("size_t err_length, uint8_t *log", "uint8_t *log, size_t err_length"),
    ("size_t line;\n    size_t column;", "size_t column;\n    size_t line;"),
)
PROTOTYPE = re.compile(r"^(\w+) (\w+)\(([^)]*)\);", re.MULTILINE)
C_STRUCT = re.compile(r"^struct (\w+) \{([^}]*)\};", re.MULTILINE)


def name_of(struct: str) -> str:
    """What a struct is called in C."""
    return f"x10clock_{struct.lower()}"


def in_c(kind: str) -> str:
    """A type of a parameter or a field."""
    reference = re.fullmatch(r"&(mut )?(\w+)", kind)
    if reference and reference[2] not in NUMBERS:
        return f"{'' if reference[1] else 'const '}struct {name_of(reference[2])} *"
    return NUMBERS[kind] + " "


def parameters(text: str) -> Iterator[str]:
    """The parameters of an export, as C declares them. What allocates memory takes no bytes."""
    for part in filter(None, (part.strip() for part in text.split(","))):
        name, _, kind = (word.strip() for word in part.partition(":"))
        slice_of = re.fullmatch(r"&(mut )?\[(\w+)\]", kind)
        if slice_of:
            yield f"{'' if slice_of[1] else 'const '}{NUMBERS[slice_of[2]]} *{name}"
            yield f"size_t {name}_length"
        elif kind != "Global":
            yield in_c(kind) + name


def exported(code: str) -> dict[str, str]:
    """The prototypes and the structs that the code asks for, by their names."""
    heads = EXPORT.findall(code)
    found = {name: f"{NUMBERS[gives]} {name}({', '.join(parameters(text))})" for name, text, gives in heads}
    for name, fields in STRUCT.findall(code):
        kinds = re.findall(r"pub (\w+): (\w+)", fields)
        found[name_of(name)] = "; ".join(NUMBERS[kind] + " " + field for field, kind in kinds)
    return found


def declared(header: str) -> dict[str, str]:
    """Those of the header."""
    text = re.sub(r"/\*.*?\*/", "", header, flags=re.DOTALL)
    found = {name: f"{gives} {name}({' '.join(given.split())})" for gives, name, given in PROTOTYPE.findall(text)}
    for name, fields in C_STRUCT.findall(text):
        found[name] = "; ".join(" ".join(field.split()) for field in fields.split(";") if field.strip())
    return found


def differing(code: dict[str, str], header: dict[str, str]) -> Iterator[str]:
    """Where they differ."""
    for name in sorted(code.keys() | header.keys()):
        if code.get(name) != header.get(name):
            yield f"{name}: the code has {code.get(name)}, the header {header.get(name)}"


def wrong_python(header: dict[str, str], text: str) -> Iterator[str]:
    """What Python tells ctypes in another way: so many pointers and lengths, and the fields of the lengths."""
    kinds_of = {kind: f"c_{kind.removesuffix('_t')}" if kind != "size_t" else "c_size_t" for kind in NUMBERS.values()}
    for name in ("Lengths", "Checked", "Diagnosis"):
        declared_so = (field.split() for field in header[name_of(name)].split("; "))
        fields = [(field, kinds_of[kind]) for kind, field in declared_so]
        part = text.partition(f"class {name}(")[2].partition("\nclass ")[0].partition("\n@")[0]
        told = re.findall(r'\("(\w+)", ctypes\.(\w+)\)', part)
        if told != fields:
            yield f"library.py: {name} has {told}, the header {fields}"
    given = header["x10clock_call"].split("(")[1].rstrip(")").split(", ")
    kinds = ["text" if "const" in one else "room" for one in given if "_length" not in one and "struct" not in one]
    made = re.search(r"for given in \(([^)]*)\)", text)
    if not made or made[1].split(", ") != kinds:
        yield f"library.py: x10clock_call is given {made and made[1]}, and the header has {kinds}"


def main() -> int:
    code = exported("\n".join(path.read_text("utf-8") for path in sorted(CODE.glob("*.rt"))))
    header = declared(HEADER.read_text("utf-8"))
    wrong = [*differing(code, header), *wrong_python(header, PYTHON.read_text("utf-8"))]
    # A header that is wrong on purpose is seen.
    for right, turned in TURNED:
        text = HEADER.read_text("utf-8").replace(right, turned, 1)
        if not list(differing(code, declared(text))):
            wrong.append(f"a header that has {turned!r} isn't seen")
    print(*wrong, sep="\n", end="\n" if wrong else "")
    print(f"header: {len(code)} functions and structs, {len(wrong)} faults")
    return 1 if wrong or not code else 0


if __name__ == "__main__":
    sys.exit(main())
