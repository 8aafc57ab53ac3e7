#!/usr/bin/env python3
"""The structs and functions of include/head.h, and what Rattle proves of them.

layout.py fields          the lines of layout.c that print each struct and field of the header
layout.py crates          the crates whose types and functions the header has
layout.py proved GOALS    the proved layout, in the lines that `layout print` prints; GOALS has what `rt check --generated GOALS/NAME` writes
                          of each crate that `layout.py crates` prints

Sizes, alignments and the places of the fields are the proved numbers (`given` of each type's TheLaws.antt, which `lies` proves of the
types of its `table`). C's rule, each field at the next multiple of its alignment, is applied to the whole struct too and must give the
same. The types of the parameters and results are those of head's functions (Code/Mir.antt), held to the header's.
"""
import re
import sys
from pathlib import Path

# C's types and Rattle's.
TYPES = {
    "prepay_terms": "terms::Terms",
    "prepay_event": "ledger::Event",
    "prepay_totals": "numbers::TotalsNumbers",
    "prepay_day": "numbers::DayNumbers",
    "prepay_payment": "numbers::PaymentNumbers",
    "prepay_price": "tariff::DayPrice",
    "prepay_account": "numbers::Numbers",
    "prepay_answer": "head::AnswerNumbers",
    "prepay_reading": "head::ReadingNumbers",
    "prepay_figures": "head::FigureNumbers",
    "prepay_reader": "reader::Reader",
    "uint8_t": "u8",
    "uint32_t": "u32",
    "size_t": "u64",
}
# head.h has the date's fields in the terms themselves.
FLAT = {"prepay_terms": ("opened", "calendar::Date")}

HEADER = re.sub(r"/\*.*?\*/", "", (Path(__file__).parent / "../include/head.h").read_text(), flags=re.S)
# Each struct's fields.
STRUCTS = {c: re.findall(r"(\w+)(?:\[[^]]*\])?[,;]", body) for body, c in re.findall(r"typedef struct \{([^}]*)\} (\w+);", HEADER)}
# Result, name and parameters of each function.
FUNCTIONS = re.findall(r"^(\w+) (prepay_\w+)\((.*)\);$", HEADER, re.M)


def prototype(result, parameters):
    """Result, then parameters, as Rattle has them: a pointer and a count are a slice."""
    types = [TYPES[result]]
    for p in parameters.split(", ") if parameters != "void" else []:
        const, c, pointer, name_ = re.fullmatch(r"(const )?(\w+) (\*?)(\w+)", p).groups()
        if c == "size_t":
            mark, of = re.fullmatch(r"(&mut |&)(.*)", types.pop()).groups()
            types.append(f"{mark}[{of}]")
        else:
            types.append(("&" if const else "&mut ") * bool(pointer) + TYPES[c])
    return types


def parse(text):
    """An expression as nested lists; a tuple is a list that starts with ','."""
    words = re.findall(r"[(),]|[^\s(),]+", text)
    at = 0

    def group():
        nonlocal at
        items, parts, tuple_ = [], [], False
        while at < len(words) and words[at] != ")":
            w = words[at]
            at += 1
            if w == "(":
                items.append(group())
                at += 1
            elif w == ",":
                tuple_ = True
                parts.append(one(items))
                items = []
            else:
                items.append(w)
        if items:
            parts.append(one(items))
        return [","] + parts if tuple_ else parts[0] if parts else []

    return group()


def one(items):
    return items[0] if len(items) == 1 else items


def name(e):
    """A name is a list of character codes."""
    s = ""
    while e != "List.[]":
        assert e[0] == "List.◌∷◌" and len(e) == 3, e
        s += chr(int(e[1]))
        e = e[2]
    return s


def listed(e):
    out = []
    while e != "List.[]":
        assert e[0] == "List.◌∷◌" and len(e) == 3, e
        out.append(e[1])
        e = e[2]
    return out


def fields(e):
    out = []
    while e != "Syntax.tnil":
        assert e[0] == "Syntax.tcons" and len(e) == 3, e
        out.append(e[1])
        e = e[2]
    return out


def up(n, to):
    return (n + to - 1) // to * to


def struct(parts, table):
    """Places of the fields, size and alignment, by C's rule."""
    at, align, places = 0, 1, []
    for p in parts:
        size, a = layout(p, table)
        at = up(at, a)
        places.append((at, size))
        at += size
        align = max(align, a)
    return places, up(at, align), align


def layout(e, table):
    if e == "Syntax.ty_bool":
        return 1, 1
    if e[0] == "Syntax.ty_int":
        n = int(e[1].removeprefix("Syntax.w")) // 8
        return n, n
    if e[0] == "Syntax.ty_array":
        size, align = layout(e[1], table)
        return size * int(e[2]), align
    if e[0] == "Syntax.ty_named":
        return struct(table[name(e[1][1])], table)[1:]
    raise ValueError(f"a type that C has no like of: {e}")


def value(text, what):
    """The definition `what` of a module."""
    return parse(re.search(rf"^{what} =(.*?)(?=^\w|\Z)", text, re.S | re.M).group(1))


def laws(goals, type_):
    crate, short = type_.split("::")
    text = (goals / crate / f"Rattle-{crate}-proofs" / short / "TheLaws.antt").read_text()
    rows, given = listed(value(text, "table")), listed(value(text, "given"))
    assert len(rows) == len(given), type_
    # An entry is the type's name, its parameters and its fields; what is proved of it: size, alignment and places.
    table = {}
    for entry in rows:
        assert entry[0] == "," and entry[2] == "List.[]" and entry[3][0] == "Table.fields", (type_, entry[:1])
        table[name(entry[1])] = fields(entry[3][1])
    assert next(iter(table)) == type_, (type_, [*table])
    for (of, parts), known in zip(table.items(), given):
        assert known[0] == "Laid.laid_struct", (type_, of)
        proved = int(known[1]), int(known[2]), [int(at) for at in listed(known[3])]
        places, s, a = struct(parts, table)
        assert proved == (s, a, [at for at, _ in places]), f"{of}: proved {proved}, C's rule gives {(s, a, places)}"
        if of == type_:
            size, align, ats = proved
    lowered = re.search(r"^lowered =(.*?)^abbrev", text, re.S | re.M).group(1)
    names = re.findall(r"\bd\.(\w+)", lowered)
    signed = set(re.findall(r"Val\.of_z Syntax\.w\d+ d\.(\w+)", lowered))
    parts = table[type_]
    assert len(names) == len(parts) == len(ats), (type_, names)
    return size, align, [(n, at, layout(p, table)[0], n in signed, p) for n, at, p in zip(names, ats, parts)]


def print_type(goals, c, type_):
    size, align, rows = laws(goals, type_)
    print(f"{c} size={size} align={align}")
    for field, at, size, signed, part in rows:
        if FLAT.get(c, ("",))[0] == field:
            assert name(part[1][1]) == FLAT[c][1], (field, part)
            inner = laws(goals, FLAT[c][1])[2]
            inner = [(n, at + a, s, g) for n, a, s, g, _ in inner]
        else:
            inner = [(field, at, size, signed)]
        for n, a, s, g in inner:
            print(f"{c}.{n} at={a} size={s}{' signed' if g else ''}")


def spelled(e):
    """A type of a function's parameter, as Rattle writes it."""
    if e[0] == "Syntax.ty_int":
        return "u" + e[1].removeprefix("Syntax.w")
    if e[0] == "Syntax.ty_named":
        return name(e[1][1])
    if e[0] == "Syntax.ty_ref":
        return {"Syntax.mut": "&mut ", "Syntax.imm": "&"}[e[2]] + spelled(e[3])
    if e[0] == "Syntax.ty_struct" and name(e[1]) == "&[]":
        ref, count = fields(e[2])
        assert count == ["Syntax.ty_int", "Syntax.w64"], count
        mark, of = re.match(r"(&mut |&)(.*)", spelled(ref)).groups()
        return f"{mark}[{of}]"
    raise ValueError(e)


def check_prototype(goals, function, wanted):
    (path,) = (goals / "head" / "Rattle-head-proofs").glob(f"**/{function}/Code/Mir.antt")
    text = path.read_text()
    # A function without types of other crates has its own spelling, without `by_name`.
    found = re.search(r"^(?:by_name-)?locals =(.*?)^abbrev", text, re.S | re.M)
    locals_ = listed(parse(found.group(1)))
    params = int(re.search(r"params = (\d+);", text).group(1))
    types = [spelled(it[1]) for it in locals_[: params + 1]]
    assert types == wanted, f"{function}: head.h has {wanted}, Rattle {types}"


def main():
    if sys.argv[1] == "fields":
        for c, names in STRUCTS.items():
            print(f"TYPE({c});")
            for n in names:
                print(f"FIELD({c}, {n});")
        return
    if sys.argv[1] == "crates":
        # `head` last: the functions are its own.
        types = [*TYPES.values()] + [type_ for _, type_ in FLAT.values()]
        print(*sorted({t.split("::")[0] for t in types if "::" in t}, key=lambda crate: (crate == "head", crate)))
        return
    goals = Path(sys.argv[2])
    for result, function, parameters in FUNCTIONS:
        check_prototype(goals, function, prototype(result, parameters))
    for c in STRUCTS:
        print_type(goals, c, TYPES[c])


main()
