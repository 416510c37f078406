"""Words for abstract values: of a struct each field, and of a choice whether it is one of its variants."""

import re

from derived_forms import PLACES, snake

AMONG = "Rattle.asn1.specs.Among"
IMPORTS = {
    "Rattle.std.specs.Prelude": "◌⊎◌ Bool true false",
    "Rattle.std.proofs.Common": "inl inr",
    AMONG: "Among3 Among8 after_3 after_8 "
    + " ".join(f"{place}_of_{size}" for size in (3, 8) for place in PLACES[:size]),
}


def words_of(item):
    """The words of a struct or of a choice. One with an item that defines another part has none."""
    if item.kind == "struct" and not any(part.item for part in item.parts):
        return "".join(field(item, at) for at in range(len(item.parts)))
    if item.kind == "enum" and not item.is_defined and item.parts:
        return "".join(variant(item, at) for at in range(len(item.parts)))
    return ""


def stated(comment, name, implicit, types, result, lines):
    """A definition with its comment."""
    return f"\n-- {comment}\nabbrev pub {name} : {{{implicit} : Type 0}} → {types} → {result}\n{lines}"


def field(item, at):
    """The field of an abstract value: the fields are pairs in pairs, and the last is the second of its pair."""
    count, name = len(item.parts), f"{snake(item.name)}_{item.parts[at].name.removeprefix('r#')}"
    names = [f"T{one}" for one in range(count)]
    types = names[-1]
    for one in names[-2::-1]:
        types = f"{one} × {types if types == names[-1] else f'({types})'}"
    path = "value" + ".1" * at + ".0" * (at < count - 1)
    comment = f"The field `{item.parts[at].name}` of an abstract value of `{item.name}`."
    return stated(comment, name, " ".join(names), types, names[at], f"{name} value = {path}\n")


def variant(item, at):
    """Whether an abstract value is of the variant."""
    part = item.parts[at]
    name = f"{snake(item.name)}_is_{snake(part.name)}"
    names = [f"T{one}" for one in range(len(item.parts))]
    comment = f"Whether an abstract value of `{item.name}` is one of `{part.name}`."
    lines = f"{name} {group(made(at, len(names)))} = true\n{name} value = false\n"
    return stated(comment, name, " ".join([*names, "Others"]), among(names), "Bool", lines)


def group(words):
    return f"({words})" if " " in words else words


def among(names):
    """What the values of these alternatives and of others mean: eight at a time while there are as many, then three."""
    if not names:
        return "Others"
    size = next(size for size in (8, 3, 1) if size <= len(names))
    front, others = names[:size], group(among(names[size:]))
    return f"{front[0]} ⊎ {others}" if size == 1 else f"Among{size} {' '.join(front)} {others}"


def made(at, count):
    """A value of the alternative at a place of a list of this many."""
    size = next(size for size in (8, 3, 1) if size <= count)
    if at < size:
        return "inl value" if size == 1 else f"{PLACES[at]}_of_{size} value"
    others = group(made(at - size, count - size))
    return f"inr {others}" if size == 1 else f"after_{size} {others}"


def module_of_words(text):
    """A module of these words, with what it imports."""
    uses = ""
    for path, names in IMPORTS.items():
        there = {*re.findall(r"[\w◌]+|⊎", text)}
        found = [name for name in names.split() if name.strip("◌") in there]
        uses += f"use {path}.{{{', '.join(found)}}}\n" if found else ""
    return uses + text
