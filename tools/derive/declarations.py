"""Reads declarations in the original's form: structs, enums, aliases and identifiers, with their attributes. Says what
is known of their types: tags, derives, and what a field is in its row. What has no form is rejected here."""

import re
from dataclasses import dataclass, field, replace

WORD, LIFE, NUMBER = r"[A-Za-z_][A-Za-z_0-9]*", r"'[A-Za-z_][A-Za-z_0-9]*", r"[0-9][A-Za-z_0-9]*"
COMMENT, STRING = r"/\*(?!\*[^*/])(?:(?!/\*).)*?\*/", r"\"(?:\\.|[^\"\\])*\""
SKIP = rf"\s+|//(?!/(?!/))[^\n]*|{COMMENT}"
TOKEN = re.compile(rf"(?P<skip>{SKIP})|///[^\n]*|/\*+|r#|{LIFE}(?!')|{WORD}|{NUMBER}|{STRING}|::|->|.", re.S)
UNREAD = {"r#": "an identifier by `r#`: name it otherwise", "/*": "a comment by `/**`, around another, or without end"}
END = "the end of the file"
# Words of Rust and of Rattle, which no item, field or variant may have as its name; and those of clauses, which no
# function and no variant may have.
WORDS = """
    _ Self Type abstract as async await become box break const continue crate do dyn else ensures enum extern false
    final fn for gen ghost if impl in let loop macro match mod move mut override priv pub ref requires return self
    static struct super trait true try type typeof unsafe unsized use virtual where while yield""".split()
OF_CLAUSES = """
    abbrev axiom coe com data deriving elim fcoe hcom infix infixl infixr module mutual open package record ruleset
    tcoe unfold unfoldable unfolding""".split()
# Classes of tags whose number an attribute states, with the number of the class (X.690 8.1.2.2).
CLASSES = {"application": "Application", "private": "Private", "universal": "Universal"}
ATTRIBUTES = ("derive", "implicit", "explicit", "default", "defined_by", "set", "name", *CLASSES)
ORIGINAL = ("asn1", "std", "core", "alloc")
# Numbers as Rust writes them, with no more digits than `int` takes.
DIGITS = r"[0-9][0-9_]{,4299}"
LITERAL = rf"(-?)(0x[0-9a-fA-F]{{1,999}}|0o[0-7]{{1,999}}|0b[01]{{1,999}}|{DIGITS})([ui](8|16|32|64|128|size))?"
KEPT = ("Debug", "Clone", "Copy", "PartialEq", "Eq", "Hash")
COPY, ALL = frozenset(KEPT), frozenset(KEPT) - {"Copy"}
TAGGED = [
    name + form for name in ("", "Application", "Private", "Universal") for form in ("Implicit", "Explicit")
]
LISTS = ("SequenceOf", "SetOf", "SequenceOfWriter", "SetOfWriter")
# What is in a type's brackets: a lifetime, a type, or a number.
SHAPES = {
    **dict.fromkeys(("Option", "Box", "OctetStringEncoded", "DefinedByMarker"), "T"),
    **dict.fromkeys((name for name in TAGGED if name != "UniversalExplicit"), "Tn"),
    **dict.fromkeys(LISTS, "'T"),
    "SequenceOf": "'Tn?n?",
}
INTEGERS = {f"u{bits}": range(2**bits) for bits in (8, 16, 32, 64)}
INTEGERS.update({f"i{bits}": range(-(2**bits) // 2, 2**bits // 2) for bits in (8, 16, 32, 64)})
ITEM = "ObjectIdentifier"
MOST_FIELDS, MOST_VARIANTS, MOST_DEEP, LARGEST = 30, 36, 30, 2**32 - 1
ANY = "any"


# The sections of docs/OWN_TYPES.md, each with words of the reasons for which the section has a form by hand, or says
# that there is none. The last one is for all others.
SECTIONS = {
    "What has no form": r"recursive|\d fields|63 octets|type p|no bounds|item that|is there|missing itself|d alone",
    "Tags of other classes": r"String` is no|tag that isn't|universal|two classes|alias('s| [hs])|no tag here",
    "A default of another type": r"is no value of",
    "A simple type": r"is no type of the library",
    "An error of one's own": r"a list made in code",
    "A set": r" (is a|in a) set,",
    "Values with numbers": r"the number|has numbers|no number",
    "A value that an item defines": r"(an|its|the) item\b|is the default|no constant|no identifier:|defined_by",
    "A choice": r"alternative|variant",
    "What the script prints": "",
}


class Rejected(Exception):
    """Why a declaration has no form, and the line."""

    def __str__(self):
        """The line, the reason, and where the guide says more."""
        line, reason = self.args
        section = next(section for section, words in SECTIONS.items() if re.search(words, reason))
        return f'{line}: {reason} (docs/OWN_TYPES.md, "{section}")'


def reject(wrong, line, reason):
    if wrong:
        raise Rejected(line, reason)


def number_of(text):
    """The number that a literal states, maybe with its type; one that no type has if this is no literal."""
    found = re.fullmatch(LITERAL, text.replace("_", ""))
    return int(found[1] + found[2], 10 if found[2].isdigit() else 0) if found else 2**128


@dataclass
class Type:
    """A type as it is written: its name, and what is in its angle brackets."""

    name: str
    args: list = field(default_factory=list)
    line: int = 0

    def __str__(self):
        args = [*map(str, self.args)]
        if self.name in ("&", "[u8; N]"):
            return f"&{' '.join(args)}" if self.name == "&" else f"[u8; {args[0]}]"
        if self.name == "SequenceOf":
            args += ["0", "{ usize::MAX }"][len(args) - 2 :]
        return f"{self.name}<{', '.join(args)}>" if args else self.name

    def __post_init__(self):
        """The types in the brackets, and all lifetimes that the type names."""
        self.inner = [arg for arg in self.args if isinstance(arg, Type)]
        self.lives = re.findall(LIFE, str(self))


@dataclass
class Item:
    """A declaration, or a field or a variant of one. The parts of a variant are the types in its brackets."""

    line: int = 0
    kind: str = ""
    name: str = ""
    visibility: str = ""
    life: str = ""
    type: Type = None
    doc: list = field(default_factory=list)
    attributes: dict = field(default_factory=dict)
    parts: list = field(default_factory=list)
    # The variants of an enum with numbers, and the number of one.
    values: list = field(default_factory=list)
    number: int = None
    # Whether one of them is a field's default; the type of a constant, or of the item that defines a value.
    is_default: bool = False
    of: str = ""
    # What is said of the derives that are left out.
    note: str = ""

    def reject(self, wrong, reason):
        """Rejects what is wrong with the item, by a reason that begins with its name."""
        reject(wrong, self.line, f"`{self.name}` {reason}")

    def comment(self, default):
        return "\n".join(self.doc or [f"/// {default}"])

    def own(self, suffix=""):
        """The item's type, or one with more behind the item's name."""
        return f"{self.name}{suffix}<{self.life}>" if self.life else self.name + suffix


class Reader:
    """Reads declarations from the tokens of a source."""

    def __init__(self, source):
        found = [token for token in TOKEN.finditer(source) if not token["skip"]]
        self.tokens = [*(token[0] for token in found), END, END, END]
        self.lines = [source.count("\n", 0, token.start()) + 1 for token in found] + [source.count("\n") + 1] * 3
        self.at = 0
        for token, line in zip(self.tokens, self.lines):
            reject(token[:2] in UNREAD, line, UNREAD.get(token[:2]))

    def takes(self, *patterns):
        """The next token, if these match it and those after it; else nothing is taken."""
        tokens = self.tokens[self.at : self.at + len(patterns)]
        found = all(map(re.fullmatch, patterns, tokens))
        self.at += len(patterns) if found else 0
        return tokens[0] if found else ""

    def expect(self, pattern, what=""):
        word, found = self.tokens[self.at], self.takes(pattern)
        what = what or f"`{pattern.replace(chr(92), '')}`"
        reject(not found, self.lines[self.at], f"{what} was expected, and found `{word}`")
        return found

    def until(self, end):
        """The tokens up to this one, which is left out; brackets are passed over as a whole."""
        words, depth = [], 0
        while depth or not self.takes(end):
            words.append(self.expect(rf"(?!{END})[\s\S]*", f"`{end[-1]}`"))
            depth += (words[-1] in "([{") - (words[-1] in ")]}")
        return words

    def item(self, what, is_part=True):
        """A declaration, or a field or a variant, up to its name."""
        found = Item()
        while word := self.takes("///.*|#"):
            found.doc += self.attribute(found.attributes) if word == "#" else [word]
        found.visibility = self.takes("pub")
        if found.visibility and self.takes(r"\("):
            where = " ".join(self.until(r"\)")).replace(" :: ", "::")
            found.visibility = f"pub({where})"
        found.line, found.kind = self.lines[self.at], "" if is_part else self.expect(WORD, "a declaration")
        is_other = found.kind not in ("", "struct", "enum", "type", "const")
        reject(is_other, found.line, f"`{found.kind}` isn't a struct, an enum, an alias or a constant")
        line, found.name = self.lines[self.at], self.expect(WORD, what)
        reject(found.name in WORDS, line, f"`{found.name}` is a word of Rust or Rattle: name it otherwise")
        return found

    def attribute(self, attributes):
        """Adds an attribute to these; or returns the comment that it is, if any."""
        line = self.lines[self.at]
        self.expect(r"\[")
        name, words = self.expect(WORD, "an attribute"), self.until("]")
        if name == "doc" and len(words) == 2 and words[0] == "=":
            return ["///" + words[1][1:-1]]
        if name != "allow":
            reject(name not in ATTRIBUTES, line, f"the attribute `{name}` isn't known")
            reject(name in attributes and name != "derive", line, f"the attribute `{name}` is here twice")
            attributes.setdefault(name, []).extend([*words[1:-1], ","])
        return []

    def path(self):
        """A path's last name, with what is before it unless this is the crate `asn1` or a part of std."""
        names = [self.expect(WORD, "a type")]
        while self.takes("::"):
            names.append(self.expect(WORD, "a name"))
        return names[-1] if names[0] in ORIGINAL else "::".join(names)

    def type(self, depth=1):
        line = self.lines[self.at]
        reject(depth > MOST_DEEP, line, f"types within one another more deeply than {MOST_DEEP}")
        if self.takes("&"):
            return Type("&", [self.expect(LIFE, "a lifetime"), self.type(depth + 1)], line)
        if self.takes(r"\[", "u8", ";"):
            length = number_of("".join(self.until("]")))
            reject(length not in range(LARGEST + 1), line, f"the length of an array isn't a number up to {LARGEST}")
            return Type("[u8; N]", [str(length)], line)
        plain = "()" if self.takes(r"\(", r"\)") else "[u8]" if self.takes(r"\[", "u8", "]") else ""
        name, read = plain or self.path(), lambda: self.argument(depth + 1)
        return Type(name, self.parts(read, ">") if not plain and self.takes("<") else [], line)

    def argument(self, depth):
        """What is in a type's brackets: a lifetime, a number, which may be in braces, or a type."""
        line, is_braced = self.lines[self.at], self.takes("{")
        text = "".join(self.until("}")) if is_braced else self.takes(NUMBER)
        if not text and not is_braced:
            return self.takes(LIFE) or self.type(depth)
        if text == "usize::MAX":
            return "{ usize::MAX }"
        number = number_of(text)
        reject(number not in INTEGERS["u64"], line, f"`{text}` isn't a number below 2^64, or `usize::MAX`")
        return str(number)

    def field(self):
        found = self.item("a field's name")
        self.expect(":")
        found.type = self.type()
        return found

    def variant(self):
        found = self.item("a variant's name")
        found.reject(found.name in OF_CLAUSES, "is a word of clauses, and a variant's name there: name it otherwise")
        if self.takes("="):
            text = self.takes("-") + self.expect(rf"{NUMBER}|{WORD}", "a number")
            found.number = number_of(text)
            found.reject(found.number not in INTEGERS["u32"], f"has the number `{text}`, which is no `u32`")
            return found
        found.parts = self.parts(self.type, r"\)") if self.takes(r"\(") else []
        found.reject(not found.parts, "has no unnamed field and no number: a variant has exactly one")
        has_more = len(found.parts) > 1 and "default" not in found.attributes
        found.reject(has_more, "has more than one field: a variant has exactly one")
        found.type = found.parts[-1]
        return found

    def parts(self, read, end):
        """What is between brackets, with commas between."""
        found = []
        while not self.takes(end):
            found.append(read())
            if not self.takes(",") and self.expect(end):
                break
        return found

    def declaration(self):
        """A declaration, with one lifetime at most."""
        found = self.item("a name", is_part=False)
        # The derives that are asked for, and whether an item defines the type's values.
        found.wanted = re.findall(r"([^\s,]+) ,", " ".join(found.attributes.get("derive", [])))
        found.is_defined = found.kind == "enum" and any(name.startswith("Asn1DefinedBy") for name in found.wanted)
        if found.kind != "const" and self.takes("<"):
            line, found.life = self.lines[self.at], self.takes(LIFE)
            reject(not found.life, line, "type parameters have no form here: a declaration has one lifetime at most")
            reject(not self.takes(">"), line, "a declaration has one lifetime at most, and no bounds")
        if found.kind in ("struct", "enum"):
            found.reject(not self.takes("{"), "has no named fields")
            found.parts = self.parts(self.field if found.kind == "struct" else self.variant, "}")
            return with_numbers(found)
        if found.kind == "type":
            self.expect("=")
            found.type = self.type()
        else:
            self.expect(":")
            found.of = self.type().name
            self.expect("=")
            if found.of in INTEGERS:
                text = "".join(self.until(";"))
                found.kind, found.number = "number", number_of(text)
                found.reject(found.number not in INTEGERS[found.of], f"is `{text}`, which is no `{found.of}`")
                return found
            is_made = found.of == ITEM and self.path() == "oid" and self.takes("!", r"\(")
            found.reject(not is_made, "is a constant that is neither a number nor made by `oid!`")
            found.arcs = [word for word in self.until(r"\)") if word != ","]
            are_numbers = re.fullmatch(rf"{DIGITS}( {DIGITS})+", " ".join(found.arcs))
            found.reject(not are_numbers, "isn't written as two or more numbers")
            function = found.name.lower()
            found.reject(function in (*WORDS, *OF_CLAUSES), f"is a function `{function}` here, a word of clauses")
        self.expect(";")
        return found

    def file(self):
        """The file's imports other than those of the original, and its declarations."""
        uses, found = [], []
        while not self.takes(END):
            if self.takes("use"):
                line, words = self.lines[self.at], self.until(";")
                reject(not words, line, "a path was expected, and found `;`")
                is_renamed = words[0] in ORIGINAL and "as" in words
                reject(is_renamed, line, "a name of the original's is imported as another: name it as it is")
                uses += [] if words[0] in ORIGINAL else ["use " + " ".join(words) + ";"]
            elif self.takes("#", "!", r"\["):
                self.until("]")
            else:
                found.append(self.declaration())
        return uses, found


def paths_of(use):
    """The path of each name that an import has, by this name."""
    text = re.sub(r" *(::|[{},;]) *", r"\1", use[len("use ") :].rstrip(";"))
    while braces := re.search(r"([\w:]*)\{([^{}]*)\}", text):
        text = text.replace(braces[0], ",".join(braces[1] + name for name in braces[2].split(",") if name))
    return {re.findall(r"\w+", path)[-1]: path.split()[0] for path in text.split(",")}


def with_numbers(item):
    """The item; if its variants have numbers, they are its values and not its parts."""
    numbered = [part for part in item.parts if part.number is not None]
    if not numbered:
        return item
    for at, part in enumerate(item.parts):
        part.reject(part.number is None, f"has no number, and `{numbered[0].name}` has one")
        for other in item.parts[:at]:
            part.reject(part.name == other.name, "is declared twice")
            part.reject(part.number == other.number, f"has the number of `{other.name}`")
        reject(part.attributes, part.line, f"an attribute that `{part.name}` can't have")
    item.reject(item.is_defined, "has numbers, and is defined by an item")
    item.kind, item.values, item.parts = "numbers", item.parts, []
    return item


@dataclass(frozen=True)
class Known:
    """What is known of a type: its tags, its derives, whether a field of it may be missing, whether it has one tag of
    its own, whether its writes fail as those of a list that is made in code, and whether the length of each value is
    known without writing it."""

    tags: set = None
    derives: frozenset = COPY
    is_missing: bool = False
    is_simple: bool = True
    fails: bool = False
    has_length: bool = False


# Types by their derives and by what is in their brackets, each name after the number of its tag.
LIBRARY = {
    name: (Known({f"{number} constructed" if number in ("16", "17") else number}, derives, has_length=True), shape)
    for derives, shape, types in (
        (COPY, "", "1 bool, 4 [u8], 5 (), 5 Null, " + ", ".join(f"2 {name}" for name in INTEGERS)),
        (COPY, "'", "2 BigInt, 2 BigUint, 16 Sequence"),
        (COPY, "'", "20 TeletexString, 21 VideotexString, 25 GraphicString, 27 GeneralString"),
        (COPY, "n", "4 [u8; N]"),
        (COPY, "", "6 ObjectIdentifier, 23 UtcTime, 24 GeneralizedTime, 24 X509GeneralizedTime, 31 Date"),
        (COPY, "'", "3 BitString, 12 Utf8String, 13 RelativeOid, 18 NumericString, 19 PrintableString"),
        (COPY, "'", "28 UniversalString, 30 BMPString"),
        (COPY - {"Hash"}, "'", "22 IA5String, 26 VisibleString"),
        (ALL, "", "2 OwnedBigInt, 2 OwnedBigUint, 3 OwnedBitString"),
        (ALL, "'", "17 Set"),
        (frozenset({"Debug", "PartialEq", "Eq"}), "", "10 Enumerated"),
    )
    for number, name in (type.split(" ", 1) for type in types.split(", "))
}
LIBRARY["Tlv"] = (Known(ANY, is_simple=False, has_length=True), "'")


class Module:
    """The declarations of a file, what is known of their types, and the path of their specs."""

    def __init__(self, items, imported, specs):
        self.items, self.imported, self.specs, self.seen = {item.name: item for item in items}, imported, specs, {}
        for named in (items, *(item.parts for item in items)):
            for at, one in enumerate(named):
                one.reject(one.name in [before.name for before in named[:at]], "is declared twice")
        for item in items:
            # It isn't named like a type of the library, its size has a form, and it uses the lifetime that it declares.
            item.reject(item.name in (*SHAPES, *LIBRARY, *imported), "is imported, or a type of the library")
            item.reject(item.kind == "struct" and len(item.parts) > MOST_FIELDS, f"has more than {MOST_FIELDS} fields")
            has_no_form = item.kind == "enum" and not 0 < len(item.parts) <= MOST_VARIANTS
            item.reject(has_no_form, f"has no variant, or more than {MOST_VARIANTS}")
            types = [item.type] if item.type else [type for part in item.parts for type in part.parts or [part.type]]
            for type in types:
                reject(set(type.lives) - {item.life}, type.line, f"a lifetime that `{item.name}` doesn't declare")
            is_unused = item.life and not any(type.lives for type in types)
            item.reject(is_unused, "declares a lifetime, and nothing in it has one")
            constants = [self.items.get("".join(part.attributes.get("defined_by", [])[:1])) for part in item.parts]
            item.of = item.of or next((one.of for one in constants if one and one.of), ITEM)
            set_tag(item)
            for part in item.parts:
                set_form(item, part, self.items)
        for item in items:
            if item.kind not in ("const", "number"):
                self.known(Type(item.name, [item.life] if item.life else [], item.line))
        for item in items:
            for at, part in enumerate(item.parts):
                self.check_part(item, part, item.parts[at + 1 :])

    def within(self, type):
        """A type, and those in its brackets, in theirs, and in those of aliases."""
        found = [type]
        for one in found:
            item = self.items.get(one.name)
            found += one.inner if not item else [item.type] if item.type else []
        return found

    def known(self, type):
        """What is known of a type; nothing if it is declared elsewhere."""
        name, item = type.name, self.items.get(type.name)
        is_other = name in ("&", "Defaulted", *self.imported) or "::" in name
        found, shape = LIBRARY.get(name, (None, SHAPES.get(name, ".*" if is_other else None)))
        shape = shape if not item else "'" if item.life else ""
        reject(shape is None, type.line, f"`{name}` is no type of the library, and neither declared nor imported here")
        kinds = "".join("T" if isinstance(arg, Type) else "'" if arg.startswith("'") else "n" for arg in type.args)
        is_well = re.fullmatch(shape, kinds)
        reject(not is_well, type.line, f"`{name}` lacks its lifetime, its type or its number, or has another")
        if not item:
            return found or self.known_around(type, *map(self.known, type.inner))
        item.reject(self.seen.get(name, item) is None, "is recursive: it has no form")
        is_deep = list(self.seen.values()).count(None) > MOST_DEEP
        reject(is_deep, type.line, f"types within one another more deeply than {MOST_DEEP}")
        if name not in self.seen:
            self.seen[name] = None
            self.seen[name] = self.known(item.type) if item.type else self.known_item(item)
        return self.seen[name]

    def known_around(self, type, inside=Known(), *others):
        """What is known of a type that is made of another."""
        name = type.name
        if name == "&":
            reject(type.inner[0].name != "[u8]", type.line, "a reference other than one to `[u8]` isn't read")
            return inside
        if name in ("Option", "Defaulted"):
            reject(inside.is_missing, type.line, "an option or a default of what may be missing itself")
            return replace(inside, is_missing=True, is_simple=False)
        is_option = inside.is_missing and name in (*LISTS, *TAGGED)
        reject(is_option, type.line, "an option or a default is in a field alone, and in no list or under no tag")
        if name in LISTS:
            bounds = [2**64 - 1 if "MAX" in bound else int(bound) for bound in type.args[2:]]
            reject(bounds[:1] > bounds[1:] > [], type.line, "a list whose least number of items is above its greatest")
            is_made = name.endswith("Writer")
            derives = inside.derives & ALL if is_made else ALL - ({"Debug"} - inside.derives)
            tags, has_length = {f"{17 if name.startswith('Set') else 16} constructed"}, not is_made or inside.has_length
            return Known(tags, derives, fails=is_made, has_length=has_length)
        if name == "OctetStringEncoded":
            return replace(inside, tags={"4"}, is_missing=False, is_simple=True)
        if name not in TAGGED:
            # An imported type is taken to have what is asked for: the compiler tells if it hasn't.
            return replace(inside, derives=inside.derives & (ALL if name in SHAPES else COPY))
        is_large = not type.args[1].isdigit() or int(type.args[1]) > LARGEST
        reject(is_large, type.line, f"a tag isn't a number from 0 to {LARGEST}")
        has_no_tag = name.endswith("Implicit") and not inside.is_simple
        reject(has_no_tag, type.line, f"`{type.inner[0]}` is implicit, and has no tag of its own")
        is_constructed = name.endswith("Explicit") or "constructed" in "".join(inside.tags or "")
        tag = tag_in(name[: -len("Explicit")].lower() or "context", type.args[1], is_constructed)
        return replace(inside, tags={tag}, is_missing=False, is_simple=True)

    def known_item(self, item):
        """What is known of a struct or an enum, by what it is made of: it has the derives that all its parts have."""
        by = "DefinedBy" if any("DefinedBy" in name for name in item.wanted) else ""
        item.reads, item.writes = f"Asn1{by}Read" in item.wanted, f"Asn1{by}Write" in item.wanted
        is_both = by and ("Asn1Read" in item.wanted or "Asn1Write" in item.wanted or item.kind == "struct")
        item.reject(is_both, "is defined by an item: an enum with no other derive of `asn1`")
        item.reject(not (item.reads or item.writes), "derives neither `Asn1Read` nor `Asn1Write`")
        parts = [(part.name, self.known(part.form)) for part in item.parts]
        # What a default keeps isn't copied.
        parts += [(part.name, Known(ANY, ALL, has_length=True)) for part in item.parts if part.parts[1:]]
        lacks, left = {name: part for part, known in reversed(parts) for name in COPY - known.derives}, {}
        item.derives = [name for name in KEPT if name in item.wanted and name not in lacks]
        for name in item.wanted:
            if name not in item.derives and not re.fullmatch("Asn1(DefinedBy)?(Read|Write)", name):
                why = f"which `{lacks[name]}` lacks" if name in lacks else "which isn't kept"
                left.setdefault(why, []).append(f"`{name}`")
        said = "; ".join(f"{', '.join(names)}, {why}" for why, names in left.items())
        item.note = f"`{item.name}` is printed without {said}" if left else ""
        if item.kind == "numbers":
            # A value is copied where its number is asked for.
            item.derives = [name for name in KEPT if name in (*item.derives, "Clone", "Copy")]
        item.derives += [] if "Copy" in item.derives else ["Drop"]
        tags, derives = [known.tags for _, known in parts], frozenset(item.derives)
        has_length = all(known.has_length for _, known in parts)
        if item.kind != "enum":
            own = ("universal", 10 if item.kind == "numbers" else 17 if item.is_set else 16)
            tag = tag_in(*(item.tag or own), item.kind == "struct")
            self.check_order(item)
            return Known({tag}, derives, fails=any(known.fails for _, known in parts), has_length=has_length)
        tags = None if None in tags else ANY if ANY in tags else set().union(*tags)
        return Known(tags, derives, any(known.is_missing for _, known in parts), False, has_length=has_length)

    def check_order(self, item):
        """The fields of a set are in the order of their tags (X.680 8.6), of which each has one."""
        last = ()
        for part in item.parts if item.is_set else []:
            tags = self.known(part.form).tags
            part.reject(not tags or tags == ANY or len(tags) > 1, "is in a set, and hasn't one tag that is known")
            *name, number = next(iter(tags)).replace(" constructed", "").split(" ")
            order = (("", "application", "context", "private").index("".join(name)), int(number))
            part.reject(order <= last, "is in a set, and its tag doesn't come after that of the field before it")
            last = order

    def check_part(self, item, part, others):
        """A value that an item defines comes after it, and under an explicit tag at most. A field that may be missing
        is told from what may follow it, and a variant from the others."""
        in_struct, type, known = item.kind == "struct", self.known(part.type), self.known(part.form)
        if not in_struct and part.tag and not type.is_simple:
            # A choice has no tag of its own: the variant's type states the tag around it.
            part.type, part.base, part.tag = part.form, part.form, ""
        names = [one.name for one in self.within(part.form)]
        within = [self.items[name] for name in names if name in self.items]
        for other in within:
            for does, trait in ("reads", "Read"), ("writes", "Write"):
                lacks = other.kind != "type" and getattr(item, does) and not getattr(other, does)
                part.reject(lacks, f"has the type `{other.name}`, which doesn't derive `Asn1{trait}`")
        is_item = in_struct and names[0] == "DefinedByMarker" and names[1] in (ITEM, *INTEGERS)
        why = "marks an item that has a tag, is in another type, or isn't an identifier or an integer"
        part.reject("DefinedByMarker" in names and not is_item, why)
        declared = self.items.get((part.type.inner[0] if part.type.name == "Option" else part.type).name)
        by, is_value = in_struct and "defined_by" in part.attributes, declared and declared.is_defined
        why = "is defined by an item: it follows that, with `#[defined_by(..)]`"
        part.reject(any(one.is_defined for one in within) and not by, why)
        is_wrapped = part.form.name in ("Option", "Implicit", "Defaulted")
        part.reject(by and is_wrapped, "is defined by an item: it is there, with an explicit tag or none")
        is_other = not is_value and (declared or part.base.name in LIBRARY or part.base.name in SHAPES)
        part.reject(by and is_other, "is defined by an item, and its type is not")
        # The trait whose impl says which errors a write returns, if any.
        part.fails = known.fails and ("SimpleAsn1Writable" if known.is_simple else "Asn1Writable")
        is_read = item.reads or not in_struct
        part.reject(part.fails and is_read, "is a list made in code, and may be only in a struct that isn't read")
        is_choice = item.kind == "enum" and not item.is_defined
        part.reject(is_choice and known.is_missing, "may be missing, and is an alternative of a choice")
        for other in others if is_choice or in_struct and known.is_missing else []:
            follows = self.known(other.form)
            tags = (known.tags, follows.tags)
            is_same = None not in tags and (ANY in tags or numbers_of(known.tags) & numbers_of(follows.tags))
            why = f"a tag of `{other.name}` is one of `{part.name}` too, from which it is told by its tag"
            reject(is_same, other.line, why)
            if not is_choice and not follows.is_missing:
                break


def numbers_of(tags):
    """The tags as ASN.1 compares them, by class and number (X.680 25 and 29)."""
    return {tag.removesuffix(" constructed") for tag in tags}


def tag_in(name, number, is_constructed):
    """The tag with this number of a class, as [`Known`] has it."""
    return f"{'' if name == 'universal' else name + ' '}{number}" + " constructed" * is_constructed


def class_tag(item):
    """The tag of another class than context-specific that an attribute states: the class, the number, and whether the
    tag is explicit; `None` if there is none."""
    found = [name for name in CLASSES if name in item.attributes]
    item.reject(len(found) > 1, "has tags of two classes")
    if not found:
        return None
    number, _, form = "".join(item.attributes.pop(found[0])).rstrip(",").partition(",")
    number = number_of(number)
    is_wrong = number not in INTEGERS["u32"] or form not in ("implicit", "explicit")
    item.reject(is_wrong, f"has a tag that isn't as `#[{found[0]}(1, implicit)]` or `#[{found[0]}(1, explicit)]`")
    item.reject(found[0] == "universal" and form == "explicit", "has a tag of the class universal that is explicit")
    return found[0], number, form == "explicit"


def under(tag, type):
    """A type under a tag of another class; in an option, the type that is in the option."""
    name, number, is_explicit = tag
    if type.name == "Option" and type.inner:
        return Type("Option", [under(tag, type.inner[0])], type.line)
    return Type(CLASSES[name] + ("Explicit" if is_explicit else "Implicit"), [type, str(number)], type.line)


def set_tag(item):
    """Gives a declaration the tag that it states, if it is a struct or an enum with numbers; and an alias the type
    under the tag."""
    tag, item.is_set = class_tag(item), "set" in item.attributes
    item.tag = tag and tag[:2]
    item.reject(item.is_set and item.kind != "struct", "is a set, and no struct")
    item.reject(tag and item.kind in ("const", "number"), "is a constant, which has no tag here")
    around = f"`type {item.name}2 = asn1::{CLASSES[tag[0]]}Explicit<{item.name}, {tag[1]}>`" if tag else ""
    item.reject(tag and item.kind == "enum", f"is a choice, which has no tag of its own: an alias has one, as {around}")
    has_other = tag and tag[2] and item.kind != "type"
    item.reject(has_other, f"has a tag of its own, and an explicit tag around it is an alias's, as {around}")
    if tag and item.kind == "type":
        item.type = under(tag, item.type)


def set_form(item, part, items):
    """Gives a field or a variant its type in the row, and what is said of it by its attributes."""
    tag = class_tag(part)
    part.reject(tag and {"implicit", "explicit"} & set(part.attributes), "has two tags: an alias states one of them")
    part.type = under(tag, part.type) if tag else part.type
    in_struct, attributes, is_option = item.kind == "struct", part.attributes, part.type.name == "Option"
    part.named = "".join(attributes.pop("name", []) if in_struct else []).rstrip(",")
    is_name = re.fullmatch(r'"[a-z](-?[A-Za-z0-9])*"|', part.named)
    part.reject(not is_name, "has a name that isn't one of ASN.1, as `#[name(\"cA\")]` is")
    part.reject({"implicit", "explicit"} <= set(attributes), "is both implicit and explicit")
    part.tag = "".join({"implicit", "explicit"} & set(attributes))
    others = set(attributes) - {part.tag}
    is_by = others == {"defined_by"} or set(attributes) == {"default"}
    part.reject(item.is_defined and not is_by, "has neither `#[defined_by(..)]` nor `#[default]` alone")
    is_wrong = not in_struct and not item.is_defined and others or {"derive", "set"} & set(attributes)
    reject(is_wrong, part.line, f"an attribute that `{part.name}` can't have")
    number, *words = attributes.get(part.tag, ["0"])
    number = number_of(number)
    reject(number >= 2**128, part.line, f"`{part.tag}` without a number")
    required = {"": False, "required=false": False, "required=true": True}.get("".join(words).strip(","))
    reject(required is None, part.line, f"`{part.tag}` takes a number and `required = true`")
    has_default = in_struct and "default" in attributes
    part.reject(has_default and (is_option or required), "has a default, so it is neither an option nor required")
    is_unclear = in_struct and part.tag and not has_default and is_option == required
    part.reject(is_unclear, "has a tag: either it is an option, or the tag says `required = true`")
    is_around = is_option and part.tag and in_struct and part.type.inner
    part.base = part.type.inner[0] if is_around else part.type
    part.number = number
    part.form = Type(part.tag.capitalize(), [part.base, str(number)], part.line) if part.tag else part.base
    part.form = Type("Option", [part.form], part.line) if is_around else part.form
    # Of a marker the value that its item defines, of this value the item's type, and of any field its default.
    part.value = part.item = part.default = None
    # The struct's name and the field's, as that of a type.
    part.title = item.name + "".join(word.capitalize() for word in part.name.split("_"))
    if has_default:
        part.form = Type("Defaulted", [part.form, part.title], part.line)
        part.default = default_of(part, items)
    # Whether the type in the row is another than the field's.
    part.is_wrapped = in_struct and part.form is not part.type and "defined_by" not in attributes


def default_of(part, items):
    """A field's default in code; `is_default` says of an enum that one of its values is one."""
    text, type = "".join(part.attributes["default"]).rstrip(","), str(part.base)
    constant, declared = items.get(text), items.get(type)
    text = str(constant.number) if constant and constant.kind == "number" else text
    octets, is_number = [number_of(octet) for octet in text[1:-1].split(",")], number_of(text) in INTEGERS.get(type, ())
    is_octets = type == f"[u8; {len(octets)}]" and text[0] == "[" and {*octets} <= {*INTEGERS["u8"]}
    is_value = declared and text in [f"{type}::{one.name}" for one in declared.values]
    is_fitting = is_octets or is_value or is_number or type == "bool" and text in ("true", "false")
    is_fitting |= type == ITEM and constant is not None and constant.kind == "const"
    why = "a default is a Boolean, a number, octets of a `[u8; N]`, a value of an enum with numbers, or a constant"
    reject(not is_fitting, part.line, f"`{text}` is no value of `{type}`: {why}")
    if is_value:
        declared.is_default = True
    return str(octets) if is_octets else str(number_of(text)) if is_number else text
