"""The forms of docs/OWN_TYPES.md, filled in with declarations. The formatter lays out what they print."""

import re
import textwrap

from declarations import ANY, ITEM, LIBRARY, Type, reject

BY_TAGS = "#[tactic(auto, using(asn1::specs::Lemmas::Fields::tags_differ))]\n"
BY_NUMBERS = "#[tactic(auto, using(asn1::specs::Lemmas::DefaultIdentifiers::identifier_of_default))] "
ERROR = "type Error = WriteError;"
ALWAYS = "Unit {0}"
LENGTH = f"ghost length_known = {{ λ _. {ALWAYS} }};"
WIDTH = 100
# The longest list of fields that stands in each body: it takes one line.
MOST_IN_BODY = WIDTH - 12
UNKNOWN = "Err(ParseError::new(ParseErrorKind::UnknownDefinedBy))"
ANSWER = "\npub {0} : goal.{0}\n{2}{0} c = {1}\n"
# What the proofs of an identifier's function use, and the proofs: the numbers that its octets are read as are computed.
IDENTIFIER_USES = """use Rattle.std.proofs.Common.{refl, sym}
use Rattle.asn1.specs.Base128.{leading_number}
use Rattle.asn1.specs.Identifier.{numbers_in, read_identifier}
use Rattle.asn1.specs.Lemmas.Results.{done_injective}
"""
PLACES = "first second third fourth fifth sixth seventh eighth".split()
COMPUTED = "unfolding read_identifier numbers_in leading_number\n"
IDENTIFIER_ANSWERS = ANSWER.format("known_identifier-requires", "refl", COMPUTED)
IDENTIFIER_ANSWERS += ANSWER.format("returns", "sym (done_injective _ _ c.known_identifier.ensures)", COMPUTED)


def quoted(type, trait="Asn1Type"):
    """The impl of a type. Its bound is a number here: the kit takes back no library that quotes it as a constant."""
    return f"⟦<{str(type).replace('{ usize::MAX }', str(2**64 - 1))} as {trait}>⟧"


def der(type):
    """What a type means."""
    return quoted(type) + ".der"


def snake(name):
    """A type's name as a function or a macro has it."""
    return re.sub(r"(?<=[a-z0-9])(?=[A-Z])|(?<=[A-Z])(?=[A-Z][a-z])", "_", name).lower()


def in_columns(words, indent):
    """A list of words in lines that end behind commas, and begin in this column."""
    lines = textwrap.wrap(re.sub(r"(?<!,) ", "\0", words.strip()), WIDTH - indent, break_long_words=False)
    return f"\n{' ' * indent}".join(lines).replace("\0", " ")


def integer(number):
    """A whole number in a contract."""
    return f"pos {number}" if number >= 0 else f"negsuc {-number - 1}"


def group(words):
    return f"({words})" if " " in words else words


class Form:
    """What is printed for a struct or an enum: how a part is stated, and its comment if it has none of its own."""

    part, default_comment, by_hand = "{}({})", "This alternative.", ()

    def __init__(self, item, module):
        self.item, self.module, self.name, self.parts = item, module, item.name, item.parts
        # The lifetime is that of the octets that a value is read from.
        self.means, self.life = der(item.own()), item.life or "'a"

    def stated(self, types):
        """The struct or the enum, with its comments and its derives, and with these types of its parts."""
        kind = "struct" if self.item.kind == "struct" else "enum"
        derives = ", ".join(name for name in self.item.derives if name not in self.by_hand)
        text = f"\n{self.item.comment(f'`{self.name}`.')}\n#[derive({derives})]\n"
        text += f"{self.item.visibility} {kind} {self.item.own()} {{\n"
        for part, type in zip(self.parts, types):
            stated = f"{part.visibility} {self.part.format(part.name, type)}"
            text += f"{part.comment(self.default_comment)}\n{stated},\n"
        return text + "}\n"

    def impl(self, trait, *members, of=""):
        """An impl of a trait. Clauses are written if the type has a lifetime; else they are the trait's."""
        head, text = f"{trait} for {of or self.item.own()}", "\n".join(f"    {member}" for member in members)
        text = text if self.item.life else re.sub(r"\n *ensures .*", "", text)
        generics = f"<{self.life}>" if "'" in head else ""
        return f"\nimpl{generics} {head} {{\n{text}\n}}\n"

    def list_in_macro(self, what, words, of=""):
        """The macro that has the list of the fields or the variants, if that is too long to stand in each body."""
        self.words, is_long = f"{of}{words}", len(of + words) > MOST_IN_BODY
        self.listed = f"{what}_of_{snake(self.name)}" if is_long else ""
        return self.listed and f"""
macro_rules! {self.listed} {{
    ($body:ident, $($of:tt)*) => {{ $body!($($of)*;{of}
        {in_columns(words + ") };", 8)}
}}
"""

    def body(self, macro, of):
        """The body of a method: a macro with the list, or with this list from another macro."""
        return f"{self.listed}!({macro}, {of})" if self.listed else f"{macro}!({of};{self.words})"

    def length(self, type, value, item=None):
        """When the length of this value of a type is known; an item of a type may define it."""
        if self.module.known(type).has_length:
            return ALWAYS
        if item:
            return f"{quoted(type, f'Asn1DefinedByWritable<{item}>')}.length_known_by {group(value)}"
        return f"{quoted(type, 'Asn1Writable')}.length_known {group(value)}"

    def writes_as_read(self):
        """Says that no write of a type that is also read fails but for memory."""
        return self.item.reads and """
            fn writes_as_read() -> bool
                ensures { IsTrue result }
            { true }""" or ""


def tag_of(tag, is_constructed):
    """A tag of another class than context-specific, in a contract and in code."""
    name, number = tag
    said = {"application": "Application", "private": "Private"}.get(name)
    if not said:
        word = "constructed" if is_constructed else "primitive"
        return f"universal{'_constructed' if is_constructed else ''} {number}", f"Tag::{word}({number})"
    form = str(is_constructed).lower()
    return f"{name}_tag {form} {number}", f"Tag::new({number}, TagClass::{said}, {form})"


def uses_of_variants(module, item, parts):
    """The import of an enum's variants, in the impl: there no other enum's variants have these names."""
    names = ", ".join(part.name for part in parts)
    path = f"ghost use Rattle.{module.specs}{item.name}.TheVariants."
    lines = textwrap.wrap(names, max(1, 112 - len(path)), break_long_words=False)
    return " ".join(f"{path}{{{line.rstrip(',')}}};\n" for line in lines)


class Numbers(Form):
    """An enum whose values have numbers, and its impls."""

    part, default_comment = "{} = {}", "This value."

    def __init__(self, item, module):
        super().__init__(item, module)
        self.parts = item.values
        self.by_hand = ("PartialEq", "Eq") if item.is_default else ()

    def __str__(self):
        own, numbered = self.name, quoted(self.name, "Numbered")
        tag, made = tag_of(self.item.tag or ("universal", 10), False)
        text = self.stated(part.number for part in self.parts)
        numbers = " | ".join(f"{part.name} ↦ {part.number}" for part in self.parts)
        arms = " ".join(f"{part.number} => Some({own}::{part.name})," for part in self.parts)
        text += self.impl("Numbered", uses_of_variants(self.module, self.item, self.parts), f"""
            ghost number_of = {{ elim [ {numbers} ] }};
            ghost numbers = {{ {' ∷ '.join(str(part.number) for part in self.parts)} ∷ [] }};
            ghost values = {{ {' ∷ '.join(part.name for part in self.parts)} ∷ [] }};
            fn number(self) -> u32 {{ self as u32 }}
            fn from_number(number: u32) -> Option<{own}> {{ match number {{ {arms} _ => None, }} }}""")
        text += self.impl("Asn1Type", f"""
            ghost der = {{ numbered ({tag}) {numbered}.number_of {numbered}.numbers }};
            fn known(&self) {{ known_number(*self) }}""").replace("known(&self)", f"""known(&self)
        ensures valid {{ (numbered ({tag}) {numbered}.number_of {numbered}.numbers).valid (pos ({numbered}.number_of self.now)) }}
        ensures fits {{ Fits (element_encoding (element ({tag}) (integer_content (pos ({numbered}.number_of self.now))))) }}
""")
        if self.item.is_default:
            of, laws, told = f"{numbered}.number_of", f"on_equiv {numbered}.number_of nat_eq_equiv", f"({tag})"
            means = f"seen_tells {of} (λ n. pos n) (number_text {told}) nat_eq a b"
            text += self.impl("PartialEq", f"ghost eq = {{ on {of} nat_eq }};", f"""
            ghost laws = {{ partial_equiv_from_equiv ({laws}) }};
            fn eq(&self, other: &{own}) -> bool {{ self.number() == other.number() }}""")
            text += self.impl("Eq", f"ghost laws = {{ {laws} }};")
            told = f"ghost tells = {{ λ a b. {means} (naturals_tell {told} ({of} a) ({of} b)) }};"
            text += self.impl("MeaningEq", told)
            told = f"ghost content_tells = {{ λ a b. naturals_content_tells ({of} a) ({of} b) }};"
            text += self.impl("SimpleMeaningEq", told)
        if self.item.reads:
            text += self.impl("SimpleAsn1Readable<'a>", f"""
            fn tag() -> Tag {{ {made} }}
            fn parse_data(alloc: Global, data: &'a [u8]) -> ParseResult<{own}> {{ read_number(alloc, data) }}""")
        if self.item.writes:
            text += self.impl("SimpleAsn1Writable", ERROR, LENGTH, f"""
            fn tag() -> Tag {{ {made} }}
            fn write_data(&self, dest: &mut WriteBuf) -> WriteResult<()> {{ self.number().write_data(dest) }}
            fn data_length(&self) -> Option<usize> {{ self.number().data_length() }}""", self.writes_as_read())
        return text


class Structure(Form):
    """A struct with its fields as they were declared, and its impls, which go by a row of them."""

    part, default_comment = "{}: {}", "The field."

    def __str__(self):
        self.set_rows()
        row, (row_type, view) = self.item.own("Fields"), self.row(self.parts)
        word, made = "structure", "Tag::constructed(0x10)"
        if self.item.tag:
            term, made = tag_of(self.item.tag, True)
            word = f"{'set_' if self.item.is_set else ''}structure_with_tag {group(term)}"
        elif self.item.is_set:
            word, made = "set_structure", "Tag::constructed(0x11)"
        text = self.stated(part.form if part.item else part.type for part in self.parts)
        text += self.names() + "".join(self.default(part) for part in self.parts if part.default)
        text += "".join(f"\ntype {part.row} = {part.form};\n" for part in self.parts if part.is_wrapped)
        names = "".join(f'"{part.name}" ∷ ' for part in self.parts)
        text += f"\ntype {row} = {row_type};\n"
        text += self.list_in_macro("fields", ",".join(f" {part.words}" for part in self.parts))
        text += self.impl("Asn1Type", f"""
            ghost der = {{ {word} (λ v. {view}) {quoted(row, 'Row')}.list (field_names "{self.name}" ({names}[])) }};
            fn known(&self) {{ {self.body("known_fields", "self")} }}""")
        tag = f"""
            fn tag() -> Tag
                ensures value {{ result ≡ {self.means}.content.tag }}
                ensures simple {{ {self.means}.is_simple }}"""
        if self.item.reads:
            text += self.impl(f"SimpleAsn1Readable<{self.life}>", f"""{tag}
                ensures plain {{ {self.means}.plain }}
                ensures read {{ {self.means}.is_read }}
            {{ {made} }}
            fn parse_data(alloc: Global, data: &{self.life} [u8]) -> ParseResult<{self.item.own()}>
                ensures {{ ReadsContents {self.means} «data».entry.now result }}
            {{ {self.body("read_fields", f"{row}, alloc, data => {self.name}")} }}""")
        if self.item.writes:
            lists = [part for part in self.parts if part.fails]
            errors = (f"{quoted(part.form, part.fails)}.write_errors {group(part.seen)} e" for part in lists)
            failing = f"ghost write_errors = {{ λ v e. {' ⊎ '.join(errors)} }};" if lists else ""
            lengths = [self.length(part.form, part.seen, part.item) for part in self.parts]
            lengths = [length for length in lengths if length != ALWAYS]
            length = f"ghost length_known = {{ λ v. {' × '.join(lengths)} }};" if lengths else LENGTH
            text += self.impl("SimpleAsn1Writable", ERROR, failing, length, f"""{tag}
            {{ {made} }}
            fn write_data(&self, dest: &mut WriteBuf) -> WriteResult<()> {{ {self.body("write_fields", "self, dest")} }}
            fn data_length(&self) -> Option<usize> {{ {self.body("fields_length", "self")} }}""",
            "" if lists else self.writes_as_read())
        return text

    def names(self):
        """The names that fields have in ASN.1, if these aren't their own in another case."""
        pairs = ", ".join(f'("{self.name}::{part.name}", {part.named})' for part in self.parts if part.named)
        return pairs and f"""
impl{f'<{self.life}>' if self.item.life else ''} {self.item.own()} {{
    /// The fields that have another name in ASN.1 than theirs with capitals, as errors name them, with that name.
    {self.item.visibility} const NAMES: &'static [(&'static str, &'static str)] = &[{pairs}];
}}
"""

    def set_rows(self):
        """Gives each marker the value that its item defines, and each of these values the type of its item. Each field
        gets its type in the row, its value as the row has it, and its words in the macros of bodies. The type is that
        of a marker's item, or the private alias of one with a tag or a default."""
        paired = [part for part in self.parts if part.type.name == "DefinedByMarker" or "defined_by" in part.attributes]
        for marker, value in zip(paired[::2], [*paired[1::2], None]):
            marker.reject("defined_by" in marker.attributes, "isn't after the marker of its item")
            follows = f"`#[defined_by({marker.name})]` has to follow, with no other marker between"
            marker.reject(not value or "defined_by" not in value.attributes, f"marks an item: {follows}")
            value.reject(value.attributes["defined_by"] != [marker.name, ","], "isn't after the marker of its item")
            of = getattr(self.module.items.get(value.type.name), "of", "")
            why = f"marks an item of another type than `{of}`, by which `{value.name}` is defined"
            marker.reject(of not in ("", marker.type.inner[0].name), why)
            marker.value, value.item = value, marker.type.inner[0]
        for part in self.parts:
            alias = Type(f"{part.title}Field", part.form.lives[:1])
            part.row = str(part.type.inner[0] if part.value else alias if part.is_wrapped else part.form)
            of = f" of {part.value.name}" if part.value else f" by {part.item}" if part.item else ""
            part.words = part.name + of + (f": {part.row}" if part.value or part.is_wrapped else "")
            option = "option_meaning " if part.type.name == "Option" else ""
            seen = f"{option}{part.tag} v.{part.name}" if part.tag and part.is_wrapped else f"v.{part.name}"
            part.seen = f"defaulted {group(seen)}" if part.default else seen

    def row(self, parts, is_between=False):
        """The type of a row of these fields, and a struct's value as one of it: nested up to the last value that an
        item defines, or to the last sixteen fields, the most that have a row with a name."""
        types = [part.row for part in parts]
        if len(parts) <= 16 and not any(part.item for part in parts):
            name = "Last" if len(types) == 1 else f"Fields{len(types)}"
            view = " ".join([f"fields{len(types)}", *(group(part.seen) for part in parts)])
            return f"{name}<{', '.join(types)}>" if types else "NoFields", view
        first, *others = parts
        if not others:
            return f"LastValue<{first.row}>", f"record {{\nvalue = {first.seen};\n}}"
        word = "Item" if first.value else "Value" if first.item else "Before" if is_between else "Field"
        row, view = self.row(others, first.value or is_between and not first.item)
        return f"{word}<{first.row}, {row}>", f"record {{\nvalue = {first.seen};\nrest = {view};\n}}"

    def default(self, part):
        """The type that says a field's default."""
        inner, base, uses, term, made = part.form.inner[0], str(part.base), "", part.default, part.default
        if base == ITEM:
            term, made = f"identifier_from {term}_NUMBERS", f"{made.lower()}()"
        elif base.startswith("i"):
            term = integer(int(term))
        elif base.startswith("["):
            term = term[1:-1].replace(",", " ∷") + " ∷ []"
        elif "::" in term:
            term, declared = term.split("::")[1], self.module.items[base]
            uses = uses_of_variants(self.module, declared, [one for one in declared.values if one.name == term])
        if part.tag:
            term, made = f"record {{ inner = {term} }}", f"{part.tag.capitalize()}::new({made})"
        text = f"\n/// What `{part.name}` is if it is left out.\n{self.item.visibility} struct {part.title};"
        value = f"{BY_NUMBERS if base == ITEM else ''}fn value() -> {inner} {{ {made} }}"
        return text + self.impl(f"DefaultValue<{inner}>", uses, f"ghost default = {{ {term} }};", value, of=part.title)


class Choice(Form):
    """An enum whose variants are told by their tags; and what one has whose variants are told by an item."""

    def __str__(self):
        row, values, own = self.item.own("Choice"), self.item.own("Values"), self.item.own()
        text = f"\ntype {row} = {one_of([alternative(part) for part in self.parts])};\n"
        text += f"\ntype {values} = <{row} as Alternatives>::Values;\n"
        words = ",".join(f" {part.name}{f': {part.tag} {part.number}' if part.tag else ''}" for part in self.parts)
        text += self.list_in_macro("variants", words, f" {self.name}(x);")
        text += self.stated(part.base for part in self.parts)
        seen = quoted(own, f"AsOneOf<{values}>") + ".seen"
        places = [in_place(at, len(self.parts), "x") for at in range(len(self.parts))]
        text += self.impl(f"AsOneOf<{values}>", self.variants(), f"""
            ghost seen = {{ {self.elim(places)[1:-1]} }};
            fn from_one_of(value: {values}) -> {own}
                ensures {{ {seen} result ≡ value.entry }}
            {{ {self.body("take_choice", "value")} }}""")
        text += self.impl("Asn1Type", f"""
            ghost der = {{ choice {seen} {quoted(row, "Alternatives")}.list }};
            fn known(&self) {{ {self.body("known_choice", "self")} }}""")
        if self.item.reads:
            found = f"IfOk result (λ v. BeginsWithEncodingOf {self.means} v parser.old parser.new)"
            body = f"read_choice::<{row}, {own}>(parser)"
            parse = self.parse("", body, f"ReadsPrefix {self.means}", f"{self.means}.stops", found)
            text += self.impl(f"Asn1Readable<{self.life}>", parse, f"""
            fn can_parse(tag: Tag) -> bool
                ensures value {{ result ≡ {self.means}.accepts tag }}
                ensures plain {{ {self.means}.plain }}
                ensures read {{ {self.means}.is_read }}
            {{ <{row} as AlternativesReadable<{self.item.life or "'_"}>>::accepts(tag) }}""")
        if self.item.writes:
            text += self.impl("Asn1Writable", ERROR, self.lengths(), f"""
            fn write(&self, dest: &mut Writer<'_>) -> WriteResult<()> {{ {self.body("write_choice", "self, dest")} }}
            fn encoded_length(&self) -> Option<usize>{self.exact_length()} {{ {self.body("choice_length", "self")} }}""",
            self.writes_as_read())
        return text

    def variants(self):
        """The import of the variants."""
        return uses_of_variants(self.module, self.item, self.parts)

    def lengths(self, member="length_known"):
        """Says of which values the length is known."""
        if self.has_length():
            return f"ghost {member} = {{ λ _. {ALWAYS} }};"
        lengths = self.elim(self.length(part.base, "x") for part in self.parts)
        return f"{self.variants()} ghost {member} = {{ {lengths[1:-1]} }};"

    def exact_length(self):
        """Says that the length of an encoding that can be read is known, if each variant has a type without parts."""
        types = ((part.base.name, str(part.base).split()[-1]) for part in self.parts)
        if not self.has_length() or not all(name in LIBRARY or last in LIBRARY for name, last in types):
            return ""
        meaning = f"({self.means}.meaning self.now)"
        return f"""
                ensures length {{ GivesLength ({ALWAYS}) ({self.means}.encodings {meaning}) result }}
                ensures exact {{ IsLengthOf {self.means} self.now result }}
            """

    def has_length(self):
        """Whether the length of each value is known."""
        return self.module.known(Type(self.name, [self.item.life] if self.item.life else [])).has_length

    def elim(self, values):
        """What each variant means: its value in its place of the sum."""
        return f"(elim [ {' | '.join(f'{part.name} x ↦ {value}' for part, value in zip(self.parts, values))} ])"

    def parse(self, known, body, reads, stops, found=""):
        """The method that reads a value, of which this is known before."""
        found = f"\n ensures found {{ {found} }}" if found else ""
        return f"""
            fn parse({known}parser: &mut Parser<{self.life}>) -> ParseResult<{self.item.own()}>
                ensures answers {{ {reads} parser.old parser.new result }}{found}
                ensures rest {{ EndsWith parser.old parser.new }}
                ensures stops {{ OnErr result ({stops} parser.old parser.new) }}
            {{ {body} }}"""


class Defined(Choice):
    """An enum with a variant for each item that is known, an identifier or a number; the last may serve every other."""

    def __str__(self):
        self.of = of = self.item.of
        by = quoted(self.item.own(), f"Asn1DefinedBy<{of}>") + ".by"
        self.known = [part for part in self.parts if "defined_by" in part.attributes]
        self.other = next((part for part in self.parts if "default" in part.attributes), None)
        # What the default keeps.
        self.kept = self.name + self.other.name if self.other else ""
        # Each item is declared, and told from the others; what serves every other is last, and keeps it.
        items, other = {}, self.other
        for part in self.known:
            name = "".join(part.attributes["defined_by"][:-1])
            why = f"`{name}` is no constant of an identifier or a number that is declared here"
            reject(name not in self.module.items, part.line, why)
            constant = self.module.items[name]
            is_other = constant.kind not in ("const", "number") or constant.of != of
            reject(is_other, part.line, f"`{name}` is no constant of the type `{of}` that is declared here")
            first = items.setdefault(self.set_item(part, name, constant), part)
            part.reject(first is not part, f"has the item of `{first.name}`")
        self.item.reject(not self.known, "has no variant of an item")
        if other:
            other.reject(other is not self.parts[-1], "is the default, and not the last variant")
            is_tlv = [*map(str, other.parts)] == [of, f"Tlv<{self.item.life}>"]
            other.reject(not is_tlv, f"is the default, and not of the types `{of}` and `Tlv`")
        text = self.other_struct() if other else ""
        text += self.stated([*(part.base for part in self.known), f"{self.kept}<{self.life}>"])
        values = [f"({der(part.base)}.meaning x)" for part in self.known]
        values += [f"({der(of)}.meaning x.item, {der(other.base)}.meaning x.value)"] if other else []
        places = [side(at, len(values)).format(value)[1:-1] for at, value in enumerate(values)]
        # The record of the variants, from the last one on; the first one says what all values mean.
        rest = f"(any_variant {der(other.base)} (λ m. m)) " if other else ""
        for part in reversed(self.known):
            word, view = "or_variant" if rest else "variant", self.elim(places) if part is self.known[0] else "(λ m. m)"
            rest = f"({word} {part.with_item} {der(part.form)} {rest}{view}) "
        text += self.impl(f"Asn1DefinedBy<{of}>", self.variants(), f"""
            ghost by = {{ by_item (record {{
            item = {der(of)};
            value = {rest[1:-2]};
            }}) }};
            fn known_by(&self) {{ {self.match("x.known()", "x.value.known()")} }}""")
        text += self.impl(f"DefinedField<{of}>", f"""
            ghost both = {{ record {{
            item = {der(of)};
            value = {by}.means;
            }} }};
            fn known_item(&self) {{ {self.match("{call}.known()", "x.item.known()", "_")} }}
            ghost agrees = {{ word_for_word _ }};""")
        if self.item.reads:
            # One item after another is tested.
            read = {part.test: self.made(part, f"parser.read_element::<{part.form}>()?") for part in self.known}
            tests = "".join(f"if {test} {{ return Ok({made}); }} " for test, made in read.items())
            value = f"{self.kept} {{ item, value: parser.read_element::<Tlv<{self.life}>>()? }}"
            last = f"Ok({self.made(other, value)})" if other else UNKNOWN
            stops = f"{by}.means.stops ({by}.seen item)"
            parse = self.parse(f"item: {of}, ", tests + last, f"ReadsDefined {by} item", stops)
            text += self.impl(f"Asn1DefinedByReadable<{self.life}, {of}>", parse, f"""
            fn one_encoding()
                ensures plain {{ {by}.means.plain }}
                ensures read {{ {by}.means.is_read }}
            {{}}""")
        if self.item.writes:
            kept = "x.item.clone().unwrap()" if of == ITEM else "x.item"
            write = self.match("x.write(dest)", "x.value.write(dest)", tagged="write_{tag}(x, {number}, dest)")
            length = self.match("x.encoded_length()", "x.value.encoded_length()", tagged="{tag}_length(x, {number})")
            text += self.impl(f"Asn1DefinedByWritable<{of}>", ERROR, self.lengths("length_known_by"), f"""
            fn item(&self) -> {of} {{ {self.match('{call}', kept, '_')} }}
            fn write(&self, dest: &mut Writer<'_>) -> WriteResult<()> {{ {write} }}
            fn encoded_length(&self) -> Option<usize> {{ {length} }}""")
        return text

    def match(self, body, other="", name="x", tagged=""):
        """A match with an arm for each variant: of the default, and of those under a tag, it may be another."""
        arms = []
        for part in self.parts:
            is_other = "default" in part.attributes
            form = other if is_other else tagged if tagged and part.tag else body
            arms.append(f"{self.name}::{part.name}({'x' if is_other else name}) => {form.format(**vars(part))},")
        return f"match self {{ {' '.join(arms)} }}"

    def made(self, part, value):
        """A variant of a value that was read, maybe under a tag."""
        return f"{self.name}::{part.name}({value}{'.into_inner()' if part.tag else ''})"

    def set_item(self, part, name, constant):
        """Gives a variant its item and the test for it, in code and in clauses. Returns what tells it from others."""
        if constant.kind == "const":
            part.call, part.test = f"{name.lower()}()", f"is_identifier(&item, {name.lower()}())"
            part.fact = f"bytes_eq (identifier_of item) {name}_NUMBERS"
            part.with_item = f"(identifier_with {name}_NUMBERS)"
            return tuple(octets_of(constant)[0])
        number, part.call, part.test = integer(constant.number), name, f"item == {name}"
        part.fact = f"int_eq item ({number})" if self.of[0] == "i" else f"nat_eq item {constant.number}"
        part.with_item = f"""(record {{ item = {number}; is = λ n. int_eq n ({number}); itself = refl;
            alone = λ n same. sym ((Decides-int_eq n ({number})).0 same); }})"""
        return constant.number

    def other_struct(self):
        """What the default keeps: an item that no other variant is for, and the value. `Clone` isn't derived for it,
        because of the ghost fields."""
        kept, life, item = self.kept, self.life, self.of
        of, derives = f"{kept}<{life}>", ", ".join(name for name in self.item.derives if name != "Clone")
        facts = {part.call.lower().removesuffix("()"): f"{part.fact} ≡" for part in self.known}
        fields = "".join(f"pub ghost is_not_{name}: {{ {fact} false }}, " for name, fact in facts.items())
        tests = " || ".join(part.test for part in self.known)
        *firsts, last = [f"({fact} true)" for fact in facts.values()]
        same = "identifier_of y.item ≡ identifier_of x.item" if item == ITEM else "y.item ≡ x.item"
        served = "".join(f"({first} ⊎ " for first in firsts) + last + ")" * len(firsts)
        text = f"""
/// An item that no other variant of `{self.name}` is for, and the value.
#[derive({derives})]
{self.item.visibility} struct {of} {{ item: {item}, value: Tlv<{life}>, {fields} }}
impl<{life}> {of} {{
    /// Of this item and this value; `None` if another variant is for the item.
    pub fn new(item: {item}, value: Tlv<{life}>) -> Option<{of}>
        ensures {{ MatchOption result {served} (λ v. (v.item ≡ item) × (v.value ≡ value.entry)) }}
    {{ if {tests} {{ return None; }} Some({kept} {{ item, value }}) }}

    /// The item.
    pub fn item(&self) -> &{item} ensures {{ result.now ≡ self.now.item }} {{ &self.item }}

    /// The value.
    pub fn value(&self) -> Tlv<{life}> ensures {{ result ≡ self.now.value }} {{ self.value }}
}}
"""
        return text if "Clone" not in self.item.derives else text + self.impl("Clone", f"""
            ghost is_clone = {{ λ x y. ({same}) × (y.value ≡ x.value) }};
            ghost is_infallible = {{ λ _. ⊤ }};
            fn clone(&self) -> Result<{of}, AllocError>
            {{ Ok({kept} {{ item: self.item{'.clone()?' if item == ITEM else ''}, value: self.value }}) }}""", of=of)


def alternative(part):
    """The alternative of a variant in the list of its choice: its type, or that under a tag."""
    return f"{part.tag.capitalize()}Tag<{part.base}, {part.number}>" if part.tag else str(part.base)


def one_of(types):
    """The type of a list of alternatives of these types: of at most twelve it has a name."""
    if len(types) > 12:
        return f"OneOfEight<{', '.join(types[:8])}, {one_of(types[8:])}>"
    return f"OneOf{len(types)}<{', '.join(types)}>"


def in_place(at, count, value):
    """A value of the alternative at a place of a list of this many, counted from 0: the list has eight at a time while
    there are as many, then three, and then one."""
    front = next(size for size in (8, 3, 1) if size <= count)
    if at < front:
        return f"{PLACES[at]}{front} {value}"
    return f"after{front} ({in_place(at - front, count - front, value)})"


def side(at, count):
    """Where the meaning of one of this many alternatives is in their sum."""
    return "(inr " * at + ("(inl {})" if at < count - 1 else "{}") + ")" * at


def of_static(type):
    """A type of the lifetime that laws are about."""
    return re.sub("'\\w+", "'static", type)


def within_laws(type):
    """A type of the declarations, as the module of laws within theirs names it."""
    return "super::" * (type.split("::")[0] in ("self", "super")) + of_static(type).removeprefix("self::")


def are_computed(tags, others):
    """Whether a field's tags are compared with those of the fields after it by computing: each has one, and no other
    has this one."""
    return tags not in others and all(one not in (None, ANY) and len(one) == 1 for one in (tags, *others))


def lawful(item, module):
    """The function that says that each value of the type has one encoding. It calls the laws of the types in the type.
    The search compares the tags of fields unless each has one that is known, and those of alternatives that may have
    several each."""
    if item.kind in ("const", "number") or item.is_defined or item.kind != "type" and not item.reads:
        return ""
    parts = [item.type] if item.type else [part.form for part in item.parts]
    # An imported type that an item defines has no law by itself.
    others = [part.form for part in item.parts if "defined_by" in part.attributes and part.base.name not in module.items]
    called = list(dict.fromkeys(law for part in parts if part not in others for law in laws_of(module, part)))
    tags = [module.known(part).tags for part in parts]
    missing = [at for at, part in enumerate(parts[:-1]) if module.known(part).is_missing]
    is_told = not all(are_computed(tags[at], tags[at + 1 :]) for at in missing)
    if item.kind == "enum":
        untagged = [part for part in parts if not module.known(part).tags or not module.known(part).is_simple]
        named = [within_laws(str(type)) for type in untagged]
        pairs = [f"tags_are_apart::<{one}, {other}>" for at, one in enumerate(named) for other in named[at + 1 :]]
        is_told = bool(pairs)
        called += [*pairs, f"alternatives_apart_are_lawful::<{within_laws(item.own('Choice'))}>"]
    return f"""
/// Each value of `{item.name}` has one encoding, which is read back.
{BY_TAGS if is_told else ''}{item.visibility} fn {snake(item.name)}_is_lawful()
    ensures {{ HasOneEncoding {der(of_static(item.own()))} }}
{{ {' '.join(f'{law}();' for law in called)} }}
"""


def module_of_laws(laws):
    """The module of these laws, if there are any."""
    called = re.findall(r"(\w+)::<(.*)>\(\);", laws)
    named = [name for _, types in called for name in re.findall(r"(?<![:\w'])[A-Z]\w*", types)]
    types = ", ".join(sorted({*re.findall(r"^/// Each value of `(\w+)`", laws, re.M), *named}))
    library = ", ".join(sorted({law for law, _ in called}))
    return types and f"""
/// The laws of the types, which do nothing.
pub mod laws {{
    use super::{{{types}}};
    use asn1::Asn1Type;
    {f"use asn1::laws_wrappers::{{{library}}};" if library else ""}
    {laws}
}}
""" or ""


def laws_of(module, type):
    """The laws of the types in a type, as they are called: that of an imported type is in the module `laws` beside it."""
    declared, path = module.items.get(type.name), module.imported.get(type.name, type.name).split("::")
    if declared and not declared.is_defined:
        return [f"{snake(type.name)}_is_lawful"]
    if len(path) > 1:
        # The module `laws` is within that of the declarations.
        around = ["super"] * (path[0] in ("self", "super")) + path[path[0] == "self" : -1]
        return ["::".join([*around, "laws", f"{snake(path[-1])}_is_lawful"])]
    inner = [part.form for part in declared.parts] if declared else type.inner
    return [name for part in inner for name in laws_of(module, part)]


def octets_of(item):
    """The encoded numbers of an identifier (X.690 8.19.4), and its contents octets."""
    first, second, *others = [int(arc.replace("_", "")) for arc in item.arcs]
    item.reject(first > 2 or first < 2 and second > 39, "is no identifier: its second number is below 40 after 0 and 1")
    numbers = [40 * first + second, *others]
    # Seven bits an octet, from the first that aren't 0: a number below 2^128 has none from bit 133 on.
    at_octets = [(number, at) for number in numbers for at in range(126, -1, -7) if number >> at or not at]
    octets = [number >> at & 127 | (128 if at else 0) for number, at in at_octets]
    item.reject(len(octets) > 63 or max(numbers) >= 2**128, "has more than 63 octets, or a number from 2^128 on")
    return numbers, octets


def identifier(item, _):
    """A function that returns an identifier: its clause has the numbers, of which the first means two."""
    numbers, octets = octets_of(item)
    contents = "".join(f"\\x{octet:02x}" for octet in octets)
    return f"""
/// The numbers of [`{item.name.lower()}`], as they are encoded: the first means two.
{item.visibility} const {item.name}_NUMBERS: [{"u64" if max(numbers) < 2**64 else "u128"}; {len(numbers)}] = {numbers};

{item.comment(f"The identifier {'.'.join(item.arcs)}.")}
{item.visibility} fn {item.name.lower()}() -> ObjectIdentifier
    ensures {{ identifier_of result ≡ {item.name}_NUMBERS }}
{{ known_identifier(b"{contents}") }}
"""


def alias(item, _):
    """Another name of a type, or a name of a number."""
    said = f"type {item.own()} = {item.type}" if item.type else f"const {item.name}: {item.of} = {item.number}"
    return f"\n{item.comment('Another name.')}\n{item.visibility} {said};\n"


# What prints each kind of declaration.
FORMS = {"struct": Structure, "enum": Choice, "numbers": Numbers, "type": alias, "const": identifier, "number": alias}


def answers(item):
    """The proofs that are owed for an identifier."""
    if item.kind == "const":
        yield item.name.lower(), IDENTIFIER_USES, IDENTIFIER_ANSWERS
