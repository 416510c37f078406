"""Reads the repository: what each crate uses, the cases of programs, the items of sources with their clauses, and
functions as a check names them, each with the place of its body. Reports what a script of the gate found."""

import os, re, subprocess
from collections import namedtuple
from functools import cache
from pathlib import Path

TOP = Path(__file__).resolve().parent.parent
CRATES = TOP / "crates"
# Of a function: its name, its file in the crate, whether it is public, its trait, the names of its `ensures` clauses,
# and where its body begins and ends in the file, with the body's indentation.
Function = namedtuple("Function", "name file is_public trait clauses start end indent")
# Of a case of a program, or of a test: its name behind its crate's, the command, what is on standard input, and how a
# case has to end: the status and both outputs.
Run = namedtuple("Run", "name command stdin end")
# Of a clause or a ghost member: 'requires', 'ensures' or 'ghost'; the name of the last two, 'unnamed' if there is none;
# where it begins, and where its text in braces ends; and this text.
Clause = namedtuple("Clause", "kind name start end text")
KINDS = "fn|struct|enum|trait|impl|mod|type|const|static|ghost|use|macro_rules!"
START = rf"(pub )?(?:pub\(\w+\) )?(?:const |unsafe |extern \"C\" )*({KINDS})(?!\w) ?(\w*)"
CLAUSE = re.compile(r"\b(?:(requires|ensures)(?:\s+(\w+))?\s+|(ghost) (\w+)(?: =|:)\s+)\{")
GHOST_USE = re.compile(r"^ *ghost use ([^;{]*)\.\{([^}]*)\};", re.MULTILINE)
# What is in angle brackets, with up to three pairs in one another.
IN_ANGLES = r"<(?:[^<>]|<(?:[^<>]|<(?:[^<>]|<[^<>]*>)*>)*>)*>"


@cache
def kit():
    """The kit's folder."""
    return Path(subprocess.run(["rt", "doc"], capture_output=True, text=True, check=True).stdout.strip()).parent


def report(results, tells_all=False):
    """Prints each result that isn't well, or all, and how many are; the status is 1 if one isn't, or none is."""
    counts = {True: 0, False: 0}
    for is_well, said in results:
        counts[is_well] += 1
        if tells_all or not is_well:
            print(said, flush=True)
    print(f"{counts[True]} passed, {counts[False]} failed")
    return counts[False] > 0 or counts[True] == 0


@cache
def uses():
    """The repository's crates, and what each uses."""
    lines = re.findall(r"^(\w+)(?: staticlib)?:(.*)", (TOP / "crates.txt").read_text(), re.MULTILINE)
    return {name: used.split() for name, used in lines}


def below(name):
    """The repository's crates that a crate is made of, without itself, in their order."""
    found = {one for used in uses()[name] if used in uses() for one in [used, *below(used)]}
    return [one for one in uses() if one in found]


def libraries(*others):
    """The crates that are no tests, programs or workloads, without these others."""
    return [name for name in uses() if not name.endswith(("_tests", "_cli", "speed")) and name not in others]


def cases():
    """The cases of the programs. Each folder crates/PROGRAM/cases/NAME has the files of the kit's stored run: stdin,
    without which standard input can't be read; stdout and stderr, if anything is written; args, a word on each line, if
    there are any; status, if it isn't 0."""
    for folder in sorted(CRATES.glob("*/cases/*")):
        stored, crate = {file.name: file.read_bytes() for file in folder.iterdir()}, folder.parent.parent
        stdout, stderr, args = (stored.get(name, b"") for name in ("stdout", "stderr", "args"))
        command, status = [crate / "out" / crate.name, *args.splitlines()], int(stored.get("status") or 0)
        yield Run(f"{crate.name}::{folder.name}", command, stored.get("stdin"), (status, stdout, stderr))


@cache
def unreadable():
    """A descriptor that can't be read: a folder's."""
    return os.open(TOP, os.O_RDONLY)


def bare(text):
    """A source in which each comment is as much white space."""
    return re.sub(r"//.*", lambda comment: " " * len(comment[0]), text)


def clauses(text):
    """Each clause and ghost member of a source, or of a part of one."""
    code = bare(text)
    for found in CLAUSE.finditer(code):
        depth, end = 1, found.end()
        while depth:
            depth, end = depth + {"{": 1, "}": -1}.get(code[end], 0), end + 1
        kind = found[1] or found[3]
        name = None if kind == "requires" else found[2] or found[4] or "unnamed"
        yield Clause(kind, name, found.start(), end - 1, text[found.end() : end - 1])


def comment_above(text, mark="//"):
    """The lines of the comment at the end of a text, of a definition too; attributes may be between, and fixities."""
    lines, found = text.split("\n")[:-1], []
    while lines and re.match(rf"\s*({mark}|#\[|[\w( ),:]*\)\]$|infix[lr]? )", lines[-1]):
        line = lines.pop().strip()
        found += [line.lstrip(mark[0]).strip()] if line.startswith(mark) else []
    return found[::-1]


class Item:
    """An item of a source as `rt fmt` lays it out, or a member of an impl, a trait or a module.

    Of each there is its kind, its name, and whether it says `pub`; where it begins in the file; its text up to the next
    item, with and without comments; its header with the clauses; and its members.
    """

    def __init__(self, text, found, end, indent, base):
        self.is_public, self.kind, self.name, self.indent = bool(found[1]), found[2], found[3], indent
        self.above, self.text, self.start = text[: found.start()], text[found.start() : end], base + found.start()
        self.code = bare(self.text)
        has_clauses = re.search(r"\b(requires|ensures)\b|\{\}?$", self.code, re.MULTILINE)
        opens = rf"^{indent}\{{" if has_clauses and has_clauses[1] else r"\{\}?$"
        body = re.search(opens, self.code, re.MULTILINE)
        self.head = self.text[: body.start()] if body else self.text
        is_outer = self.kind in ("impl", "trait", "mod") and not indent
        self.members = [*items(self.text, "    ", self.start)] if is_outer else []

    def comment(self, mark="//"):
        """The lines of the comment above it."""
        return comment_above(self.above, mark)

    def impl(self):
        """Of an impl its generic parameters, its trait, which is empty if it has none, and its type."""
        header = re.split(r"\{\}?$|\bwhere\b", self.code, flags=re.MULTILINE)[0].partition("impl")[2]
        header = re.sub(r"\s+", " ", header.replace("->", "")).strip()
        generics, rest = re.fullmatch(f"({IN_ANGLES}|)(.*)", header).groups()
        trait, _, of = rest.strip().rpartition(" for ")
        return generics, trait, of

    def function(self, path, is_public, trait=""):
        """A function at this path."""
        start = end = None
        if len(self.head) < len(self.text):
            opens = self.code.index("{", len(self.head)) + 1
            is_empty = self.code[opens] == "}"
            closes = opens if is_empty else self.code.index(f"\n{self.indent}}}\n", len(self.head)) + 1
            start, end = self.start + opens + (not is_empty), self.start + closes
        named = [it.name for it in clauses(self.head) if it.kind != "requires"]
        return Function("::".join(path), None, is_public, trait, named, start, end, self.indent + "    ")


def items(text, indent="", base=0):
    """The items of a file; or the members in the text of an item, which begins at this place of the file."""
    starts = [*re.finditer(f"^{indent}{START}", bare(text), re.MULTILINE)]
    for found, end in zip(starts, [*(start.start() for start in starts[1:]), len(text)]):
        yield Item(text, found, end, indent, base)


def without_generics(named):
    """A type or trait without what is in angle brackets, and without the lifetimes of references."""
    return re.sub(rf"{IN_ANGLES}|(?<=&)'\w+ ", "", named)


def word(named, parameters):
    """A type or trait as the name of an impl has it; parameters and lifetimes are left out."""
    named = re.sub(r"'\w+|\w+::", "", named).replace("&", "Ref ").replace("()", "Unit")
    named = re.sub(r"\[(\w+);.*?\]", r"Array \1", named).replace("[", "Slice ")
    return "".join(part[0].upper() + part[1:] for part in re.findall(r"\w+", named) if part not in parameters)


def impl_name(generics, trait, of):
    """The name of an impl as a check has it, and that of its trait."""
    parameters = re.findall(r"[<,] ?(?:const )?(\w+)", "<" + re.sub(IN_ANGLES, "", generics[1:-1]))
    return (word(of, parameters) or "Any") + word(trait, parameters), re.match(r"(?:\w+::)*(\w*)", trait)[1]


def functions_in(text, path):
    """The functions of a file, whose path of modules is given, those without a body too."""
    for item in items(text):
        if item.kind == "fn":
            yield item.function([*path, item.name], item.is_public)
        is_trait = item.kind == "trait"
        block, trait = impl_name(*item.impl()) if item.kind == "impl" else (item.name, item.name * is_trait)
        is_seen = item.is_public if is_trait else trait != ""
        for member in item.members:
            if member.kind == "fn":
                yield member.function([*path, block, member.name], member.is_public or is_seen, trait)


@cache
def functions(crate):
    """The functions of a crate, those of its traits that have no body too. A method of no trait has the path of its
    type, wherever its impl is."""
    source, texts, homes, found = CRATES / crate / "src", {}, {}, []
    for file in sorted(source.rglob("*.rt")):
        path = [crate, *(part for part in file.relative_to(source).with_suffix("").parts if part != "lib")]
        texts[file] = path, file.read_text()
        homes.update({item.name: path for item in items(texts[file][1]) if item.kind in ("struct", "enum")})
    for file, (path, text) in texts.items():
        for function in functions_in(text, path):
            *_, block, name = function.name.split("::")
            if not function.trait and block in homes:
                function = function._replace(name="::".join([*homes[block], block, name]))
            found.append(function._replace(file=file.relative_to(CRATES / crate)))
    return found


@cache
def clauses_of_traits():
    """The clauses of each method of the repository's traits."""
    found = (function for crate in uses() for function in functions(crate) if function.trait)
    return {tuple(it.name.split("::")[-2:]): it.clauses for it in found if it.name.split("::")[-2] == it.trait}


def clauses_of(function):
    """The names of the clauses that a function has to meet: its own, or else its trait's; None of a trait of std."""
    of_trait = clauses_of_traits().get((function.trait, function.name.split("::")[-1]), None if function.trait else [])
    return function.clauses or of_trait
