"""The wrong bodies in crates/NAME/must-fail and crates/NAME/wrong-bodies: reading them, putting them into a copy of a
crate, and the state of a crate that scripts/planted.txt keeps. docs/WRONG_BODIES.md tells what they are for.

A file holds one wrong body or several, parted by empty lines; a line that begins with # is a comment, which says what
the body does, or the file's. Each is a few lines 'key: value':

function: PATH      the function that has to be refused, by its path in the crate, as a check names it
body: TEXT          what replaces its whole body; or
first: TEXT         what comes before its body; or
file: src/NAME.rt   a file, and pairs of
old: TEXT           a text that the file has once, and
new: TEXT           what replaces it
clause: NAMES       what the body breaks: clauses of the function, 'the only one' if it has one, or a goal by its name,
                    as that of a struct's ghost field
test: CRATE::PATH   the test that fails with it: if the function has a proof written by hand, or if the prover
                    finds a step without a proof and not a clause; or
no test: REASON     why none can
must: WORDS         in a folder canaries alone: what has to come out in place of a refusal

A list such as {i8,i16} means each of its words in turn. In must-fail a file holds one body, with old and new texts and
no list: `rt ci` reads its lines file, old and new alone.
"""

import hashlib, re
from collections import namedtuple
from pathlib import Path

from sources import CRATES, TOP, below, clauses_of, functions, functions_in, uses

COMMENT = re.compile(r"^[^\S\n]*(?://.*|--( .*)?)\n", re.MULTILINE)
LITERAL = re.compile(r"""("(?:\\.|[^"\\])*"|'(?:\\.|[^'\\])')""")
NAMED_TEST = re.compile(r"^test: .*", re.MULTILINE)
LIST = re.compile(r"\{(\w+(?:,\w+)+)\}")
FOLDERS = ["must-fail", "wrong-bodies/first", "wrong-bodies"]
ALL_FOLDERS = [*FOLDERS, "canaries"]
KEYS = {"function", "body", "first", "file", "old", "new", "clause", "test", "no test", "must"}
PLANTED, TESTS = TOP / "scripts/planted.txt", "tests"
# `around` has the bodies of functions in which the changes are, each as its file and where it begins and ends; and
# `None` if one is in none, as that of a ghost member, which may change the contracts of others.
Wrong = namedtuple("Wrong", "function name changes clauses tests must reason around", defaults=[None, ()])
Change = namedtuple("Change", "file start end text")


def demand(is_met, why):
    if not is_met:
        raise ValueError(why)


def each_of(block):
    """The block once for each word of its lists, which are equally long."""
    counts = {words.count(",") + 1 for words in LIST.findall(block)} or {1}
    demand(len(counts) == 1, "lists of unequal length")
    for place in range(counts.pop()):
        yield LIST.sub(lambda found: found[1].split(",")[place], block)


def changes_of(crate, said, function):
    """What a wrong body of this function changes."""
    values = dict(said)
    if "body" in values or "first" in values:
        end = function.end if "body" in values else function.start
        text = f"{function.indent}{values.get('body') or values['first']}\n"
        return [Change(function.file, function.start, end, text)]
    file, text = Path(values["file"]), (CRATES / crate / values["file"]).read_text()
    olds, news = ([value for key, value in said if key == wanted] for wanted in ("old", "new"))
    demand(olds and len(olds) == len(news), "it changes nothing")
    demand(all(text.count(old) == 1 for old in olds), "an old text that the file doesn't have once")
    return [Change(file, text.index(old), text.index(old) + len(old), new) for old, new in zip(olds, news)]


def broken(clause, function):
    """The clauses that a wrong body of this function breaks, as its file says: they are the function's, or goals."""
    there, words = clauses_of(function), clause.split()
    if clause == "the only one":
        is_known, words = there is None or len(there) == 1, ["unnamed"]
    else:
        is_known = there is None or {*there}.issuperset(word for word in words if "-" not in word)
    demand(is_known, f"the clauses are {', '.join(there or [])}")
    return words


def body_around(change, known):
    """The body in which a change is, of one of these functions."""
    bodies = ((it.file, it.start, it.end) for it in known if it.file == change.file)
    return next((body for body in bodies if body[1] <= change.start and change.end <= body[2]), None)


def blocks_of(file):
    """The wrong bodies of a file: the comment that says what each does, its own or the file's, and its lines."""
    of_file = ""
    for block in re.split(r"\n\n+", file.read_text().strip()):
        lines = block.splitlines()
        said = " ".join(line.removeprefix("# ") for line in lines if line.startswith("#"))
        if text := "\n".join(line for line in lines if not line.startswith("#")):
            yield said or of_file, text
        else:
            of_file = said


def wrong_body(text, name, crate, known):
    """The wrong body that these lines say, by this name if they have no text for a body."""
    said = [line.partition(": ")[::2] for line in text.splitlines()]
    values = {"clause": "", "test": "", "must": "be refused", "no test": None, **dict(said)}
    demand(KEYS.issuperset(values), "a line with another key")
    function = known[values["function"]]
    changes, clauses = changes_of(crate, said, function), broken(values["clause"], function)
    name, tests = values.get("body") or values.get("first") or name, values["test"].split()
    around = {body_around(change, known.values()) for change in changes}
    return Wrong(function.name, name, changes, clauses, tests, values["must"], values["no test"], around)


def wrong_bodies(crate, *folders):
    """All wrong bodies in folders of a crate."""
    files = [file for folder in folders for file in sorted(CRATES.glob(f"{crate}/{folder}/*.edit"))]
    known = {function.name: function for function in functions(crate) if function.start is not None} if files else {}
    for file, comment, block in ((file, *it) for file in files for it in blocks_of(file)):
        try:
            yield from [wrong_body(text, comment or file.name, crate, known) for text in each_of(block)]
        except (KeyError, ValueError, TypeError) as error:
            raise ValueError(f"{file.relative_to(TOP)}: {block.splitlines()[0]}: {error!r}") from error


def crates_with_bodies():
    """The crates that have wrong bodies."""
    return [name for name in uses() if any((CRATES / name / folder).is_dir() for folder in FOLDERS)]


def with_changes(text, changes):
    """The text of a file with these changes, which don't overlap."""
    for _, start, end, new in sorted(changes, reverse=True):
        text = text[:start] + new + text[end:]
    return text


def without_comments(file):
    """The text of a file without lines of comments, which change no proof."""
    return COMMENT.sub("", file.read_text())


def without_layout(text):
    """A source without what `rt fmt` decides: white space, and commas at the ends of lists."""
    parts = LITERAL.split(text)
    parts[::2] = [re.sub(r",(?=[])}>])", "", "".join(part.split())) for part in parts[::2]]
    return "".join(parts)


def without_bodies(file):
    """What a crate above sees of a source: its text without comments and without what the functions do."""
    text = file.read_text()
    bodies = [Change(file, it.start, it.end, "") for it in functions_in(text, []) if it.start is not None]
    return COMMENT.sub("", with_changes(text, bodies))


def state_of(name):
    """A hash of all that decides whether a crate's wrong bodies are refused, as docs/WRONG_BODIES.md tells. In which
    file a wrong body is decides nothing, and no check of the prover runs its test."""
    places = [(name, folder, without_comments) for folder in ["src", "specs", "proofs"]]
    lower = sorted(below(name))
    places += [(crate, *it) for crate in lower for it in (("src", without_bodies), ("specs", without_comments))]
    found = hashlib.sha256()
    for crate, folder, text in places:
        for file in sorted((CRATES / crate / folder).glob("**/*.*")):
            said = without_layout(text(file)) if folder == "src" else text(file)
            found.update(f"{file.relative_to(CRATES)}\n{said}\n".encode())
    files = [file for folder in ALL_FOLDERS for file in (CRATES / name / folder).glob("*.edit")]
    for text in sorted(NAMED_TEST.sub("test:", text) for file in files for _, text in blocks_of(file)):
        found.update(f"{text}\n".encode())
    return found.hexdigest()[:32]


def state_of_tests():
    """A hash of all that decides how the tests of wrong bodies end: these bodies, and the sources of the crates of the
    tests and of those below."""
    files = [file for name in uses() for folder in ALL_FOLDERS for file in (CRATES / name / folder).glob("*.edit")]
    blocks = sorted(text for file in files for _, text in blocks_of(file) if NAMED_TEST.search(text))
    tests = {path.partition("::")[0] for text in blocks for path in NAMED_TEST.search(text)[0].split()[1:]}
    found = hashlib.sha256("\n".join(blocks).encode())
    for name in sorted(tests.union(*map(below, tests))):
        for file in sorted(CRATES.glob(f"{name}/src/**/*.rt")):
            found.update(f"{file.relative_to(CRATES)}\n{without_layout(without_comments(file))}\n".encode())
    return found.hexdigest()[:32]


def planted():
    """The state of each crate in which its wrong bodies were planted, all of them, and refused; and as `tests` that of
    all crates in which the tests of wrong bodies were run, and failed."""
    return dict(line.split() for line in PLANTED.read_text().splitlines() if not line.startswith("#"))


def keep(name, state):
    """Writes a line of scripts/planted.txt, or leaves it out."""
    lines = {**planted(), name: state}
    head = PLANTED.read_text().partition("\n")[0]
    PLANTED.write_text("\n".join([head, *(f"{it} {lines[it]}" for it in [*uses(), TESTS] if lines.get(it))]) + "\n")
