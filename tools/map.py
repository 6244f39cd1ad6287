"""Writes docs/INDEX.md from the crates: each crate with its modules, by layers, and where each definition, type and function stands;
and the drawing of the layers in docs/ARCHITECTURE.md.

    python3 tools/map.py [--check]

The layers, and what a crate stands on, are those of crates.txt; the words of a crate are those at the head of its `lib`, and a module's
the first sentence of its file. Nothing of this is written by hand. With --check nothing is written, and the exit status is 1 where
something would be.
"""

import re
import sys
import textwrap
from pathlib import Path

HOME = Path(__file__).parents[1]
INDEX = HOME / "docs" / "INDEX.md"
ARCHITECTURE = HOME / "docs" / "ARCHITECTURE.md"
DRAWING = re.compile(r"(?<=<!-- layers: tools/map.py -->\n```\n).*?(?=```\n)", re.DOTALL)
KINDS = {"src": (".rt", "has"), "specs": (".antt", "defines"), "proofs": (".antt", "has")}
NO_ROW = {"lib", "main", "Lib", "tests", "trial"}
COMMENT = re.compile(r"(?://!|///?|--)(?: |$)")
SOURCE = re.compile(r" \([^()]*(?:19\d\d|Birdsall|profile)[^()]*\)")
SENTENCE = re.compile(r".*?[^.][.](?= |$)")
DEFINES = re.compile(r"^(?:  (?=abbrev|unfoldable|record|data))?(?:(?:abbrev|unfoldable|opaque) )*pub (?:record |data )?(?!use |mod )(\S+)")
OWNS = re.compile(r"^impl(?:<.*?>)? (?:[\w<>, ]+ for )?(\w+)")
HAS = re.compile(r"^(    )?pub (?:const |unsafe )?(?:struct|enum|trait|type|fn|const) (\w+)")

OPENING = """# Index

Written by `python3 tools/map.py` from the crates, and never by hand: `crates.txt` has the layers and what each crate stands on, the
head of each file what it has. `docs/ARCHITECTURE.md` says how all this works together, `docs/GLOSSARY.md` what the words mean.
Modules of tests (`tests`, and `trial`, which tests share) are in no table.
"""
DEFINITIONS = """
## Definitions

What contracts cite, each name with the crate (without `pic_`) and the module of `specs/` where it stands.
"""
NAMES = """
## Types, traits, constants and functions of the code

Each public name with the crate (without `pic_`) and the module of `src/` where it stands.
"""


def comment_of(path):
    """The first paragraph of the first comment of a file, as one line."""
    said = []
    for line in path.read_text().splitlines():
        if COMMENT.match(line) and COMMENT.sub("", line):
            said.append(COMMENT.sub("", line).strip())
        elif said:
            break
    return " ".join(said)


def head_of(path):
    """The first sentence of a file, without the sources that it names; it begins small where it begins with a word."""
    said = SOURCE.sub("", comment_of(path))
    found = SENTENCE.match(said)
    words = (found[0] if found else said).rstrip(".:").replace("|", "\\|")
    return words[:1].lower() + words[1:] if words[1:2].islower() or words[1:2] == " " else words


def wrapped(words):
    return textwrap.wrap(words, 120, break_long_words=False, break_on_hyphens=False)


def layers():
    """The layers of crates.txt from the ground up: a name, and its crates with what each stands on."""
    found = []
    for line in (HOME / "crates.txt").read_text().splitlines():
        if line.startswith("# layer: "):
            found.append((line.removeprefix("# layer: "), []))
        elif line and not line.startswith("#"):
            name, _, uses = line.partition(":")
            found[-1][1].append((name, uses.split()))
    return found


def modules(crate, kind):
    ending = KINDS[kind][0]
    return [path for path in sorted((HOME / "crates" / crate / kind).glob("*" + ending), key=lambda path: path.stem.lower())
            if path.stem not in NO_ROW]


def section(crate, uses):
    """A crate: what it is, what it stands on, and its modules."""
    lib = HOME / "crates" / crate / "src" / "lib.rt"
    said = comment_of(lib if lib.exists() else lib.with_name("main.rt"))
    below = f" Stands on {', '.join(f'`{name}`' for name in uses)}." if uses else " Stands on no other."
    yield from ["", f"### {crate}", "", *wrapped(said + below)]
    for kind, (_, verb) in KINDS.items():
        found = modules(crate, kind)
        if found:
            yield from ["", f"| `{kind}/` | {verb} |", "|---|---|", *(f"| `{path.stem}` | {head_of(path)} |" for path in found)]


def defined(lines):
    """The names of the definitions of a module."""
    for line in lines:
        found = DEFINES.match(line)
        if found:
            yield found[1]


def public(lines):
    """The public names of a source, methods behind those of their types."""
    owner = ""
    for line in lines:
        owned, found = OWNS.match(line), HAS.match(line)
        owner = owned[1] if owned else owner
        if found:
            yield f"{owner}::{found[2]}" if found[1] else found[2]


def names(kind, names_in):
    """The names of one kind of files by their first letters, with the places where each stands; crates of tests are left out."""
    places = {}
    for crate in (name for _, crates in layers() for name, _ in crates if not name.endswith("_tests")):
        for path in modules(crate, kind):
            for name in names_in(path.read_text().splitlines()):
                places.setdefault(name, set()).add(f"{crate.removeprefix('pic_')}/{path.stem}")
    letters = {}
    for name in sorted(places, key=lambda name: (name.lower(), name)):
        letters.setdefault(name[0].upper(), []).append(f"`{name}` {', '.join(sorted(places[name]))}")
    for letter in sorted(letters):
        yield from ["", *wrapped(f"**{letter}**: {'; '.join(letters[letter])}.")]


def index():
    """The whole of docs/INDEX.md."""
    lines = OPENING.splitlines()
    for layer, crates in layers():
        lines += ["", f"## Layer: {layer}"]
        for crate, uses in crates:
            lines += section(crate, uses)
    lines += [*DEFINITIONS.splitlines(), *names("specs", defined), *NAMES.splitlines(), *names("src", public)]
    return "\n".join(lines) + "\n"


def drawing():
    """The layers, the top one first, each with its crates."""
    lines = []
    for layer, crates in layers()[::-1]:
        rows = textwrap.wrap("  ".join(name for name, _ in crates), 72)
        lines += [f"{name:<45}{row}".rstrip() for name, row in zip([layer, *[""] * len(rows)], rows)]
    return "\n".join(lines) + "\n"


def main():
    pages = {INDEX: index(), ARCHITECTURE: DRAWING.sub(lambda _: drawing(), ARCHITECTURE.read_text(), count=1)}
    stale = [page for page, text in pages.items() if not page.exists() or text != page.read_text()]
    for page in stale:
        if "--check" in sys.argv:
            print(f"{page.relative_to(HOME)} isn't that of the crates: python3 tools/map.py")
        else:
            page.write_text(pages[page])
    return 1 if stale and "--check" in sys.argv else 0


if __name__ == "__main__":
    sys.exit(main())
