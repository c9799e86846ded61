"""The names that the crates define: those of definitions, lemmas, fields, clauses, functions, types, modules and files."""

import re

from pages.edits import TOP, lines_of_crates

PARTS = ("src", "specs", "proofs", "must-fail")
NAME = r"[^\s:(){};,.|&\[\]<>]+"
IN_PROOFS = (
    re.compile(rf"^ *(?:(?:pub|abbrev|unfoldable|ghost) +)*({NAME}) *: ", re.MULTILINE),
    re.compile(rf"\b(?:data|record|mod|module|constructor) +({NAME})"),
)
IN_CODE = (
    re.compile(r"\b(?:fn|struct|enum|trait|type|const|static|mod) +(\w+)"),
    re.compile(r"\bghost +([\w-]+) *="),
    re.compile(r"^ *(?:pub(?:\([^)]*\))? +)?(\w+) *:", re.MULTILINE),  # a field or a parameter
    re.compile(r"^ +([A-Z]\w*)(?: *[({,]|$)", re.MULTILINE),  # a variant
)
IMPORT = re.compile(r"\buse ([\w.:-]+?)(?:[.:]+\{([^}]*)\})?(?: as \w+)?;?$", re.MULTILINE)
CLAUSE = re.compile(r"\b(?:ensures|requires) +([\w-]+) *\{")
OF_THE_LANGUAGE = {"ensures", "requires", "impl", "mut", "pub", "use"}


def code_of(file):
    """Returns the text of a file without its lines of comment."""
    lines = file.read_text(encoding="utf-8", errors="replace").splitlines()
    return "\n".join(line for line in lines if not line.lstrip().startswith(("//", "--", "# ")))


def imported(text):
    """Returns the names that a file imports, also from the kit."""
    names = set()
    for path, listed in IMPORT.findall(text):
        names.update(re.split(r"[.:]+", path), re.findall(r"[^\s,]+", listed))
    return names


def clauses():
    """Returns the names of the clauses."""
    return {name for file in TOP.glob("crates/*/src/**/*.rt") for name in CLAUSE.findall(code_of(file))}


def names():
    """Returns each name that a file of the crates defines or imports, and those of the crates of the kit."""
    found = set(OF_THE_LANGUAGE) | clauses()
    for line in lines_of_crates():
        found.update(re.findall(r"\w+", line))
    for part in PARTS:
        for file in TOP.glob(f"crates/*/{part}/**/*"):
            found.update(file.relative_to(TOP).parts, [file.stem])
            if file.is_file() and file.suffix in (".rt", ".antt"):
                text = code_of(file)
                for pattern in IN_CODE if file.suffix == ".rt" else IN_PROOFS:
                    found.update(pattern.findall(text))
                found |= imported(text)
    return found
