"""The rules of CONTRIBUTING that can be counted: what is above them, by crate, and no more of it than MOST says."""

import ast
import re
from collections import Counter
from dataclasses import dataclass, field
from pathlib import Path

from pages.edits import TOP, crates

FUNCTIONS, FILES, LINES = "functions above 40 lines", "files above 400 lines", "lines above 160 characters"
LONGEST = {FUNCTIONS: 40, FILES: 400, LINES: 160}
MOST = {FUNCTIONS: 2, FILES: 7, LINES: 44}  # what there is: to be lowered when there is less, and never raised
LEAST_VERBS = 95  # per cent of the comments of functions
OUTSIDE = "tools, bench"
FN = re.compile(r"( *)(?:pub(?:\([^)]*\))? )?(?:ghost )?(?:const )?(?:unsafe )?(?:extern \"C\" )?fn (\w+)")
CLAUSE = re.compile(r" +(?:ensures|requires|decreases)\b")
VERB = re.compile(r"[A-Z][a-z]+s\b")
NO_VERBS = {"As", "Bytes", "Has", "Is", "Its", "Lines", "Others", "Targets", "This", "Units", "Was"}


@dataclass
class Counts:
    """What is above the rules in a crate, place by place, and how its comments of functions begin."""

    places: dict = field(default_factory=lambda: {rule: [] for rule in MOST})
    comments: int = 0
    others: list = field(default_factory=list)  # the comments that begin with no verb

    def note(self, rule, file, at, length):
        """Notes a place where something is longer than its rule says."""
        if length > LONGEST[rule]:
            self.places[rule].append(f"{file.relative_to(TOP)}:{at}: {length}")

    def share(self):
        """Returns how many of a hundred comments begin with a verb."""
        return 100 * (self.comments - len(self.others)) / self.comments if self.comments else 100


def lines_of(file):
    """Returns the lines of a file."""
    return file.read_text(encoding="utf-8").splitlines()


def length_of(lines, start, indent):
    """Returns the lines of the function that starts at this line, without its contract: 0 if it has no body."""
    if lines[start].endswith("}"):
        return 1
    contract = body = None
    for at in range(start + 1, len(lines)):
        line = lines[at]
        if body is None and contract is None and CLAUSE.match(line):
            contract = at
        elif line in (indent + "{", indent + "{}"):
            body = at
        if line in (indent + "}", indent + "{}"):
            return at + 1 - start - (body - contract if contract and body else 0)
        if line and not line.startswith(indent) or line.startswith(indent) and FN.match(line):
            return 0
    return 0


def comment_above(lines, at):
    """Returns the first line of the comment of the function at this line, past its attributes, or an empty text."""
    above = at - 1
    while above >= 0 and lines[above].strip() and not lines[above].rstrip().endswith(("{", "}", ";")):
        if lines[above].lstrip().startswith("///"):
            while above > 0 and lines[above - 1].lstrip().startswith("///"):
                above -= 1
            return lines[above].lstrip()[3:].strip()
        above -= 1
    return ""


def begins_with_verb(comment):
    """Returns whether the first word is a verb in the third person."""
    word = VERB.match(comment)
    return word is not None and word[0] not in NO_VERBS


def count_source(counts, file):
    """Counts the functions of a file in Rattle, and their comments."""
    lines = lines_of(file)
    for at, line in enumerate(lines):
        if begins := FN.match(line):
            counts.note(FUNCTIONS, file, at + 1, length_of(lines, at, begins[1]))
            if comment := comment_above(lines, at):
                counts.comments += 1
                if not begins_with_verb(comment):
                    counts.others.append(f"{file.relative_to(TOP)}:{at + 1}: {comment}")


def count_python(counts, file):
    """Counts the functions of a file in Python."""
    for node in ast.walk(ast.parse(file.read_text(encoding="utf-8"))):
        if isinstance(node, ast.FunctionDef):
            counts.note(FUNCTIONS, file, node.lineno, node.end_lineno - node.lineno + 1)


def counted(crate):
    """Returns the counts of a crate."""
    counts = Counts()
    for part, ending in (("src", "rt"), ("specs", "antt"), ("proofs", "antt")):
        for file in sorted((TOP / "crates" / crate / part).rglob(f"*.{ending}")):
            lines = lines_of(file)
            counts.note(FILES, file, 1, len(lines))
            if part == "src":
                count_source(counts, file)
            else:
                for at, line in enumerate(lines, 1):
                    if not line.startswith(("use ", "pub use ")):
                        counts.note(LINES, file, at, len(line))
    return counts


def counted_outside():
    """Returns the counts of the tools and the benchmark."""
    counts = Counts()
    files = [file for folder in ("tools", "bench") for file in (TOP / folder).rglob("*")]
    for file in sorted(files):
        if file.is_file() and file.suffix in ("", ".py", ".c", ".h") and not {"out", "__pycache__"} & set(file.parts):
            lines = lines_of(file)
            counts.note(FILES, file, 1, len(lines))
            if file.suffix == ".py" or lines and lines[0].endswith("python3"):
                count_python(counts, file)
    return counts


def all_counts():
    """Returns the counts of each crate, and of the tools, by their names."""
    return {crate: counted(crate) for crate in crates()} | {OUTSIDE: counted_outside()}


def sums(counts):
    """Returns how much is above each rule in all."""
    total = Counter({rule: 0 for rule in MOST})
    for each in counts.values():
        total.update({rule: len(each.places[rule]) for rule in MOST})
    return total


def share(counts):
    """Returns how many of a hundred comments of all functions begin with a verb."""
    whole = Counts(comments=sum(each.comments for each in counts.values()),
                   others=sum((each.others for each in counts.values()), []))
    return whole.share()


def check():
    """Returns the names of the rules, and which of them are broken more often than MOST says."""
    counts = all_counts()
    faults = [f"there are {found} {rule}, and at most {MOST[rule]} are to be: tools/style --places names them"
              for rule, found in sums(counts).items() if found > MOST[rule]]
    if share(counts) < LEAST_VERBS:
        faults.append(f"{share(counts):.0f} % of the comments of functions begin with a verb, and {LEAST_VERBS} % are to:"
                      " tools/style --places names the others")
    return {*MOST, "comments"}, faults
