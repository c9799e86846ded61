"""The page of the wrong bodies, which is made of the comments that they begin with."""

import re
from pathlib import Path

TOP = Path(__file__).resolve().parent.parent.parent
PAGE = "crates/WRONG_BODIES.md"
MOST = 149  # each costs a check of its crate
GROUPS = (
    "Commands",
    "Numbers and tags",
    "Data of writes",
    "Task Management",
    "Frames, violations, isolation",
    "The program",
    "Media",
    "Reservations",
    "Failures",
    "The loop",
)
BEGINNING = re.compile(r"# (?P<words>[A-Z].*[^.\n])\n# group: (?P<group>.+)\nfile: ")
HEAD = f"""# Wrong bodies

A contract is only as good as what it refuses. Each file `NAME.edit` in the folder `must-fail` of a crate changes a line or two of its code, as somebody could in good faith. `rt ci` checks that the prover refuses it. Below is what the code would then do. They cover what the promises name, and holes that a contract once had. There are at most {MOST}, as each costs a check of its crate; `rt plant` makes up others by the hundred ([PROGRESS](../docs/dev/PROGRESS.md#owed-besides)).

`tools/wrong-bodies` makes this page of the comments that the edits begin with; [CONTRIBUTING](../CONTRIBUTING.md#a-wrong-body) says how to add one.
"""


def lines_of_crates():
    """Returns the lines of crates.txt, each a crate with those below it."""
    lines = (TOP / "crates.txt").read_text(encoding="utf-8").splitlines()
    return [line for line in lines if line and not line.startswith("#")]


def crates():
    """Returns the crates in the order of crates.txt."""
    return [line.partition(":")[0] for line in lines_of_crates()]


def edits():
    """Returns the files of the wrong bodies, by crate and name."""
    order = crates()
    found = TOP.glob("crates/*/must-fail/*.edit")
    return sorted(found, key=lambda file: (order.index(file.parts[-3]), file.stem))


def read():
    """Returns the lines of each group, and what is wrong with the comment of an edit."""
    rows, faults = {group: [] for group in GROUPS}, []
    for file in edits():
        begins = BEGINNING.match(file.read_text(encoding="utf-8"))
        if begins is None:
            faults.append(f"{file.relative_to(TOP)} is to begin with `# What it gets wrong`, without a full stop, and"
                          " `# group: GROUP`")
        elif begins["group"] not in rows:
            faults.append(f"{file.relative_to(TOP)}: its group is to be one of {'; '.join(GROUPS)}")
        else:
            rows[begins["group"]].append(f"- `{file.stem}` (`{file.parts[-3]}`): {begins['words']}\n")
    return rows, faults


def misfits():
    """Returns what is wrong with the wrong bodies that do not fit their code. `rt ci` passes with one, and does not try it."""
    faults = []
    for file in edits():
        code = ""
        for line in file.read_text(encoding="utf-8").splitlines():
            if line.startswith("file: "):
                path = file.parents[1] / line.removeprefix("file: ")
                code = path.read_text(encoding="utf-8") if path.is_file() else ""
            elif line.startswith("old: ") and code.count(line.removeprefix("old: ")) != 1:
                faults.append(f"{file.relative_to(TOP)}: the text after `old: ` is to stand once in its file")
    return faults


def page(rows):
    """Returns the page with these lines."""
    parts = (f"\n## {group}\n\n" + "".join(rows[group]) for group in GROUPS if rows[group])
    return HEAD + "".join(parts)


def check():
    """Returns the names of the wrong bodies, and what is wrong with them, with their comments or with the page."""
    rows, faults = read()
    names = {(file.stem, file.parts[-3]) for file in edits()}
    if not faults and (TOP / PAGE).read_text(encoding="utf-8") != page(rows):
        faults.append(f"{PAGE} is not what the edits say: run tools/wrong-bodies")
    faults += misfits()
    if len(names) > MOST:
        faults.append(f"there are {len(names)} wrong bodies, and at most {MOST} are to be")
    return names, faults
