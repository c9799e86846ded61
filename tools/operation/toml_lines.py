"""Reads TOML 1.1 as targetd does (targetd.toml(5)), and keeps the line of each key and value."""

import bisect
import datetime
import math
import re
from dataclasses import dataclass, field

DEEPEST = 80
INTEGERS = range(-2 ** 63, 2 ** 63)
BASES = {"0x": 16, "0o": 8, "0b": 2}
ESCAPES = {"b": "\b", "t": "\t", "n": "\n", "f": "\f", "r": "\r", "e": "\x1b", '"': '"', "\\": "\\"}
CODES = {"x": 2, "u": 4, "U": 8}

SPACE = re.compile(r"[ \t]*")
REST = re.compile(r"(?:#[\t -\x7e\x80-\U0010ffff]*)?(?:\r?\n|\Z)")
BLANK = re.compile(r"(?:[ \t]|\r?\n|#[\t -\x7e\x80-\U0010ffff]*(?=\r?\n))*")
BARE = re.compile(r"[A-Za-z0-9_-]+")
PLAIN = re.compile(r"[^\x00-\x08\x0a-\x1f\x7f\"\\]+")
LITERAL = re.compile(r"'([^\x00-\x08\x0a-\x1f\x7f']*)'")
LONG_PLAIN = re.compile(r'(?:[^\x00-\x08\x0b-\x1f\x7f"\\\n]|\r?\n|"{1,2}(?!"))+')
LONG_LITERAL = re.compile(r"'''(?:\r?\n)?((?:[^\x00-\x08\x0b-\x1f\x7f'\n]|\r?\n|'{1,2}(?!'))*'{0,2})'''")
NEWLINE = re.compile(r"\r?\n")
QUOTES = re.compile('"{0,2}')
LINE_ENDING = re.compile(r"\\[ \t]*\r?\n(?:[ \t]|\r?\n)*")
WORD = re.compile(r"[^\s,\]}#=]+(?: [0-9][^\s,\]}#=]*)?")
DECIMAL = re.compile(r"[+-]?(?:0|[1-9](?:_?[0-9])*)")
BASED = re.compile(r"0x[0-9A-Fa-f](?:_?[0-9A-Fa-f])*|0o[0-7](?:_?[0-7])*|0b[01](?:_?[01])*")
FLOAT = re.compile(r"[+-]?(?:(?:0|[1-9](?:_?[0-9])*)(?=[.eE])(?:\.[0-9](?:_?[0-9])*)?"
                   r"(?:[eE][+-]?[0-9](?:_?[0-9])*)?|inf|nan)")
DATE = re.compile(r"([0-9]{4})-([0-9][0-9])-([0-9][0-9])(?:[Tt ](?=[0-9])|\Z)")
TIME = re.compile(r"([0-9][0-9]):([0-9][0-9])(?::([0-9][0-9])(?:\.[0-9]+)?)?")
OFFSET = re.compile(r"[Zz]|[+-]([0-9][0-9]):([0-9][0-9])")


class NotToml(Exception):
    """The text is no TOML: the line, and why."""

    def __init__(self, line, why):
        super().__init__(why)
        self.line = line


@dataclass
class Value:
    """A value: its kind, and of a table its members, each with the line of its key."""
    kind: str
    line: int
    held: object = None
    made: str = ""  # a table: by "header", "implied" by one, "dotted" or "inline". An array: "headers" or not
    lines: dict = field(default_factory=dict)


def table(line, made):
    """A table with no members."""
    return Value("table", line, {}, made)


class Reader:
    """Goes along the text."""

    def __init__(self, text):
        self.text = text
        self.at = 0
        self.ends = [found.start() for found in re.finditer("\n", text)]

    def line(self):
        """The number of the line that is being read."""
        return bisect.bisect_left(self.ends, self.at) + 1

    def fail(self, why):
        """The text is no TOML here."""
        raise NotToml(self.line(), why)

    def take(self, pattern):
        """What stands here of this form, or nothing."""
        found = pattern.match(self.text, self.at)
        if found:
            self.at = found.end()
        return found

    def sees(self, text):
        """This stands here."""
        return self.text.startswith(text, self.at)

    def passes(self, text):
        """This stood here, and is read."""
        if not self.sees(text):
            return False
        self.at += len(text)
        return True

    def needs(self, text, why):
        """This must stand here."""
        if not self.passes(text):
            self.fail(why)

    # ---- the document

    def document(self):
        """The table of the whole text."""
        root = here = table(1, "header")
        while self.at < len(self.text):
            self.take(SPACE)
            if self.sees("["):
                here = self.header(root)
            elif not REST.match(self.text, self.at):
                self.member(here, "dotted")
            self.take(SPACE)
            if not self.take(REST):
                self.fail("more stands after what the line says, or a control character in it")
        return root

    def header(self, root):
        """The table that a [header] or [[header]] begins."""
        line, is_array = self.line(), self.text.startswith("[[", self.at)
        self.at += 2 if is_array else 1
        keys = self.keys()
        self.needs("]]" if is_array else "]", "the bracket of a table's name is not closed")
        for key in keys[:-1]:
            root = self.inner(root, key, line)
        return self.element(root, keys[-1], line) if is_array else self.begun(root, keys[-1], line)

    def inner(self, outer, key, line):
        """The table of this key on the way to another."""
        found = outer.held.get(key)
        if found is None:
            return self.keep(outer, key, table(line, "implied"), line)
        if found.kind == "array" and found.made == "headers":
            return found.held[-1]
        if found.kind != "table" or found.made == "inline":
            self.fail(f'"{key}" is no table that may have more members')
        return found

    def element(self, outer, key, line):
        """One more table of an array of tables."""
        found = outer.held.get(key)
        if found is None:
            found = self.keep(outer, key, Value("array", line, [], "headers"), line)
        if found.kind != "array" or found.made != "headers":
            self.fail(f'"{key}" stands already, as something else')
        found.held.append(table(line, "header"))
        return found.held[-1]

    def begun(self, outer, key, line):
        """A table that has this header alone."""
        found = outer.held.get(key)
        if found is None:
            return self.keep(outer, key, table(line, "header"), line)
        if found.kind != "table" or found.made != "implied":
            self.fail(f'"{key}" stands already')
        found.made, found.line = "header", line
        return found

    def keep(self, outer, key, value, line):
        """The value, which is a member now."""
        outer.held[key], outer.lines[key] = value, line
        return value

    def member(self, outer, made, deep=0):
        """A key and its value."""
        line, keys = self.line(), self.keys()
        self.needs("=", "there is no = after the key")
        self.take(SPACE)
        for key in keys[:-1]:
            found = outer.held.get(key)
            if found is None:
                found = self.keep(outer, key, table(line, made), line)
            if found.kind != "table" or found.made not in (made, "implied"):
                self.fail(f'"{key}" stands already')
            found.made = made
            outer = found
        if keys[-1] in outer.held:
            self.fail(f'"{keys[-1]}" stands already, at line {outer.lines[keys[-1]]}')
        self.keep(outer, keys[-1], self.value(deep + len(keys) - 1), line)

    def keys(self):
        """The keys of a dotted key."""
        found = [self.key()]
        while self.passes("."):
            found.append(self.key())
        if len(found) > DEEPEST:
            self.fail(f"keys are nested more than {DEEPEST} deep")
        return found

    def key(self):
        """One key, without the blanks round it."""
        self.take(SPACE)
        bare = self.take(BARE)
        if not bare and not self.sees('"') and not self.sees("'"):
            self.fail("a key is missing, or it has a character that only a quoted key may have")
        key = bare[0] if bare else self.short()
        self.take(SPACE)
        return key

    # ---- values

    def value(self, deep):
        """A value, within so many others."""
        line = self.line()
        if deep >= DEEPEST and (self.sees("[") or self.sees("{")) or deep > DEEPEST:
            self.fail(f"values are nested more than {DEEPEST} deep")
        if self.passes("["):
            return Value("array", line, self.elements(deep + 1))
        if self.passes("{"):
            return self.members(table(line, "inline"), deep + 1)
        if self.sees('"') or self.sees("'"):
            return Value("text", line, self.long() if self.sees('"""') or self.sees("'''") else self.short())
        return self.scalar(line)

    def elements(self, deep):
        """The elements of an array, up to its bracket."""
        found = []
        self.take(BLANK)
        while not self.passes("]"):
            found.append(self.value(deep))
            self.take(BLANK)
            if not self.passes(",") and not self.sees("]"):
                self.fail("an array is not closed, or a comma is missing in it")
            self.take(BLANK)
        return found

    def members(self, inline, deep):
        """An inline table with its members, up to its brace."""
        self.take(BLANK)
        while not self.passes("}"):
            self.member(inline, "inline open", deep)
            self.take(BLANK)
            if not self.passes(",") and not self.sees("}"):
                self.fail("an inline table is not closed, or a comma is missing in it")
            self.take(BLANK)
        return inline

    def scalar(self, line):
        """A number, a boolean, a date or a time."""
        begun = self.at
        word = self.take(WORD)
        word = word[0] if word else ""
        if " " in word and not DATE.match(word):
            word = word.partition(" ")[0]
            self.at = begun + len(word)
        if word in ("true", "false"):
            return Value("boolean", line, word == "true")
        if DECIMAL.fullmatch(word) or BASED.fullmatch(word):
            number = int(word.replace("_", ""), BASES.get(word[:2], 10))
            if number not in INTEGERS:
                self.fail(f"{word} does not fit 64 bits")
            return Value("integer", line, number)
        if FLOAT.fullmatch(word):
            number = float(word.replace("_", ""))
            if math.isinf(number) and "inf" not in word:
                self.fail(f"{word} is too large for a number")
            return Value("float", line, number)
        if is_time(word):
            return Value("time", line, word)
        return self.fail(f"{word or 'nothing'} is no value: a text stands between quotes")

    def short(self):
        """A text of one line, between quotes."""
        if not self.passes('"'):
            found = self.take(LITERAL)
            return found[1] if found else self.fail("a text is not closed in its line, or has a control character")
        text = ""
        while not self.passes('"'):
            plain = self.take(PLAIN)
            text += plain[0] if plain else self.escape()
        return text

    def long(self):
        """A text of several lines, between three quotes."""
        if not self.passes('"""'):
            found = self.take(LONG_LITERAL)
            return found[1] if found else self.fail("a text is not closed, or has a control character")
        self.take(NEWLINE)
        text = ""
        while not self.passes('"""'):
            plain = self.take(LONG_PLAIN)
            if plain:
                text += plain[0]
            elif not self.take(LINE_ENDING):
                text += self.escape()
        return text + self.take(QUOTES)[0]

    def escape(self):
        """What an escape stands for."""
        self.needs("\\", "a text is not closed in its line, or has a control character")
        letter = self.text[self.at:self.at + 1]
        self.at += 1
        if letter in ESCAPES and letter:
            return ESCAPES[letter]
        digits = self.take(re.compile("[0-9A-Fa-f]{%d}" % CODES[letter])) if letter in CODES else None
        code = int(digits[0], 16) if digits else -1
        if not (0 <= code < 0xd800 or 0xe000 <= code <= 0x10ffff):
            self.fail(f"\\{letter} is no escape")
        return chr(code)


def is_time(word):
    """A date, a time, or both, with an offset or without."""
    date = DATE.match(word)
    rest = word[date.end():] if date else word
    try:
        if date:
            datetime.date(int(date[1]) or 4, int(date[2]), int(date[3]))
    except ValueError:
        return False
    if date and not rest:
        return word[-1] not in "Tt "
    time = TIME.match(rest)
    if not time or int(time[1]) > 23 or int(time[2]) > 59 or int(time[3] or 0) > 60:
        return False
    rest = rest[time.end():]
    offset = OFFSET.fullmatch(rest)
    return not rest or bool(date and offset and int(offset[1] or 0) < 24 and int(offset[2] or 0) < 60)


def read(text):
    """The document of a text."""
    return Reader(text.removeprefix("\ufeff")).document()
