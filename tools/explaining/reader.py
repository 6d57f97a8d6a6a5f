"""Reads the text of a document as TOML 1.1, as the program does, and keeps for each thing where it stands.

Python's own `tomllib` tells no lines of what it has read, and reads TOML 1.0: it refuses an inline table over several lines, which the program takes.
"""
import math
import re

from explaining.near import quoted, shown

MOST_NESTED = 80  # arrays and inline tables in one another, and parts of a key
BARE = re.compile(r"[A-Za-z0-9_-]+")
WORD = re.compile(r"[A-Za-z0-9_+.:-]*")
BLANK = re.compile(r"(?:[ \t]|\r?\n|#[^\x00-\x08\x0a-\x1f\x7f]*(?=\r?\n|\Z))*")
NO_TEXT = re.compile(r"[\x00-\x08\x0a-\x1f\x7f]")
ESCAPES = {"b": "\b", "e": "\x1b", "f": "\f", "n": "\n", "r": "\r", "t": "\t", '"': '"', "\\": "\\"}
HEX_DIGITS = {"x": 2, "u": 4, "U": 8}
DATE = r"(\d\d\d\d)-(\d\d)-(\d\d)"
TIME = r"(\d\d):(\d\d)(?::(\d\d)(?:\.\d+)?)?"
OFFSET = r"(?:[Zz]|[+-](\d\d):(\d\d))"
DATED = re.compile(rf"{DATE}(?:[Tt ]{TIME}{OFFSET}?)?", re.ASCII)
TIMED = re.compile(TIME, re.ASCII)
INTEGER = re.compile(r"[+-]?(?:0|[1-9](?:_?[0-9])*)")
PREFIXED = re.compile(r"0x[0-9A-Fa-f](?:_?[0-9A-Fa-f])*|0o[0-7](?:_?[0-7])*|0b[01](?:_?[01])*")
FLOAT = re.compile(r"[+-]?(?:0|[1-9](?:_?[0-9])*)(?:\.[0-9](?:_?[0-9])*)?(?:[eE][+-]?[0-9](?:_?[0-9])*)?")
QUOTES = ('"', "'")
ODD_QUOTES = tuple("\u201c\u201d\u201e\u00ab\u00bb\u2018\u2019`")
ODD_QUOTE = "this is no quotation mark of TOML: write \" or '"
NEXT_LINE = re.compile(r"\[\[?\s*(?!true\b|false\b|inf\b|nan\b)[A-Za-z_][A-Za-z0-9_.-]*\s*\]|[A-Za-z0-9_.-]+\s*=")


class NotToml(Exception):
    """The first place at which a text is no TOML, and what is wrong there."""

    def __init__(self, at, says):
        super().__init__(says)
        self.at, self.says = at, says


class Node:
    """A thing of a document: its kind, what it is, where it stands, and what made it where it is a table or an array."""

    def __init__(self, kind, of, at, made="value"):
        self.kind, self.of, self.at, self.made = kind, of, at, made

    def get(self, key):
        """What stands at a key, of a table."""
        return self.of.get(key) if self.kind == "table" else None

    def copy(self):
        """The same thing, so that it can be changed and this one stays."""
        if self.kind == "table":
            return Node(self.kind, {key: node.copy() for key, node in self.of.items()}, self.at, self.made)
        if self.kind == "array":
            return Node(self.kind, [node.copy() for node in self.of], self.at, self.made)
        return Node(self.kind, self.of, self.at, self.made)


def line_and_column(text, at):
    """The number of the line in which a place of a text is, and that of its column, both counted from 1."""
    return text.count("\n", 0, at) + 1, at - text.rfind("\n", 0, at)


class Reader:
    """Goes through a text once, from its front."""

    def __init__(self, text):
        self.text, self.at = text, 0

    def front(self, count=1):
        return self.text[self.at:self.at + count]

    def takes(self, word):
        """Whether a word stands at the front, which then is passed."""
        if not self.text.startswith(word, self.at):
            return False
        self.at += len(word)
        return True

    def skip_spaces(self):
        while self.front() in (" ", "\t"):
            self.at += 1

    def skip_blank(self):
        self.at = BLANK.match(self.text, self.at).end()

    def rest_of_line(self):
        return self.text[self.at:].split("\n", 1)[0].rstrip("\r")

    # ---- texts

    def hex_escape(self, count):
        digits = self.front(count)
        if not re.fullmatch(rf"[0-9A-Fa-f]{{{count}}}", digits) or not is_character(int(digits, 16)):
            raise NotToml(self.at, f"behind this `\\` stand {count} hexadecimal digits that name a character")
        self.at += count
        return chr(int(digits, 16))

    def escape(self, many):
        """What a backslash at the front stands for."""
        begun = self.at
        self.at += 1
        if many and (cut := re.compile(r"[ \t]*\r?\n(?:[ \t]|\r?\n)*").match(self.text, self.at)):
            self.at = cut.end()
            return ""
        letter = self.front()
        self.at += 1
        if letter in HEX_DIGITS:
            return self.hex_escape(HEX_DIGITS[letter])
        if letter in ESCAPES:
            return ESCAPES[letter]
        raise NotToml(begun, "`\\` and this letter stand for nothing: write `\\\\` for one backslash, or '..' round the text in place of \"..\"")

    def text_of_one_line(self):
        begun, mark, found = self.at, self.front(), []
        self.at += 1
        while not self.takes(mark):
            letter = self.front()
            if letter in ("", "\n") or self.front(2) == "\r\n":
                raise NotToml(begun, f"the text that begins here has no closing {mark} in its line")
            found.append(self.one_letter(mark, False))
        return "".join(found)

    def one_letter(self, mark, many):
        letter = self.front()
        if letter == "\\" and mark == '"':
            return self.escape(many)
        if NO_TEXT.match(letter):
            raise NotToml(self.at, f"this character, number {ord(letter)}, may not stand in a text")
        self.at += 1
        return letter

    def text_of_lines(self):
        begun, mark, found = self.at, self.front(), []
        self.at += 3
        self.takes("\n") or self.takes("\r\n")
        while True:
            if not self.front():
                raise NotToml(begun, f"the text that begins here with {mark * 3} is never closed")
            count = len(re.compile(re.escape(mark) + "*").match(self.text, self.at).group())
            if count == 3:
                self.at += 3
                return "".join(found)
            if count > 5:
                raise NotToml(self.at, "these are too many quotation marks")
            if count or self.front() == "\n":
                found.append(self.front())
                self.at += 1
            elif self.front(2) == "\r\n":
                found.append("\r\n")
                self.at += 2
            else:
                found.append(self.one_letter(mark, True))

    # ---- keys

    def key_part(self):
        if self.front() in QUOTES:
            return self.text_of_one_line()
        bare = BARE.match(self.text, self.at)
        if not bare:
            raise NotToml(self.at, self.no_key())
        self.at = bare.end()
        return bare.group()

    def no_key(self):
        """Why no key stands at the front."""
        if self.front() in ODD_QUOTES:
            return ODD_QUOTE
        if self.front() in ("]", "}", ","):
            return f"this `{self.front()}` belongs to no list and no table"
        if self.front() == "#":
            return "in this comment stands a character that is no text"
        if self.front() == "=":
            return "before this `=` the key is missing"
        if self.front() in ("/", ";"):
            return "a comment begins with `#`"
        if self.front() == "{":
            return "here a key should stand: this is TOML and no JSON, so no brace stands round a document"
        return "here a key should stand: letters, digits, `_` and `-`"

    def key(self):
        parts = [self.key_part()]
        self.skip_spaces()
        while self.front() == ".":
            if len(parts) == MOST_NESTED:
                raise NotToml(self.at, f"a key has at most {MOST_NESTED} parts")
            self.at += 1
            self.skip_spaces()
            parts.append(self.key_part())
            self.skip_spaces()
        return parts

    def key_and_equals(self):
        key = self.key()
        if not self.takes("="):
            raise NotToml(self.at, self.no_equals(key))
        self.skip_spaces()
        return key

    def no_equals(self, key):
        name = ".".join(key)
        if self.front() == ":":
            return f"behind the key {quoted(name)} stands `:`; a key and its value have `=` between them"
        return f"behind the key {quoted(name)} there is no `=`"

    # ---- values

    def value(self, depth=MOST_NESTED):
        begun = self.at
        if self.front() in ("[", "{"):
            if not depth:
                raise NotToml(self.at, f"lists and tables stand in one another at most {MOST_NESTED} times")
            return self.array(depth) if self.front() == "[" else self.inline_table(depth)
        if self.front() in QUOTES:
            many = self.front() * 3 == self.front(3)
            return Node("text", self.text_of_lines() if many else self.text_of_one_line(), begun)
        return self.plain_value()

    def after_element(self, closing, begun):
        """Passes a comma behind an element of what began there; else this has to be closed."""
        behind = self.at
        self.skip_blank()
        if self.front() != closing and not self.takes(","):
            raise NotToml(*self.not_closed(closing, begun, behind))

    def not_closed(self, closing, begun, behind):
        """Where and why something should be closed: only a comma is missing where a further element follows."""
        line = line_and_column(self.text, begun)[0]
        what = {"]": "list", "}": "table"}[closing]
        same_line = "\n" not in self.text[behind:self.at]
        further = self.front() in QUOTES + ("{",) if closing == "]" else same_line and NEXT_LINE.match(self.text, self.at)
        if further:
            return behind, f"here a comma is missing between two elements of the {what} that begins at line {line}"
        return behind, f"here `{closing}` is missing: the {what} that begins at line {line} is not closed"

    def no_new_line(self, closing, begun):
        """Inside brackets stands no header, and in a list no key: what begins there is not closed."""
        fresh = "\n" in self.text[self.text.rfind(",", begun, self.at):self.at]
        if not self.front() or fresh and closing == "]" and NEXT_LINE.match(self.text, self.at):
            raise NotToml(begun, f"what begins here is not closed: a `{closing}` is missing")

    def array(self, depth):
        begun, found = self.at, []
        self.at += 1
        while True:
            self.skip_blank()
            if self.takes("]"):
                return Node("array", found, begun)
            self.no_new_line("]", begun)
            found.append(self.value(depth - 1))
            self.after_element("]", begun)

    def inline_table(self, depth):
        begun, table = self.at, Node("table", {}, self.at, "inline")
        self.at += 1
        while True:
            self.skip_blank()
            if self.takes("}"):
                return table
            self.no_new_line("}", begun)
            at = self.at
            key = self.key_and_equals()
            put(table, key, self.value(depth - 1), at, self.text)
            self.after_element("}", begun)

    def plain_value(self):
        begun = self.at
        end = WORD.match(self.text, begun).end()
        if re.compile(r" [0-9]").match(self.text, end):
            end = WORD.match(self.text, end + 1).end()
        node = plain_node(self.text[begun:end], begun)
        if node is None:
            raise NotToml(begun, self.no_value())
        self.at = end
        return node

    def no_value(self):
        """Why no value stands at the front."""
        rest = self.rest_of_line()
        word = re.split(r"[,\]}#]", rest, maxsplit=1)[0].strip()
        if not word:
            return "here a value is missing"
        if word[0] in ODD_QUOTES:
            return ODD_QUOTE
        if word[0] == "=":
            return "one `=` stands between a key and its value"
        if re.fullmatch(r"[+-]?[0-9][0-9_]*", word):
            return f"{quoted(word)} is no number of TOML: no zero stands in front of others, and it is below 2^63"
        plain = word.replace("\\", "").replace('"', "")
        return f"{quoted(word)} is no value. A text stands in quotation marks: \"{shown(plain, 60)}\""

    # ---- lines

    def ends_line(self):
        """What stands behind a header or a value has to be a comment, or the end of the line."""
        self.skip_spaces()
        front = self.front()
        if front in ("", "#", "\n", "\r"):
            return
        raise NotToml(self.at, self.too_much())

    def too_much(self):
        """Why nothing may stand at the front, behind a header or a value."""
        rest = self.rest_of_line().strip()
        if rest == ",":
            return "no comma stands at the end of a line with a key and its value"
        if rest[-1] in QUOTES and "=" not in rest:
            return f"the text ends before {quoted(rest)}: one that has a \" in it stands between ' and ', and one that has a ' between \" and \""
        return f"{quoted(rest)} stands behind what is complete: a line has a header, or one key with one value, and nothing behind it but a comment"

    def header(self):
        """A key in brackets, and whether these are double."""
        double = self.front(2) == "[["
        begun = self.at
        self.at += 2 if double else 1
        self.skip_spaces()
        key = self.key()
        if not self.takes("]]" if double else "]"):
            raise NotToml(begun, f"this header is not closed by `{']]' if double else ']'}`")
        return key, double, begun

    def document(self):
        root, section = Node("table", {}, 0, "header"), []
        self.takes("\ufeff")
        while True:
            self.skip_blank()
            if not self.front():
                return root
            if self.front() == "[":
                key, double, begun = self.header()
                self.ends_line()
                define_header(root, key, double, begun, self.text)
                section = key
            else:
                self.pair(root, section)

    def pair(self, root, section):
        begun = self.at
        key = self.key_and_equals()
        value = self.value()
        self.ends_line()
        put(section_of(root, section), key, value, begun, self.text)


def is_character(number):
    """Whether a character of Unicode has this number."""
    return number < 0xD800 or 0xE000 <= number <= 0x10FFFF


def plain_node(word, at):
    """The truth value, the date or the number that a word is, or none."""
    if word in ("true", "false"):
        return Node("boolean", word == "true", at)
    if re.match(r"[0-9]+[-:]", word):
        return Node("date", word, at) if is_date(word) else None
    if re.fullmatch(r"[+-]?(inf|nan)", word):
        return Node("float", float(word), at)
    number = int(word.replace("_", ""), 0) if PREFIXED.fullmatch(word) else int(word.replace("_", "")) if INTEGER.fullmatch(word) else None
    if number is not None:
        return Node("integer", number, at) if -2 ** 63 <= number < 2 ** 63 else None
    if FLOAT.fullmatch(word) and math.isfinite(float(word.replace("_", ""))):
        return Node("float", float(word.replace("_", "")), at)
    return None


def is_date(word):
    """Whether a word is a date, a time, or both."""
    if word[2:3] == ":":
        found = TIMED.fullmatch(word)
        return bool(found) and is_time(*found.groups())
    found = DATED.fullmatch(word)
    if not found:
        return False
    year, month, day, *time = (int(part) if part else None for part in found.groups())
    leap = year % 4 == 0 and (year % 100 != 0 or year % 400 == 0)
    days = [31, 29 if leap else 28, 31, 30, 31, 30, 31, 31, 30, 31, 30, 31]
    if not (1 <= month <= 12 and 1 <= day <= days[month - 1]):
        return False
    return (time[0] is None or is_time(*time[:3])) and (time[3] is None or time[3] < 24 and time[4] < 60)


def is_time(hour, minute, second):
    return int(hour) < 24 and int(minute) < 60 and int(second or 0) <= 60


# ---- tables

def section_of(table, path):
    """The table of a header that was read."""
    for part in path:
        table = last_of(table.of[part])
    return table


def last_of(node):
    """A table itself, or the last element of an array of tables."""
    return node.of[-1] if node.kind == "array" else node


def put(table, key, value, at, text):
    """Puts a value at a key, whose parts before the last name tables that other keys with dots may have made, and no header."""
    for part in key[:-1]:
        inner = table.of.setdefault(part, Node("table", {}, at, "dotted"))
        if inner.made not in ("implicit", "dotted"):
            raise NotToml(at, f"{quoted(part)} is complete already, so nothing can be put into it by a dot")
        inner.made = "dotted"
        table = inner
    if key[-1] in table.of:
        first = line_and_column(text, table.of[key[-1]].at)[0]
        raise NotToml(at, f"the key {quoted(key[-1])} is in this table already, from line {first}")
    table.of[key[-1]] = value


def define_header(root, key, double, at, text):
    """Makes the table of a header, or one more element of an array of tables."""
    table = root
    for part in key[:-1]:
        inner = table.of.setdefault(part, Node("table", {}, at, "implicit"))
        if inner.made in ("value", "inline"):
            raise NotToml(at, complete(part, line_and_column(text, inner.at)[0]))
        table = last_of(inner)
    found = table.of.get(key[-1])
    if found is None:
        new = Node("table", {}, at, "header")
        table.of[key[-1]] = Node("array", [new], at, "headers") if double else new
    elif double and found.made == "headers":
        found.of.append(Node("table", {}, at, "header"))
    elif not double and found.made == "implicit":
        found.made, found.at = "header", at
    else:
        raise NotToml(at, not_again(".".join(key), double, found, line_and_column(text, found.at)[0]))


def not_again(name, double, found, line):
    """Why a header may not stand where its key holds something already."""
    if double and found.made == "header":
        return f"line {line} begins one table `[{name}]`, and here is one of several: write `[[{name}]]` there too"
    if double and found.made == "implicit":
        return f"line {line} puts something into `{name}` before its first `[[{name}]]`: it belongs below that"
    if not double and found.made in ("header", "headers"):
        return f"`{name}` begins at line {line} already. Each of several tables begins with `[[{name}]]`"
    return complete(name, line)


def complete(name, line):
    return f"{quoted(name)} is complete at line {line}, so no header can add to it: write all of it there, or all of it by headers"


def read(text):
    """The table that a text is."""
    return Reader(text).document()
