"""Tells in words why a document is refused: the first rule that it fails, as the program does, and then the others."""
import pathlib
import re
import textwrap

from explaining import rules, statements
from explaining.mistakes import mistake_at
from explaining.near import quoted, shown
from explaining.reader import NotToml, line_and_column, read

FORMAT = pathlib.Path(__file__).resolve().parent.parent.parent / "docs" / "FORMAT.md"
MOST_ALSO = 6  # further places of one rule that are told
MOST_JUDGED = 50  # places of one rule at which it is asked what is wrong
WIDTH = 110
# The lines that the program writes for something other than a document.
OTHER_LINES = {
    "usage": "The words behind `antipode` are none that it knows. They are `step`, `json`, `run`, `session`, `doctor`, `place`, `review`, `counterexample`,"
             " or `load N` with N from 1 to 400. The document comes by standard input: `antipode place < DOCUMENT`.",
    "read fault": "Standard input could not be read: it is closed, or a directory.",
    "write fault": "Standard output took no more: it is closed, full, or nobody reads it.",
    "no memory": "The system had no memory left for it. Nothing was written, and nothing is wrong with the document as far as it was read.",
}
ANOTHER = "the line may be of another document, or of an earlier state of this one."
NO_FURTHER = "    What is no TOML can't be judged further: mend this, and ask again."
RIGHT = """nothing is wrong with it
    It keeps all rules, and each of its choices has a form and names what is there. `antipode place` tells now whether
    its barriers stand where they must, `antipode review` all lines at which something is missing, and
    `antipode counterexample` looks for choices by which a read misses a write.
"""


def rule_texts():
    """The rules in words, as docs/FORMAT.md has them."""
    section = FORMAT.read_text(encoding="utf-8").split("### Rules", 1)[1].split("\n### ", 1)[0]
    found = re.findall(r"^(\d+)\. (.*(?:\n {4}.*)*)", section, re.MULTILINE)
    return {int(number): alone(" ".join(text.split())) for number, text in found}


def alone(text):
    """The words of a rule, so that they can be read without the page."""
    return text.replace(" (below)", "").replace("the key table", "the key table of docs/FORMAT.md")


# ---- lines of the output

def wrapped(label, text):
    """A text behind a label, in lines that are not too long."""
    return textwrap.wrap(text, WIDTH, initial_indent=f"    {label}", subsequent_indent="        ", break_long_words=False, break_on_hyphens=False)


class Source:
    """The text of a document, and the lines of its things."""

    def __init__(self, text):
        self.text, self.lines = text, text.split("\n")

    def line_of(self, node):
        return line_and_column(self.text, node.at)[0]

    def quote(self, number, column=1):
        """A line of the file with its number, cut round a column where it is long."""
        line = self.lines[number - 1].rstrip("\r").lstrip("\ufeff")
        begun = max(0, min(column - 40, len(line) - 90)) if len(line) > 95 else 0
        front = ".." if begun else ""
        return f"    line {number}: {front}{shown(line[begun:], 95)}"

    def quote_node(self, node):
        return self.quote(*line_and_column(self.text, node.at))


# ---- places

def named(name):
    return f", {quoted(name)}" if name else ""


def place_in_words(document, part, item, line=0):
    """A place of a document in words, or none where it has no such thing."""
    thing = document.thing(part, item)
    if thing is None or line > len(thing.body):
        return None
    if line:
        return f"line {line} of the body of the {place_in_words(document, part, item)}"
    if part == "top":
        return "the top of the document"
    if part == "handler":
        return f"handler {quoted(thing.name)} of the service {quoted(thing.service.name)} (handler {item} of the document)"
    if part in ("region", "choice"):
        return f"{part} {item}{named(rules.text_of(thing.node))}"
    if part == "request":
        return f"request {item}, to the handler {quoted(thing.text('handler'))} of the service {quoted(thing.text('service'))}"
    return f"{part} {item}{named(thing.name)}"


# ---- what is told

class Telling:
    """What is told of a document whose text is TOML."""

    def __init__(self, text):
        self.source = Source(text)
        self.document = rules.Document(read(text))
        self.found = list(rules.failures(self.document))
        self.texts = rule_texts()
        self.told, self.seen, self.out, self.also, self.rule = set(), set(), [], 0, 0

    def refusal(self):
        """The line with which the document is refused, or none."""
        if self.found:
            return rules.refusal(self.found[0])
        choices = rules.bad_choices(self.document)
        return f"choice {choices[0]}" if choices else None

    def tell(self):
        """Tells all rules that fail: once something can be mended with certainty, what follows is told of the document as it was meant."""
        left = self.found
        while left:
            number = left[0][0]
            if self.tell_places([place for place in left if place[0] == number]):
                self.document = rules.Document(self.document.root)
                left = [place for place in rules.failures(self.document) if place not in self.seen]
            else:
                left = [place for place in left if place[0] != number]
        self.end_also()
        self.tell_choices()
        self.tell_followers()

    def tell_places(self, places):
        """Tells the places at which one rule fails, and whether something was mended there."""
        mended = False
        self.seen.update(places)
        for place in places[:MOST_JUDGED]:
            mistake = mistake_at(self.document, place, self.source.line_of)
            if mistake.sentences:
                self.told.add(place)
                self.tell_place(place, mistake)
                if mistake.mend:
                    mistake.mend()
                    mended = True
        if self.rule == places[0][0]:
            self.also += len(places[MOST_JUDGED:])
        return mended

    def tell_place(self, place, mistake):
        if place[0] == self.rule:
            return self.tell_also(mistake)
        self.end_also()
        self.rule = place[0]
        self.head(rules.refusal(place))
        self.out += wrapped("where: ", place_in_words(self.document, *place[1:]) + ".")
        self.tell_mistake(mistake, self.document.thing(*place[1:3]), place[3])
        self.out += wrapped(f"rule {place[0]}: ", self.texts.get(place[0], "docs/FORMAT.md has no rule of this number."))

    def head(self, line):
        self.out.append(f"further: {line}" if self.out else line)

    def tell_mistake(self, mistake, thing, line):
        """The line of the file, the statement where it is not all of that, and the mistake."""
        self.out.append(self.source.quote_node(mistake.node))
        text = rules.text_of(thing.body[line - 1]) if line else ""
        if text and self.source.lines[self.source.line_of(mistake.node) - 1].strip().strip("\"',") != text:
            self.out += wrapped("statement: ", shown(text))
        self.out += wrapped("mistake: ", " ".join(mistake.sentences))

    def tell_also(self, mistake):
        """A further place of the same rule, as long as there are few."""
        self.also += 1
        if self.also <= MOST_ALSO:
            self.out += wrapped(f"also line {self.source.line_of(mistake.node)}: ", mistake.sentences[0])

    def end_also(self):
        if self.also > MOST_ALSO:
            self.out.append(f"    and at {self.also - MOST_ALSO} more places")
        self.also = 0

    def tell_choices(self):
        choices, wrong = rules.elements(self.document.root.get("choices")), rules.bad_choices(self.document)
        for number in wrong[:MOST_ALSO + 1]:
            node = choices[number - 1]
            said = statements.why_no_choice(self.document, node.of)
            if number != wrong[0]:
                self.out += wrapped(f"also choice {number}, line {self.source.line_of(node)}: ", said[0])
                continue
            self.head(f"choice {number}")
            self.out += wrapped("where: ", place_in_words(self.document, "choice", number) + ".")
            self.out.append(self.source.quote_node(node))
            self.out += wrapped("mistake: ", " ".join(said))
            self.out += wrapped("rule: ", "Each choice has one of the forms, and names what is there.")
        self.also = len(wrong) - 1 if wrong else 0
        self.end_also()

    def tell_followers(self):
        """What fails too, and goes away once the rest is mended."""
        rest = [place for place in self.found if place not in self.told]
        numbers = {place[0] for place in self.told}
        first = list({place[0]: rules.refusal(place) for place in reversed(rest) if place[0] not in numbers}.values())[::-1]
        if first:
            self.out += textwrap.wrap(f"these fail too, and may go away with the rest: {', '.join(first)}", WIDTH)


def no_text(data, fault):
    """That bytes are no UTF-8, and where."""
    before = data[:fault.start]
    line, column = before.count(b"\n") + 1, fault.start - before.rfind(b"\n")
    quote = Source(data.decode("utf-8", "backslashreplace")).quote(line, column)
    said = f"At line {line}, byte {column}: the byte 0x{data[fault.start]:02X} is no UTF-8. Save the file as UTF-8."
    return ["not toml", quote, *wrapped("mistake: ", said), NO_FURTHER]


def no_toml(text, fault):
    """That a text is no TOML, and where."""
    line, column = line_and_column(text, fault.at)
    said = f"At line {line}, column {column}: {fault.says}."
    return ["not toml", Source(text).quote(line, column), *wrapped("mistake: ", said), NO_FURTHER]


def too_long(data):
    return ["too long", f"    The document has {len(data)} bytes, and at most {rules.LONGEST_DOCUMENT} are read.",
            "    It may have fewer requests: `antipode load N` plays a load of N, without a document."]


def told(data):
    """The line with which a document is refused, or none, and the lines that explain it."""
    if len(data) > rules.LONGEST_DOCUMENT:
        return "too long", too_long(data)
    try:
        text = data.decode("utf-8")
        telling = Telling(text)
    except UnicodeDecodeError as fault:
        return "not toml", no_text(data, fault)
    except NotToml as fault:
        return "not toml", no_toml(text, fault)
    line = telling.refusal()
    if line:
        telling.tell()
    return line, telling.out


def only_the_line(data, line):
    """What a line says of a document of which nothing is found to be wrong."""
    says = [line, f"    Here nothing is found to be wrong: {ANOTHER}"]
    place = re.fullmatch(r"(?:app (\d+)|(choice)) (?:(\w+) )?(\d+)(?: (\d+))?", line)
    if place:
        document = rules.Document(read(data.decode()))
        where = place_in_words(document, place[2] or place[3], int(place[4]), int(place[5] or 0))
        says += wrapped("where: ", where + "." if where else "there is no such place in this document.")
    if place and place[1]:
        says += wrapped(f"rule {place[1]}: ", rule_texts().get(int(place[1]), "docs/FORMAT.md has no rule of this number."))
    return says


def explained(data, line=None):
    """What is said of a document, with the line with which it is said to be refused, and the status: 1 where something is explained, 0 where
    nothing is wrong."""
    if line in OTHER_LINES:
        return "\n".join([line] + wrapped("", OTHER_LINES[line])) + "\n", 1
    found, says = told(data)
    if found is None:
        return ("\n".join(only_the_line(data, line)) + "\n", 1) if line else (RIGHT, 0)
    if line and line != found:
        says = [f"{shown(line)}", f"    Here something else is found to be wrong: {ANOTHER}"] + says
    return "\n".join(says) + "\n", 1
