"""The rules of docs/FORMAT.md, one by one, over a document that was read: where each fails. It shares nothing with the program."""
import functools
import re

LONGEST_DOCUMENT = 262_144
LONGEST_VALUE = 256
MOST_LINES, MOST_BLOCKS, MOST_TURNS, MOST_RUNS = 64, 4, 16, 256
MOST_COUNTED = 4096

# Of each part its keys: what stands there, whether it has to be there, and the least and the most of a number or of elements.
TEXT = ("text", True, 0, 0)
KEYS = {
    "top": {
        "regions": ("list", True, 1, 8), "seed": ("integer", False, 0, 2 ** 63 - 1), "workers": ("integer", False, 1, 8),
        "choices": ("list", False, 0, 4096), "store": ("list", False, 0, 16), "service": ("list", False, 0, 16),
        "sub": ("list", False, 0, 32), "request": ("list", False, 0, 400),
    },
    "store": {"name": TEXT, "kind": TEXT, "replicas": ("texts", True, 1, 8), "tries": ("integer", False, 1, 8), "room": ("integer", False, 1, 64)},
    "service": {"name": TEXT, "region": TEXT, "handler": ("list", False, 0, 16)},
    "handler": {"name": TEXT, "body": ("list", True, 0, MOST_LINES)},
    "sub": {"name": TEXT, "store": TEXT, "channel": TEXT, "service": TEXT, "handler": TEXT},
    "request": {"service": TEXT, "handler": TEXT, "value": ("text", False, 0, 0)},
}
# What the stores of a kind allow.
KINDS = {
    "kv": {"read"}, "table": {"read", "scan"}, "blob": {"read"}, "queue": {"sub", "tries"}, "topic": {"poll", "sub"}, "cached": {"read", "room"},
}


# ---- words and names

def size(text):
    """How many bytes a text has."""
    return len(text.encode())


def words_of(text):
    """The words of a line: what stands between spaces."""
    return [word for word in text.split(" ") if word]


def is_plain(text):
    return re.fullmatch(r"[A-Za-z0-9_-]{1,24}", text) is not None


def is_name(text):
    return re.fullmatch(r"[A-Za-z0-9_#-]{1,32}", text) is not None


def is_variable(text):
    return is_plain(text) and text != "in"


def is_value(word):
    """Whether a word may stand where a value is wanted."""
    if word.startswith("$"):
        return word == "$in" or is_variable(word[1:])
    return 0 < size(word) <= LONGEST_VALUE and not re.search(r"[\x00-\x20\x7f]", word)


def is_key(word, plain=is_plain):
    """Whether a word may stand where a key is wanted."""
    return word == "$in" or is_variable(word[1:]) if word.startswith("$") else plain(word)


def is_number(word, most):
    """Whether a word is a number from 1 on, in decimal without a zero in front."""
    return re.fullmatch(r"[1-9][0-9]{0,18}", word) is not None and int(word) <= most


# ---- statements

# What a word of a form has to be. A word that stands in a form as it is, as `as`, is no name of a test.
TESTS = {
    "S": is_plain, "SV": is_plain, "H": is_plain, "P": is_plain, "X": is_variable, "V": is_value,
    "K": is_key, "C": lambda word: is_key(word, is_name), "N": lambda word: is_number(word, MOST_TURNS),
}
# The forms of the statements. `C` is the key of a `poll`, which may have a `#`.
FORMS = [form.split() for form in (
    "write S K V", "write S K V as X", "write S K V as X untracked", "append X", "remove X", "read S K as X", "scan S P as X", "poll S C as X",
    "transfer X", "barrier", "dryrun", "call SV H V as X", "send SV H V", "reply V", "nack", "root", "stop", "repeat N", "if X absent", "end")]
STATEMENTS = list(dict.fromkeys(form[0] for form in FORMS))


def fits(form, words):
    """Whether words have a form."""
    return len(form) == len(words) and form[0] == words[0] and all(
        TESTS[wanted](word) if wanted in TESTS else wanted == word for wanted, word in zip(form[1:], words[1:]))


class Line:
    """A line of a body that is a statement: its words, and which of them is what."""

    def __init__(self, form, words):
        self.form, self.words, self.first = form, words, words[0]
        self.at = dict(zip(form, words))

    def get(self, *slots):
        """The word at the first of these slots that the form has."""
        return next((self.at[slot] for slot in slots if slot in self.at), None)

    def sets(self):
        """The variable that the line sets, with what it then holds."""
        kinds = {"write": "write", "read": "rows", "scan": "rows", "poll": "rows", "call": "reply"}
        return (self.at["X"], kinds[self.first]) if self.first in kinds and "X" in self.at else None

    def uses(self):
        """Each variable that the line uses, with what it has to hold; none where anything will do."""
        wanted = {"append": "write", "remove": "write", "transfer": "rows", "if": "rows"}
        if self.first in wanted:
            return [(self.at["X"], wanted[self.first])]
        taken = [self.get("K", "C"), self.get("V")]
        return [(word[1:], None) for word in taken if word and word.startswith("$") and word != "$in"]


@functools.lru_cache(maxsize=4096)
def line_of(text):
    """The statement that a line is, or none."""
    words = words_of(text)
    form = next((form for form in FORMS if words and fits(form, words)), None)
    return Line(form, words) if form else None


# ---- blocks and variables

def closes(lines, opened):
    """Whether the block that a line opens has its `end`."""
    depth = 1
    for line in lines[opened + 1:]:
        depth += {"repeat": 1, "if": 1, "end": -1}.get(line.first, 0)
        if not depth:
            return True
    return False


def block_fault(lines):
    """The number of the first line whose block is wrong, counted from 1, with the word for what is wrong; or none."""
    runs = []  # of each open block, how often its lines run
    for at, line in enumerate(lines):
        times = runs[-1] if runs else 1
        if line.first in ("repeat", "if"):
            if not closes(lines, at):
                return at + 1, "open"
            if len(runs) == MOST_BLOCKS:
                return at + 1, "deep"
            runs.append(times * int(line.at.get("N", 1)))
            if line.first == "repeat" and runs[-1] > MOST_RUNS:
                return at + 1, "often"
        elif line.first == "end":
            if not runs:
                return at + 1, "end"
            runs.pop()
        elif line.first in ("root", "stop"):
            if runs:
                return at + 1, "inside"
            if line.first == "stop" and at + 1 < len(lines) and lines[at + 1].first != "root":
                return at + 1, "stop"
    return None


def variable_fault(lines):
    """The number of the first line that is wrong about a variable, counted from 1, with the variable, what it should hold and what it does; or none."""
    reach, every = [{}], {}  # of each open block what may be used in it, the innermost last; and all that is set
    for at, line in enumerate(lines):
        new = line.sets()
        if new and new[0] in every:
            return at + 1, new[0], "nothing", every[new[0]]
        for name, wanted in line.uses():
            if name not in reach[-1] or wanted and reach[-1][name] != wanted:
                return at + 1, name, wanted, reach[-1].get(name)
        if line.first in ("repeat", "if"):
            reach.append(dict(reach[-1]))
        elif line.first == "end":
            reach.pop()
        elif line.first in ("root", "stop"):
            reach[-1] = {}
        elif new:
            reach[-1][new[0]] = new[1]
            every[new[0]] = new[1]
    return None


# ---- things

def text_of(node):
    """The text that a thing is; empty where it is none."""
    return node.of if node is not None and node.kind == "text" else ""


def elements(node):
    """The elements of a thing; none where it is no array."""
    return node.of if node is not None and node.kind == "array" else []


class Thing:
    """A thing with a place of its own: its part, its number there, those of its part before it, and the service that a handler belongs to."""

    def __init__(self, part, item, node, earlier, service=None):
        self.part, self.item, self.node, self.earlier, self.service = part, item, node, earlier, service

    def text(self, key):
        return text_of(self.node.get(key))

    def has_text(self, *keys):
        """Whether texts stand at these keys."""
        return all(self.node.get(key) is not None and self.node.get(key).kind == "text" for key in keys)

    @property
    def name(self):
        return self.text("name")

    @property
    def body(self):
        return elements(self.node.get("body"))

    @property
    def home(self):
        """The region of the service of a handler."""
        return self.service.text("region") if self.service else ""

    def lines(self):
        """The statements of a body, none where a line is no statement."""
        return [line_of(text_of(node)) for node in self.body]


class Document:
    """A document that was read, and its things in the order of places."""

    def __init__(self, root):
        self.root = root
        self.top = Thing("top", 0, root, [])
        self.regions = [text_of(node) for node in elements(root.get("regions"))]
        self.stores, self.services = self.listed("store"), self.listed("service")
        self.handlers = [handler for service in self.services for handler in self.handlers_of(service)]
        for item, handler in enumerate(self.handlers, 1):
            handler.item = item
        self.subs, self.requests = self.listed("sub"), self.listed("request")
        self.things = [self.top, *self.listed("region", "regions"), *self.stores, *self.services, *self.handlers, *self.subs, *self.requests,
                       *self.listed("choice", "choices")]

    def listed(self, part, key=None):
        return things_in(part, self.root.get(key or part))

    def handlers_of(self, service):
        return things_in("handler", service.node.get("handler"), service)

    def thing(self, part, item):
        return next((thing for thing in self.things if (thing.part, thing.item) == (part, item)), None)

    def store(self, name):
        return next((store for store in self.stores if store.name == name), None)

    def service(self, name):
        return next((service for service in self.services if service.name == name), None)

    def has_handler(self, service, name):
        found = self.service(service)
        return found is not None and any(handler.name == name for handler in self.handlers_of(found))


def things_in(part, array, service=None):
    """The things that an array lists."""
    things = []
    for item, node in enumerate(elements(array), 1):
        things.append(Thing(part, item, node, list(things), service))
    return things


def allows(store, what):
    """Whether the stores of the kind of a store allow this."""
    return what in KINDS.get(store.text("kind"), ())


def has_replica(store, region):
    return any(text_of(node) == region for node in elements(store.node.get("replicas")))


# ---- rules 1 to 5: the form of each thing

def keys_fail(thing, test):
    """The keys of a thing at which a test fails of what stands there; of what is no table none does."""
    keys = KEYS.get(thing.part, {})
    return [key for key, wanted in keys.items() if thing.node.get(key) is not None and not test(thing.node.get(key), *wanted)]


def is_listed(document, thing):
    return [0] if thing.node.kind == "table" and set(thing.node.of) - set(KEYS.get(thing.part, thing.node.of)) else []


def is_there(document, thing):
    wanted = [key for key, facts in KEYS.get(thing.part, {}).items() if facts[1]]
    return [0] if thing.node.kind == "table" and any(thing.node.get(key) is None for key in wanted) else []


def has_type(node, kind, *range_of):
    if kind == "texts":
        return node.kind == "array" and all(each.kind == "text" for each in node.of)
    return node.kind == {"list": "array"}.get(kind, kind)


def is_typed(document, thing):
    if thing.part in ("region", "choice"):
        return [] if thing.node.kind == "text" else [0]
    if thing.node.kind != "table" or keys_fail(thing, has_type):
        return [0]
    return [at for at, node in enumerate(thing.body, 1) if node.kind != "text"] if thing.part == "handler" else []


def has_count(node, kind, needed, least, most):
    return kind not in ("list", "texts") or least <= len(elements(node)) <= most


def is_counted(document, thing):
    return [0] if keys_fail(thing, has_count) else []


def has_range(node, kind, needed, least, most):
    return kind != "integer" or node.kind != "integer" or least <= node.of <= most


def is_ranged(document, thing):
    return [0] if keys_fail(thing, has_range) else []


# ---- rules 6 to 19: names, and what parts say of each other

def names_are_plain(document, thing):
    if thing.part in ("top", "request", "choice"):
        return []
    names = [text_of(thing.node)] if thing.part == "region" else [thing.name]
    names += [thing.text("channel")] if thing.part == "sub" else []
    return [] if all(is_plain(name) for name in names) else [0]


def twin_of(document, thing):
    """What has the name of a thing before it, or none."""
    if thing.part == "region":
        return next((other for other in thing.earlier if text_of(other.node) == text_of(thing.node)), None)
    others = (document.stores if thing.part == "service" else []) + thing.earlier
    return next((other for other in others if other.name == thing.name), None)


def is_distinct(*parts):
    """The rule that no two things of these parts have the same name."""
    return lambda document, thing: [0] if thing.part in parts and twin_of(document, thing) else []


def kind_is_known(document, thing):
    return [0] if thing.part == "store" and thing.text("kind") not in KINDS else []


def replicas_are_regions(document, thing):
    names = [text_of(node) for node in elements(thing.node.get("replicas"))] if thing.part == "store" else []
    return [] if set(names) <= set(document.regions) and len(set(names)) == len(names) else [0]


def kind_has_keys(document, thing):
    extra = [key for key in ("tries", "room") if thing.node.get(key) is not None and not allows(thing, key)] if thing.part == "store" else []
    return [0] if extra else []


def region_is_known(document, thing):
    return [0] if thing.part == "service" and thing.text("region") not in document.regions else []


def sub_store(document, thing):
    store = document.store(thing.text("store")) if thing.part == "sub" else None
    return [] if thing.part != "sub" or store and allows(store, "sub") else [0]


def handler_is_there(*parts):
    """The rule that the service of a thing of these parts is there and has the handler."""
    return lambda document, thing: [0] if thing.part in parts and not document.has_handler(thing.text("service"), thing.text("handler")) else []


def home_of(document, sub):
    """The region of a sub's service."""
    service = document.service(sub.text("service"))
    return service.text("region") if service else ""


def sub_replica(document, thing):
    store = document.store(thing.text("store")) if thing.part == "sub" else None
    return [] if thing.part != "sub" or store and has_replica(store, home_of(document, thing)) else [0]


def value_is_short(document, thing):
    return [0] if thing.part == "request" and size(thing.text("value")) > LONGEST_VALUE else []


# ---- rules 20 to 24: bodies

def fits_a_body(thing):
    return thing.part == "handler" and len(thing.body) <= MOST_LINES


def lines_are_statements(document, thing):
    return [at for at, line in enumerate(thing.lines(), 1) if not line] if fits_a_body(thing) else []


def blocks_are_right(document, thing):
    lines = thing.lines() if fits_a_body(thing) else [None]
    fault = block_fault(lines) if all(lines) else None
    return [fault[0]] if fault else []


def variables_are_right(document, thing):
    lines = thing.lines() if fits_a_body(thing) else [None]
    fault = variable_fault(lines) if all(lines) and not block_fault(lines) else None
    return [fault[0]] if fault else []


def store_fits(document, thing, line):
    """Whether the store of a statement is there, of a kind that allows it, and at hand."""
    if line.first not in ("write", "read", "scan", "poll"):
        return True
    store = document.store(line.at["S"])
    return store is not None and (line.first == "write" or allows(store, line.first) and has_replica(store, thing.home))


def call_fits(document, thing, line):
    return line.first not in ("call", "send") or document.has_handler(line.at["SV"], line.at["H"])


def lines_pass(test):
    """The rule that each statement of a body passes a test."""
    def rule(document, thing):
        lines = thing.lines() if thing.part == "handler" else []
        return [at for at, line in enumerate(lines, 1) if line and not test(document, thing, line)]
    return rule


# Each rule answers the lines at which a thing fails it, 0 where no line is meant, the first line first. The k-th is number k.
RULES = [
    is_listed, is_there, is_typed, is_counted, is_ranged,
    names_are_plain, is_distinct("region"), is_distinct("store", "service"), is_distinct("handler"), is_distinct("sub"),
    kind_is_known, replicas_are_regions, kind_has_keys, region_is_known, sub_store,
    handler_is_there("sub"), sub_replica, handler_is_there("request"), value_is_short, lines_are_statements,
    blocks_are_right, variables_are_right, lines_pass(store_fits), lines_pass(call_fits),
]


# ---- choices

def object_and_place(document, mark):
    """Whether a word is the name of a store or a service, a dot and a number."""
    name, dot, place = mark.partition(".")
    return bool(dot) and (document.store(name) or document.service(name)) is not None and is_number(place, MOST_COUNTED)


def choice_fits(document, text):
    """Whether a choice has one of the forms, and names what is there."""
    match words_of(text):
        case ["finish"]:
            return True
        case ["go", mark]:
            return object_and_place(document, mark)
        case ["pull", sub]:
            return any(sub == other.name for other in document.subs)
        case ["repull", sub, version]:
            return any(sub == other.name for other in document.subs) and is_number(version, MOST_COUNTED)
        case ["take" | "repost", service, number]:
            return document.service(service) is not None and is_number(number, MOST_COUNTED)
        case ["ship" | "again", store, region, *numbers]:
            known = document.store(store) is not None and region in document.regions
            return known and len(numbers) in (1, 2) and all(is_number(number, MOST_COUNTED) for number in numbers)
    return False


# ---- all of them

def failures(document):
    """Each place at which a rule fails, as `(rule, part, item, line)`: the first is the one with which the document is refused."""
    for number, rule in enumerate(RULES, 1):
        for thing in document.things:
            for line in rule(document, thing):
                yield number, thing.part, thing.item, line


def bad_choices(document):
    """The numbers of the choices that have no form or name what is not there. They are judged behind the rules."""
    choices = elements(document.root.get("choices"))
    return [number for number, node in enumerate(choices, 1) if node.kind == "text" and not choice_fits(document, node.of)]


def refusal(place):
    """A place as the program tells it."""
    return "app {} {} {} {}".format(*place)
