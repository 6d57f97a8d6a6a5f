"""What the mistake is at a place at which a rule fails, in words; and, where that is sure, the document as it was meant."""
from explaining import rules, statements
from explaining.near import hint, listed, near, quoted, sentence
from explaining.reader import Node
from explaining.rules import elements, text_of

MOST_KEYS = 8  # wrong keys of one table that are told
TOP_TEXTS = ("regions", "seed", "workers", "choices")
EXAMPLES = {
    "regions": 'regions = ["us", "eu"]', "seed": "seed = 7", "workers": "workers = 2", "choices": 'choices = ["finish"]', "name": 'name = "orders"',
    "kind": 'kind = "kv"', "replicas": 'replicas = ["us", "eu"]', "tries": "tries = 3", "room": "room = 8", "region": 'region = "us"',
    "body": 'body = ["barrier", "read orders $in as x"]', "store": 'store = "orders"', "channel": 'channel = "placed"', "service": 'service = "shop"',
    "handler": 'handler = "buy"', "value": 'value = "book"',
}
HEADERS = {"store": "[[store]]", "service": "[[service]]", "handler": "[[service.handler]]", "sub": "[[sub]]", "request": "[[request]]"}
# What stores are called elsewhere.
KINDS_ELSEWHERE = {
    "pubsub": "topic", "pub-sub": "topic", "stream": "topic", "feed": "topic", "channel": "queue", "sql": "table", "db": "table", "database": "table",
    "object": "blob", "file": "blob", "key-value": "kv", "redis": "kv", "map": "kv", "memcached": "cached",
}
USES = {"read": "`read`", "scan": "`scan`", "poll": "`poll`", "sub": "a sub", "tries": "`tries`", "room": "`room`"}


class Mistake:
    """What is wrong at a place: sentences, none where it comes from a mistake of an earlier rule; the thing to look at; and what mends it."""

    def __init__(self, sentences, node=None, mend=None):
        self.sentences, self.node, self.mend = sentences, node, mend


class Case:
    """A place at which a rule fails: the document, the thing, the line of a body, and what tells the line of a thing in the file."""

    def __init__(self, document, thing, line, line_of):
        self.document, self.thing, self.line, self.line_of = document, thing, line, line_of

    def node(self, key):
        return self.thing.node.get(key)

    def statement(self):
        return rules.line_of(text_of(self.thing.body[self.line - 1]))


def a(part):
    return {"top": "the top", "handler": "a handler"}.get(part, f"a {part}")


# ---- rules 1 and 2: the keys

def unlisted(case):
    part, node = case.thing.part, case.thing.node
    wrong = [key for key in node.of if key not in rules.KEYS[part]][:MOST_KEYS]
    said = [why_unlisted(case, key) for key in wrong]
    if any(not is_meant(case, key) for key in wrong):
        said.append(f"The keys of {a(part)} are {statements.listed_all(rules.KEYS[part])}.")
    return Mistake(said, node.of[wrong[0]], lambda: [mend_key(case, key) for key in wrong])


def meant_key(case, key):
    """The key that a wrong one nearly is, where it is not there; or none."""
    like = near(key, rules.KEYS[case.thing.part])
    return like if like and like not in case.thing.node.of else None


def is_meant(case, key):
    """Whether it is plain what should be done with a wrong key."""
    return case.thing.part != "top" and key in rules.KEYS["top"] or key == "handler" or meant_key(case, key) is not None


def why_unlisted(case, key):
    part = case.thing.part
    if part != "top" and key in rules.KEYS["top"]:
        return why_below(case, key)
    if part == "top" and key == "handler":
        return "`handler` is no key of the top. A handler belongs to a service: `[[service.handler]]`, below its `[[service]]`."
    if meant_key(case, key):
        return f"{quoted(key)} is no key of {a(part)}. Did you mean `{meant_key(case, key)}`?"
    like = near(key, rules.KEYS[part])
    if like:
        return f"{quoted(key)} is no key of {a(part)}, and `{like}` is there already."
    owner = next((other for other in rules.KEYS if key in rules.KEYS[other]), None)
    return f"{quoted(key)} is no key of {a(part)}{f'; it is one of {a(owner)}' if owner else ''}."


def why_below(case, key):
    """That a key of the top stands in another table."""
    part, made = case.thing.part, case.thing.node.made
    if made != "header":
        return f"`{key}` is a key of the top, and it stands inside {a(part)}."
    begun = case.line_of(case.thing.node)
    stands = "stands before the first line that begins with `[`"
    what = stands if key in TOP_TEXTS else f"{stands}, or is written as `{HEADERS.get(key, key)}`"
    return f"`{key}` stands below the header of line {begun}, so TOML gives it to this {part}. It is a key of the top, which {what}."


def mend_key(case, key):
    """Moves a key of the top there, or gives a key the name that was meant."""
    node, top, like = case.thing.node, case.document.root, meant_key(case, key)
    if case.thing.part != "top" and key in rules.KEYS["top"] and key not in top.of:
        top.of[key] = node.of.pop(key)
    elif like:
        node.of[like] = node.of.pop(key)
    else:
        del node.of[key]


def missing(case):
    part, node = case.thing.part, case.thing.node
    gone = [key for key, facts in rules.KEYS[part].items() if facts[1] and key not in node.of]
    if part == "top" and not node.of:
        return Mistake(["The document is empty. It begins with the names of its regions, as `regions = [\"us\", \"eu\"]`."])
    return Mistake([f"`{key}` is missing, as in `{EXAMPLES[key]}`." for key in gone] + before_header(case))


def before_header(case):
    """Where a table without keys is followed by others, its keys may stand elsewhere."""
    empty = case.thing.node.made == "header" and not case.thing.node.of
    return ["Nothing stands between this header and the next one."] if empty and case.thing.part != "top" else []


# ---- rules 3 to 5: types, numbers of elements, ranges

KIND_WORDS = {"text": "a text", "integer": "a number", "float": "a number with a point", "boolean": "`true` or `false`", "date": "a date or a time",
              "array": "a list", "table": "a table"}


def written(node):
    """A value as it stands in the document, as far as it is short."""
    return {"boolean": str(node.of).lower()}.get(node.kind, str(node.of)) if node.kind not in ("array", "table") else ""


def mistyped(case):
    thing = case.thing
    if case.line or thing.part in ("region", "choice"):
        node = thing.body[case.line - 1] if case.line else thing.node
        what = "line of a body" if case.line else thing.part
        return Mistake([f"A {what} should be a text in quotation marks, and this is {KIND_WORDS[node.kind]}."], node, lambda: make_text(node))
    if thing.node.kind != "table":
        said = f"{sentence(a(thing.part))[:-1]} should be a table, and this is {KIND_WORDS[thing.node.kind]}"
        return Mistake([said + f": write `{{ .. }}` with its keys, or `{HEADERS[thing.part]}`."])
    wrong = rules.keys_fail(thing, rules.has_type)
    said = [why_mistyped(case, key, rules.KEYS[thing.part][key][0]) for key in wrong]
    return Mistake(said, thing.node.get(wrong[0]), lambda: [mend_type(thing.node, key, rules.KEYS[thing.part][key][0]) for key in wrong])


def why_mistyped(case, key, wanted):
    node = case.node(key)
    if wanted in ("list", "texts") and node.kind == "table":
        return why_one_table(case, key, node)
    if wanted == "texts" and node.kind == "array":
        odd = next(each for each in node.of if each.kind != "text")
        return f"Each element of `{key}` should be a text in quotation marks, and one is {KIND_WORDS[odd.kind]}."
    if wanted in ("list", "texts"):
        example = f"{key} = [\"{node.of}\"]" if node.kind == "text" and key in EXAMPLES else EXAMPLES.get(key, f"{key} = [ .. ]")
        return f"`{key}` should be a list, in brackets, as {quoted(example)}, and is {KIND_WORDS[node.kind]}."
    if wanted == "integer":
        return f"`{key}` should be a number without a point and without quotation marks, as `{EXAMPLES[key]}`, and is {KIND_WORDS[node.kind]}."
    example = f"{key} = \"{written(node)}\"" if written(node) else EXAMPLES[key]
    return f"`{key}` should be a text in quotation marks, as {quoted(example)}, and is {KIND_WORDS[node.kind]}."


def why_one_table(case, key, node):
    """That one table stands where there may be several."""
    header = HEADERS.get(key, f"[[{key}]]")
    if node.made == "header":
        return f"`{header[1:-1]}` begins one table. There may be several: each begins with `{header}`, in double brackets."
    if node.made == "implicit":
        return f"Line {case.line_of(node)} puts something into `{key}`, and no `{header}` stands above it to which it belongs."
    if node.made == "dotted":
        return f"A key with a dot makes one table of `{key}`. There may be several: each begins with `{header}`."
    return f"`{key}` is one table. There may be several: put `[` and `]` round it."


def make_text(node):
    node.kind, node.of = "text", written(node)


def mend_type(table, key, wanted):
    """Makes a value what it was meant to be, where that is to be seen."""
    node = table.of[key]
    if wanted in ("list", "texts") and node.kind in ("text", "table") and not (wanted == "texts" and node.kind == "table"):
        table.of[key] = Node("array", [node], node.at, "headers" if node.made == "header" else "value")
    elif wanted == "text" and written(node):
        make_text(node)
    elif wanted == "integer" and node.kind == "text" and rules.is_number(node.of, rules.KEYS["top"]["seed"][3]):
        table.of[key] = Node("integer", int(node.of), node.at)


def between(least, most):
    return f"at most {most}" if not least else f"{least} to {most}"


def miscounted(case):
    part = case.thing.part
    wrong = rules.keys_fail(case.thing, rules.has_count)
    said = []
    for key in wrong:
        count, (_, _, least, most) = len(elements(case.node(key))), rules.KEYS[part][key]
        what = {"body": "lines", "regions": "regions", "replicas": "regions", "choices": "choices"}.get(key, f"{key}s")
        said.append(f"`{key}` has {count} {what if count != 1 else what[:-1]}, and {between(least, most)} are allowed.")
    return Mistake(said, case.node(wrong[0]))


def out_of_range(case):
    wrong = rules.keys_fail(case.thing, rules.has_range)
    facts = rules.KEYS[case.thing.part]
    return Mistake([f"`{key}` is {case.node(key).of}, and {facts[key][2]} to {facts[key][3]} is allowed." for key in wrong], case.node(wrong[0]))


# ---- rules 6 to 10: names

def not_plain(case):
    thing = case.thing
    keys = [None] if thing.part == "region" else ["name", "channel"] if thing.part == "sub" else ["name"]
    nodes = [(key, thing.node.get(key) if key else thing.node) for key in keys]
    wrong = [(key, node) for key, node in nodes if node is not None and node.kind == "text" and not rules.is_plain(node.of)]
    said = [f"The {'name' if key != 'channel' else 'channel'} {quoted(node.of)} is not plain: {statements.why_not_plain(node.of)}." for key, node in wrong]
    return Mistake(said + [statements.PLAIN_NAME] if said else [], wrong[0][1] if wrong else None)


def same_name(case):
    thing = case.thing
    if thing.part != "region" and not thing.has_text("name") or thing.part == "region" and thing.node.kind != "text":
        return Mistake([])
    twin = rules.twin_of(case.document, thing)
    name = text_of(thing.node) if thing.part == "region" else thing.name
    other = f"{twin.part} {twin.item}" if twin.part != "handler" else "another handler of this service"
    both = " A store and a service may not have one name." if twin.part != thing.part else ""
    return Mistake([f"{quoted(name)} is the name of {other} already, at line {case.line_of(twin.node)}.{both}"], thing.node.get("name") or thing.node)


# ---- rules 11 to 14: stores and services

def unknown_kind(case):
    if not case.thing.has_text("kind"):
        return Mistake([])
    kind = case.thing.text("kind")
    also = KINDS_ELSEWHERE.get(kind.lower())
    perhaps = f" Perhaps a `{also}` will do." if also else ""
    return Mistake([f"{quoted(kind)} is no kind of store.{hint(kind, list(rules.KINDS))}{perhaps}"], case.node("kind"))


def has_regions(case):
    regions = case.document.root.get("regions")
    return regions is not None and regions.kind == "array" and all(node.kind == "text" for node in regions.of)


def wrong_replicas(case):
    nodes = [node for node in elements(case.node("replicas")) if node.kind == "text"]
    names = [node.of for node in nodes]
    unknown = [name for name in dict.fromkeys(names) if name not in case.document.regions] if has_regions(case) else []
    twice = [name for name in dict.fromkeys(names) if names.count(name) > 1]
    said = [f"{quoted(name)} is no region.{hint(name, case.document.regions)}" for name in unknown]
    said += [f"{quoted(name)} is named twice: a store has one replica in a region." for name in twice]
    at = next((node for node in nodes if node.of in unknown), nodes[-1] if nodes else None)
    return Mistake(said, at)


def kind_without_key(case):
    if not case.thing.has_text("kind") or case.thing.text("kind") not in rules.KINDS:
        return Mistake([])
    extra = [key for key in ("tries", "room") if case.node(key) is not None and not rules.allows(case.thing, key)]
    owner = {"tries": "a `queue`", "room": "a `cached` store"}
    kind = case.thing.text("kind")
    return Mistake([f"Only {owner[key]} has `{key}`, and the kind of this store is `{kind}`: take `{key}` out." for key in extra], case.node(extra[0]))


def unknown_region(case):
    region = case.thing.text("region")
    if not case.thing.has_text("region") or not has_regions(case):
        return Mistake([])
    return Mistake([f"{quoted(region)} is no region.{hint(region, case.document.regions)}"], case.node("region"))


# ---- rules 15 to 19: subs and requests

def has_listed(case, key):
    """Whether the things at a key of the top can be known: what stands there is a list, or nothing does."""
    node = case.document.root.get(key)
    return node is None or node.kind == "array"


def no_store(case, name):
    """That there is no store of a name."""
    service = " It is a service." if case.document.service(name) else " It is a region." if name in case.document.regions else ""
    return f"{quoted(name)} is no store.{service}{hint(name, [store.name for store in case.document.stores])}"


def wrong_sub_store(case):
    name = case.thing.text("store")
    store = case.document.store(name)
    if not case.thing.has_text("store") or not has_listed(case, "store") or store and store.text("kind") not in rules.KINDS:
        return Mistake([])
    if not store:
        return Mistake([no_store(case, name)], case.node("store"))
    pulled = [other.name for other in case.document.stores if rules.allows(other, "sub")]
    said = f"{quoted(name)} is a store of kind `{store.text('kind')}`, and a sub pulls from a `queue` or a `topic`: here from {listed(pulled)}."
    return Mistake([said], case.node("store"))


def wrong_handler(case):
    """For a sub or a request: its service is not there, or has not the handler."""
    thing = case.thing
    if not thing.has_text("service", "handler"):
        return Mistake([])
    said = no_handler(case, thing.text("service"), thing.text("handler"))
    return Mistake([said] if said else [], case.node("service" if not case.document.service(thing.text("service")) else "handler"))


def no_handler(case, service, handler):
    """That a service is not there, or has not a handler; none where this comes from an earlier mistake."""
    document = case.document
    found = document.service(service)
    if not has_listed(case, "service") or found and found.node.get("handler") is not None and found.node.get("handler").kind != "array":
        return None
    if not found:
        store = " It is a store." if document.store(service) else ""
        return f"{quoted(service)} is no service.{store}{hint(service, [other.name for other in document.services])}"
    own = [other.name for other in document.handlers_of(found)]
    others = [other.service.name for other in document.handlers if other.name == handler]
    elsewhere = f" {quoted(handler)} is a handler of {listed(others)}." if others else ""
    owned = hint(handler, own).replace("There is none.", "It has no handler.").replace("There is ", "It has ").replace("There are ", "It has ")
    return f"The service {quoted(service)} has no handler {quoted(handler)}.{elsewhere}{owned}"


def stores_in(case, region, what):
    """The stores that allow something and have a replica in a region."""
    return [store.name for store in case.document.stores if rules.has_replica(store, region) and (what is None or rules.allows(store, what))]


def no_replica(case, store, service, region, what):
    """That a store has no replica where a service runs, and what to do."""
    regions = [text_of(node) for node in elements(store.node.get("replicas"))]
    there = stores_in(case, region, what)
    also = f"Stores for {USES[what]} that have one there: {listed(there)}." if there else f"No store for {USES[what]} has one there."
    where = f"The store {quoted(store.name)} has no replica in {quoted(region)}, where the service {quoted(service)} runs"
    return f"{where}: its replicas are in {listed(regions)}. Add {quoted(region)} to them at line {case.line_of(store.node.get('replicas'))}. {also}"


def is_followed(case, store, service):
    """Whether that a store has no replica somewhere comes from a mistake of an earlier rule."""
    regions = case.document.regions
    return not store or not service or service.text("region") not in regions or not elements(store.node.get("replicas"))


def wrong_sub_replica(case):
    store, service = case.document.store(case.thing.text("store")), case.document.service(case.thing.text("service"))
    if is_followed(case, store, service):
        return Mistake([])
    return Mistake([no_replica(case, store, service.name, service.text("region"), "sub")], case.node("store"))


def long_value(case):
    return Mistake([f"The value has {rules.size(case.thing.text('value'))} bytes, and at most {rules.LONGEST_VALUE} are allowed."], case.node("value"))


# ---- rules 20 to 24: bodies

def no_statement(case):
    node = case.thing.body[case.line - 1]
    if node.kind != "text":
        return Mistake([])
    meant = statements.meant(node.of)
    return Mistake(statements.why_no_statement(node.of), node, (lambda: setattr(node, "of", meant)) if meant else None)


def wrong_block(case):
    lines = case.thing.lines()
    return Mistake([statements.why_wrong_block(lines, rules.block_fault(lines))])


def wrong_variable(case):
    lines = case.thing.lines()
    return Mistake([statements.why_wrong_variable(lines, rules.variable_fault(lines))])


def wrong_store(case):
    line, service = case.statement(), case.thing.service
    store = case.document.store(line.at["S"])
    if not has_listed(case, "store"):
        return Mistake([])
    if not store:
        return Mistake([no_store(case, line.at["S"])])
    if not rules.allows(store, line.first):
        return Mistake([wrong_kind(store, line.first)] if store.text("kind") in rules.KINDS else [])
    if is_followed(case, store, service):
        return Mistake([])
    return Mistake([no_replica(case, store, service.name, service.text("region"), line.first)])


def wrong_kind(store, first):
    """That a statement may not name a store of this kind, and what may be done with it."""
    kind = store.text("kind")
    fitting = [other for other in rules.KINDS if first in rules.KINDS[other]]
    instead = {"queue": "What is in a queue starts a handler, by a sub, and no statement reads it.", "topic": "A cell of a topic is read by `poll`.",
               "table": "A `table` is read by `read` or `scan`."}.get(kind, f"A `{kind}` is read by `read`.")
    return f"{quoted(store.name)} is a store of kind `{kind}`, and `{first}` takes {listed(fitting, 'or')}. {instead}"


def wrong_call(case):
    line = case.statement()
    said = no_handler(case, line.at["SV"], line.at["H"])
    return Mistake([said] if said else [])


# The k-th says what is wrong at a place at which rule k fails.
SAYS = [
    unlisted, missing, mistyped, miscounted, out_of_range,
    not_plain, same_name, same_name, same_name, same_name,
    unknown_kind, wrong_replicas, kind_without_key, unknown_region, wrong_sub_store,
    wrong_handler, wrong_sub_replica, wrong_handler, long_value, no_statement,
    wrong_block, wrong_variable, wrong_store, wrong_call,
]


def mistake_at(document, place, line_of):
    """What is wrong at the place of a failure."""
    rule, part, item, line = place
    thing = document.thing(part, item)
    mistake = SAYS[rule - 1](Case(document, thing, line, line_of))
    mistake.node = mistake.node or (thing.body[line - 1] if line else thing.node)
    return mistake
