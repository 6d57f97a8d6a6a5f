#!/usr/bin/env python3
"""Judges the record of a run beside its document: whether the application that the document states can have run so.

    examples/check_run.py [--complete] [--workers] DOCUMENT [RECORD..]

It shares nothing with the program: it plays the entries of the record one after another, by docs/FORMAT.md and docs/proof/MODEL.md alone. Each
entry has to stand in its order, with the stamp and the place that are due; its call has to be just what its process asks for next, or one
that starts a process or that a carrier may make; the call has to be ready and to fit; and its reply has to be the one that is due. Each
line `process` has to tell how that process stands at the end. Lines `wait` and `span` are passed over: a record does not tell which
choices were asked for when, and the orders of spans are judged by `.ci/check_orders.py`. The document is taken to keep its rules.

Where all that holds it prints a line, `legal` with the number of entries and `complete` or the first thing that was left undone, as a
choice, and the status is 0. Else it tells the first line of the record that is wrong, and the status is 1. With `--complete`, and where
the last choice of the document is `finish`, nothing may be left undone. With `--workers` there are the carriers ~1 to ~W beside ~0, for
the W workers of the document, and there is no line `wait`. The record comes from standard input where none is named; of several each is judged, up to the first that
is wrong.
"""
import argparse
import collections
import functools
import re
import sys
import tomllib
from typing import Any, Callable, NamedTuple
from urllib.parse import quote

# The units of an object, the ids of a lineage, the depth of a message and the bytes of a part, at most; and what a document may leave out.
UNITS, IDS, DEEPEST, PART = 4096, 512, 8, 64
TRIES, ROOM, WORKERS = 3, 8, 2

PLAIN = re.compile(rb"[A-Za-z0-9_-]{1,24}")
NAME = re.compile(rb"[A-Za-z0-9_#-]{1,32}")
NUMBER = re.compile(r"[1-9][0-9]{0,18}")
ENTRY = re.compile(r"([0-9]{1,19}) ([A-Za-z0-9_-]+)\.([0-9]+) (\S+) (.+) = (.+)")

# The calls by which a process is born, and those that a carrier makes, with what their words are.
BIRTHS = {"take": (int,), "pull": (str,), "repull": (str, int)}
CARRIED = {"ship": (str, int, int), "again": (str, int, int), "repost": (int,)}


class Wrong(Exception):
    """What is wrong with a record."""


def wrong(fault):
    raise Wrong(fault)


class Ended(Exception):
    """A handler ends before the end of its body."""


# Words: what ids, values, lineages and rows are, and how they are written.


class Id(NamedTuple):
    """The id of a write. Ids ascend by the number of the store, the version and the key."""

    number: int
    version: int
    key: str
    store: str


NOTHING = frozenset()


class Row(NamedTuple):
    """A key with a version, 0 where there is no row, its value and the lineage that is stored beside it."""

    key: str
    version: int = 0
    value: bytes = b""
    lineage: frozenset = NOTHING


@functools.lru_cache(maxsize=1024)
def lineage_text(ids):
    """The text of a lineage."""
    return "1;" + ",".join(f"{id.store}/{id.key}@{id.version}".replace("#", "%23") for id in sorted(ids))


def spelled(thing):
    """A name, a number, a value, a lineage or a row, as it stands in a record."""
    if isinstance(thing, bytes):
        return f'"{quote(thing, safe="")}"'
    if isinstance(thing, frozenset):
        return lineage_text(thing)
    if isinstance(thing, Row):
        return f"{thing.key}@{thing.version}" + (f" {spelled(thing.value)} {spelled(thing.lineage)}" if thing.version else "")
    return str(thing)


def words(*things):
    """Several of these, with a space between each two."""
    return " ".join(map(spelled, things))


def call_in(text, forms):
    """The call that a text states, if it has one of these forms."""
    word, *rest = text.split(" ")
    form = forms.get(word)
    if form is None or len(rest) != len(form) or not all(NUMBER.fullmatch(part) for part, kind in zip(rest, form) if kind is int):
        return None
    return (word, *(kind(part) for part, kind in zip(rest, form)))


# Objects: the stores and the inboxes. A call is a tuple of its words, and `due` tells what it comes to after what was made so far.


class Due(NamedTuple):
    """What a call comes to that is ready: its reply, what the caller gets of it, the units that it needs, and its effect."""

    reply: str
    gives: Any = None
    need: int = 1
    effect: Callable = lambda: None


class Object:
    """What all objects have: a number, a name, how many entries were made, the last stamp, and the units that are held or owed."""

    def __init__(self, number, name):
        self.number, self.name = number, name
        self.made = self.stamp = self.units = 0

    def due(self, call):
        """What a call comes to, or none where it is not ready."""
        word, *rest = call
        answer = getattr(self, "on_" + word, None)
        return answer(*rest) if answer else None

    def fits(self, due):
        return self.units + due.need <= UNITS

    def goes(self, call):
        """Whether a call is ready and fits."""
        due = self.due(call)
        return due is not None and self.fits(due)

    def make(self, due, stamp):
        self.made, self.stamp, self.units = self.made + 1, stamp, self.units + due.need
        due.effect()


class Store(Object):
    """What all kinds of store have: the rows that were written, by version, and the last of each key; and for each region that has a replica
    what it shows of each key, and which parts of which versions are still owed to it."""

    def __init__(self, number, table, subs):
        super().__init__(number, table["name"])
        self.subs, self.tries = subs, table.get("tries", TRIES)
        self.rows, self.last = [], {}
        self.owed = {region: {} for region in table["replicas"]}
        self.shown = {region: {} for region in table["replicas"]}

    def key_of(self, key):
        """The key that the next write gets that names this one."""
        return key

    def parts_of(self, value):
        return 1

    def may_come(self, region, version):
        """Whether it is the turn of a version that is owed to a region."""
        return True

    def on_write(self, key, value, lineage):
        """A write depends on the one that it replaces, too: so it keeps the id of that, and what that kept."""
        kept = lineage.union(self.ids_of([self.last[key]])) if key in self.last else lineage
        row, parts = Row(self.key_of(key), len(self.rows) + 1, value, kept), self.parts_of(value)
        told = f"{row.key}@{row.version}" + ("" if kept == lineage else f" over {spelled(kept)}")
        return Due(told, row, 1 + parts * len(self.owed) if len(kept) <= IDS else UNITS + 1, lambda: self.keep(key, row, parts))

    def keep(self, key, row, parts):
        self.rows.append(row)
        self.last[row.key] = row
        for owed in self.owed.values():
            owed[row.version] = list(range(1, parts + 1))

    def id_of(self, row):
        return Id(self.number, row.version, row.key, self.name)

    def ids_of(self, rows):
        """The ids of rows, and those in the lineages that are stored beside them."""
        return NOTHING.union(map(self.id_of, rows), *(row.lineage for row in rows))

    def is_whole(self, region, version):
        return 0 < version <= len(self.rows) and version not in self.owed[region]

    def whole_at(self, region, key):
        """The greatest version of a key that is whole in a region, 0 where none is."""
        return self.shown[region].get(key, 0)

    def version_at(self, region, key):
        """The version of a key that a region shows."""
        return self.whole_at(region, key)

    def behind(self, region):
        """The version that is to come again next to a region, so that what it shows is behind in no key, where one is."""
        return None

    def row_at(self, region, key):
        version = self.version_at(region, key)
        return self.rows[version - 1] if version else Row(key)

    def shows(self, region, key):
        """What a read of a key comes to."""
        row = self.row_at(region, key)
        return Due(spelled(row), [row] if row.version else [])

    def on_ship(self, region, version, part):
        ready = part in self.owed.get(region, {}).get(version, ()) and self.may_come(region, version)
        return Due("moved", None, 0, lambda: self.bring(region, version, part)) if ready else None

    def bring(self, region, version, part):
        left = self.owed[region][version]
        left.remove(part)
        if not left:
            del self.owed[region][version]
            shown, key = self.shown[region], self.rows[version - 1].key
            shown[key] = max(shown.get(key, 0), version)

    def on_again(self, region, version, part):
        if region not in self.owed or version > len(self.rows) or part > self.parts_of(self.rows[version - 1].value):
            return None
        return None if part in self.owed[region].get(version, ()) else Due("moved")

    def seen(self, region, ids):
        """The ids that are not visible in a region, and those that nothing wrote."""
        missing = frozenset(id for id in ids if self.version_at(region, id.key) < id.version)
        unwritten = frozenset(id for id in ids if id.version > len(self.rows) or self.rows[id.version - 1].key != id.key)
        return missing, unwritten

    def on_dry(self, region, ids):
        missing, unwritten = self.seen(region, ids)
        return Due(words("missing", missing, "unwritten", unwritten) if missing or unwritten else "clear")

    def on_look(self, region, ids):
        missing, unwritten = self.seen(region, ids)
        return None if missing and not unwritten else self.on_dry(region, ids)


class Kv(Store):
    on_read = Store.shows


class Table(Kv):
    def may_come(self, region, version):
        return version == next(iter(self.owed[region]))

    def on_scan(self, region, front):
        rows = [self.row_at(region, key) for key in sorted(self.shown[region]) if key.startswith(front)]
        return Due(" + ".join(map(spelled, rows)) or "none", rows, max(1, len(rows)))


class Blob(Kv):
    def parts_of(self, value):
        return max(1, -(-len(value) // PART))


class Cached(Kv):
    """A kv whose replicas read through caches: of each region the versions of the keys that its cache has, the least recently used first."""

    def __init__(self, number, table, subs):
        super().__init__(number, table, subs)
        self.room = table.get("room", ROOM)
        self.caches = {region: {} for region in table["replicas"]}

    def version_at(self, region, key):
        return self.caches[region].get(key) or self.whole_at(region, key)

    def on_read(self, region, key):
        return self.shows(region, key)._replace(effect=lambda: self.use(region, key))

    def use(self, region, key):
        """Brings a key to the front, or puts it there with what is whole of it, where anything is. The last falls out where there are too many."""
        cache, version = self.caches[region], self.version_at(region, key)
        cache.pop(key, None)
        if version:
            cache[key] = version
        if len(cache) > self.room:
            del cache[next(iter(cache))]

    def on_again(self, region, version, part):
        due = super().on_again(region, version, part)
        return due and due._replace(effect=lambda: self.refresh(region, self.rows[version - 1].key))

    def refresh(self, region, key):
        if key in self.caches[region]:
            self.caches[region][key] = self.whole_at(region, key)

    def behind(self, region):
        cache = self.caches[region]
        return next((self.whole_at(region, key) for key in reversed(cache) if cache[key] < self.whole_at(region, key)), None)


class Channels(Store):
    """What queues and topics have in common: a write goes to a channel, whose rows are numbered."""

    def __init__(self, *about):
        super().__init__(*about)
        self.channels = collections.defaultdict(list)

    def key_of(self, key):
        return f"{key}#{len(self.channels[key]) + 1}"

    def keep(self, key, row, parts):
        super().keep(key, row, parts)
        self.channels[key].append(row.version)

    def hands_out(self, version, *rest):
        """What a pull comes to by which the row of a version is handed out, none where there is no version."""
        row = self.rows[version - 1] if version else None
        return Due(spelled(row), row, *rest) if row else None


class Queue(Channels):
    """A queue knows of each message how often it was pulled, and whether it is out or done."""

    def __init__(self, *about):
        super().__init__(*about)
        self.pulls, self.out, self.done = collections.Counter(), set(), set()

    def is_free(self, region, version):
        settled = version in self.out or version in self.done or self.pulls[version] >= self.tries
        return not settled and self.is_whole(region, version)

    def on_pull(self, name):
        channel, region = self.subs.get(name, (None, None))
        version = next((version for version in self.channels[channel] if self.is_free(region, version)), None)
        return self.hands_out(version, 2, lambda: self.give_out(version))

    def give_out(self, version):
        self.pulls[version] += 1
        self.out.add(version)

    def on_ack(self, version):
        return Due("done", None, 0, lambda: (self.out.remove(version), self.done.add(version))) if version in self.out else None

    def on_nack(self, version):
        return Due("done", None, 0, lambda: self.out.remove(version)) if version in self.out else None


class Topic(Channels):
    """A topic knows how many cells each sub has pulled."""

    def __init__(self, *about):
        super().__init__(*about)
        self.pulls = collections.Counter()

    on_poll = Store.shows

    def on_pull(self, name):
        channel, region = self.subs.get(name, (None, None))
        cell = next(iter(self.channels[channel][self.pulls[name] :]), None)
        return self.hands_out(cell if cell and self.is_whole(region, cell) else None, 1, lambda: self.pulls.update([name]))

    def on_repull(self, name, version):
        channel, _ = self.subs.get(name, (None, None))
        return self.hands_out(version if version in self.channels[channel][: self.pulls[name]] else None)


KINDS = {"kv": Kv, "table": Table, "blob": Blob, "queue": Queue, "topic": Topic, "cached": Cached}


class Message(NamedTuple):
    """A request, a call or a send."""

    kind: str
    handler: str
    depth: int
    value: bytes
    lineage: frozenset


class Inbox(Object):
    """The messages of a service, the free deliveries, which messages were taken, and the replies, none where one was taken."""

    def __init__(self, number, name, requests):
        super().__init__(number, name)
        self.messages = [Message("request", handler, 0, value, NOTHING) for handler, value in requests]
        self.free = list(range(1, len(self.messages) + 1))
        self.taken, self.replies = set(), {}
        self.units = len(self.messages)

    def on_post(self, kind, *rest):
        return self.reply(*rest) if kind == "reply" else self.post(Message(kind, *rest))

    def post(self, message):
        number = len(self.messages) + 1
        return Due(f"posted {number}", number, 4 if message.kind == "call" else 2, lambda: self.get(message, number))

    def get(self, message, number):
        self.messages.append(message)
        self.deliver(number)

    def reply(self, number, value, lineage):
        ready = number in self.taken and self.messages[number - 1].kind == "call" and number not in self.replies
        return Due("done", None, 0, lambda: self.replies.update({number: (value, lineage)})) if ready else None

    def on_take(self, nth):
        if nth > len(self.free):
            return None
        number = self.free[nth - 1]
        message = self.messages[number - 1]
        return Due(words("got", number, *message), (number, message), 0, lambda: self.give_out(number))

    def give_out(self, number):
        self.taken.add(number)
        self.free = [other for other in self.free if other != number]

    def on_repost(self, number):
        return Due("done", None, 1, lambda: self.deliver(number)) if number <= len(self.messages) else None

    def deliver(self, number):
        if number not in self.taken:
            self.free.append(number)

    def on_takereply(self, number):
        reply = self.replies.get(number)
        return Due(words("got", *reply), reply, 0, lambda: self.replies.update({number: None})) if reply else None


# The document.


def block_in(lines):
    """The body that lines state: a list of statements, each with its words, the last of which is the block where it opens one."""
    open_blocks, before = [[]], None
    for line in lines:
        word, *rest = [part for part in line.split(" ") if part]
        if word == "end":
            open_blocks.pop()
        elif word in ("repeat", "if"):
            inner = []
            open_blocks[-1].append((word, *rest, inner))
            open_blocks.append(inner)
        elif (before, word) != ("stop", "root"):
            open_blocks[-1].append((word, *rest))
        before = word
    return open_blocks[0]


class Application:
    """What a document states, with its objects as they are before anything was done."""

    def __init__(self, document):
        services = document.get("service", [])
        self.regions = {service["name"]: service["region"] for service in services}
        self.bodies = {(s["name"], h["name"]): block_in(h["body"]) for s in services for h in s.get("handler", [])}
        self.subs = {sub["name"]: sub for sub in document.get("sub", [])}
        tables = document.get("store", [])
        self.stores = [KINDS[table["kind"]](number, table, self.subs_of(table["name"])) for number, table in enumerate(tables)]
        requests = document.get("request", [])
        self.inboxes = [Inbox(number, name, self.asked(requests, name)) for number, name in enumerate(self.regions, len(tables))]
        self.objects = {object.name: object for object in self.stores + self.inboxes}
        self.workers = document.get("workers", WORKERS)
        self.finishes = "".join(document.get("choices", [])[-1:]).strip(" ") == "finish"

    def subs_of(self, store):
        """The channel and the region of each sub of a store."""
        return {name: (sub["channel"], self.regions[sub["service"]]) for name, sub in self.subs.items() if sub["store"] == store}

    def asked(self, requests, service):
        """The handler and the value of each request to a service."""
        return [(request["handler"], request.get("value", "").encode()) for request in requests if request["service"] == service]


# Processes: what a handler does.


class Variable(NamedTuple):
    """What a variable holds: what `$X` is, the ids of the write and of what is kept beside it, or those of the rows that were read and of the
    lineages beside them, and of these the write's own."""

    value: bytes
    ids: frozenset = NOTHING
    own: frozenset = NOTHING


class Process:
    """One run of a handler. `next` is the object and the call of what it asks for, in the span `span`; at its end it is none, and `end`
    tells how it ended. `owed` is what it owes to whom it was started by: the object, `reply` or `ack`, and the number or the version."""

    def __init__(self, app, service, handler, given, lineage, depth=0, owed=None):
        self.app, self.service, self.handler, self.region = app, service, handler, app.regions[service]
        self.given, self.depth, self.owed = given, depth, owed
        self.span, self.lineage, self.variables, self.replying = 1, lineage, {}, b""
        self.next, self.end = None, None
        self.life = self.live()
        self.go_on()

    def go_on(self, gives=None):
        """It gets what it asked for, and comes to its next call or to its end."""
        try:
            self.next = self.life.send(gives)
        except StopIteration as stop:
            self.next, self.end = None, stop.value

    def live(self):
        good, end = False, "fine"
        try:
            self.join(NOTHING)  # what it was born with may be too much already
            yield from self.run(self.app.bodies[self.service, self.handler])
            good = True
        except Ended as ended:
            end = str(ended)
        if self.owed and end != "lineage":
            object, what, number = self.owed
            reply = ("post", "reply", number, self.replying, self.lineage)
            yield object, reply if what == "reply" else ("ack" if good else "nack", number)
        return end

    def run(self, block):
        for word, *rest in block:
            yield from getattr(self, "do_" + word)(*rest) or ()

    def join(self, ids):
        self.lineage = self.lineage.union(ids)
        if len(self.lineage) > IDS:
            raise Ended("lineage")

    def value(self, word):
        if word == "$in":
            return self.given
        return self.variables[word[1:]].value if word.startswith("$") else word.encode()

    def key(self, word, form=PLAIN):
        key = self.value(word)
        if not form.fullmatch(key):
            raise Ended("badkey")
        return key.decode()

    def do_write(self, store, key, value, _=None, name=None, untracked=None):
        store = self.app.objects[store]
        row = yield store, ("write", self.key(key), self.value(value), self.lineage)
        self.variables[name] = Variable(str(row.version).encode(), store.ids_of([row]), frozenset([store.id_of(row)]))
        if not untracked:
            self.do_append(name)

    def do_append(self, name):
        self.join(self.variables[name].ids)

    do_transfer = do_append

    def do_remove(self, name):
        self.lineage -= self.variables[name].own

    def read(self, word, form, store, key, _, name):
        store = self.app.objects[store]
        rows = yield store, (word, self.region, self.key(key, form))
        self.variables[name] = Variable(rows[0].value if rows else b"", store.ids_of(rows))

    do_read = functools.partialmethod(read, "read", PLAIN)
    do_scan = functools.partialmethod(read, "scan", PLAIN)
    do_poll = functools.partialmethod(read, "poll", NAME)

    def look(self, word):
        for store in self.app.stores:
            ids = frozenset(id for id in self.lineage if id.number == store.number)
            if ids and self.region in store.owed:
                yield store, (word, self.region, ids)

    do_barrier = functools.partialmethod(look, "look")
    do_dryrun = functools.partialmethod(look, "dry")

    def post(self, kind, service, handler, value):
        if self.depth == DEEPEST:
            raise Ended("depth")
        return (yield self.app.objects[service], ("post", kind, handler, self.depth + 1, self.value(value), self.lineage))

    do_send = functools.partialmethod(post, "send")

    def do_call(self, service, handler, value, _, name):
        number = yield from self.post("call", service, handler, value)
        value, lineage = yield self.app.objects[service], ("takereply", number)
        self.variables[name] = Variable(value)
        self.join(lineage)

    def do_reply(self, value):
        self.replying = self.value(value)

    def do_nack(self):
        raise Ended("fine")

    def do_root(self):
        self.span, self.lineage, self.variables = self.span + 1, NOTHING, {}

    do_stop = do_root

    def do_repeat(self, times, block):
        for _ in range(int(times)):
            yield from self.run(block)

    def do_if(self, name, _, block):
        return None if self.variables[name].ids else self.run(block)


def born(app, object, call, gives):
    """The process that is born by such a call on an object, by what it gets."""
    if call[0] == "take":
        number, message = gives
        owed = (object, "reply", number) if message.kind == "call" else None
        return Process(app, object.name, message.handler, message.value, message.lineage, message.depth, owed)
    sub, row = app.subs[call[1]], gives
    owed = (object, "ack", row.version) if isinstance(object, Queue) else None
    return Process(app, sub["service"], sub["handler"], row.value, object.ids_of([row]), owed=owed)


# The record.


class Run:
    """A run as far as its entries were read: its application with the objects as they are then, its processes by their names, where these
    were born, the last stamp of each actor, and where the last entry stands in the order."""

    def __init__(self, app, carriers):
        self.app, self.carriers, self.processes, self.births = app, carriers, {}, []
        self.clocks, self.last = collections.Counter(), (0, 0)

    def call_of(self, actor, object, mark, text):
        """The call of an entry, where its actor may make it."""
        if actor in self.carriers:
            return call_in(text, CARRIED) or wrong(f"no carrier makes the call {text}")
        if actor.startswith("~"):
            wrong(f"there is no carrier {actor}")
        if actor == f"{mark}/1":
            return call_in(text, BIRTHS) or wrong(f"no process is born by the call {text}")
        name, _, span = actor.partition("/")
        process = self.processes.get(name) or wrong(f"there is no process {name}")
        there, call = process.next or wrong(f"the process {name} has ended")
        if (object, span, text) != (there, str(process.span), words(*call)):
            wrong(f"the process asks for {words(*call)} on {there.name} in its span {process.span}")
        return call

    def note(self, line):
        """Reads the line of an entry, judges it, and makes it."""
        parts = ENTRY.fullmatch(line) or wrong(f"it is no entry: {line}")
        stamp, name, place, actor, text, reply = parts.groups()
        object, asker = self.app.objects.get(name) or wrong(f"there is no object {name}"), actor.partition("/")[0]
        mark = f"{name}.{object.made + 1}"
        if f"{name}.{place}" != mark:
            wrong(f"{name}.{place} stands where {mark} is due")
        if (int(stamp), object.number) <= self.last:
            wrong(f"{mark} stands behind one that is later")
        call = self.call_of(actor, object, mark, text)
        due, due_stamp = object.due(call) or wrong(f"{mark}: {text} is not ready"), 1 + max(self.clocks[asker], object.stamp)
        if not object.fits(due):
            wrong(f"{mark}: {text} does not fit")
        if (reply, stamp) != (due.reply, str(due_stamp)):
            wrong(f"{mark}: the reply due is {due.reply}" if reply != due.reply else f"{mark}: the stamp due is {due_stamp}")
        self.make(object, call, due, due_stamp, asker)

    def make(self, object, call, due, stamp, asker):
        object.make(due, stamp)
        self.last, self.clocks[asker] = (stamp, object.number), stamp
        if call[0] in BIRTHS:
            self.processes[asker] = born(self.app, object, call, due.gives)
            self.births.append((object.number, object.made, asker))
        elif asker in self.processes:
            self.processes[asker].go_on(due.gives)

    def in_order(self):
        """The processes with their names, by the object and the place of their births."""
        return [(name, self.processes[name]) for _, _, name in sorted(self.births)]

    def end_of(self, process):
        """How a process stands at the end."""
        if process.end:
            return process.end
        object, call = process.next
        return f"store {object.name}" if object.due(call) and not object.goes(call) else "open"

    def undone(self):
        """What can still be done, as choices."""
        yield from (f"go {name}" for name, process in self.in_order() if process.next and process.next[0].goes(process.next[1]))
        yield from (f"take {inbox.name} 1" for inbox in self.app.inboxes if inbox.goes(("take", 1)))
        yield from (f"pull {name}" for name, sub in self.app.subs.items() if self.app.objects[sub["store"]].goes(("pull", name)))
        for store in self.app.stores:
            for region, owed in store.owed.items():
                yield from (f"ship {store.name} {region} {version} {left[0]}" for version, left in owed.items())
        for store in self.app.stores:
            for region in store.owed:
                version = store.behind(region)
                if version and store.goes(("again", region, version, 1)):
                    yield f"again {store.name} {region} {version} 1"


class Lines:
    """The lines of a record: the next one, none behind the last, and its number."""

    def __init__(self, file):
        self.file, self.number, self.next = file, 0, None

    def go_on(self):
        self.number += 1
        line = self.file.readline()
        self.next = line.removesuffix("\n") if line else None
        if self.next == line:
            wrong("it has no newline")

    def pass_over(self, word):
        """Goes past all lines that begin with a word."""
        while (self.next or "").startswith(word + " "):
            self.go_on()

    def expect(self, wanted):
        """Goes past the line that is due."""
        if self.next != wanted:
            wrong(f"what is due is {wanted or 'the end of the record'}")
        if wanted is not None:
            self.go_on()


def judge(run, lines):
    """Goes over a record, and tells the number of its entries."""
    lines.go_on()
    lines.expect("record 1")
    count = 0
    while (lines.next or "")[:1].isdigit():
        run.note(lines.next)
        count += 1
        lines.go_on()
    if len(run.carriers) == 1:  # workers play no choices
        lines.pass_over("wait")
    for name, process in run.in_order():
        lines.expect(f"process {name} {process.service} {process.handler} {run.end_of(process)}")
    lines.pass_over("span")
    lines.expect(f"end {count}")
    lines.expect(None)
    return count


def judged(asked, record):
    """The line that is told of a record, where it is legal."""
    with open(asked.document, "rb") as file:
        app = Application(tomllib.load(file))
    run = Run(app, [f"~{number}" for number in range(app.workers + 1 if asked.workers else 1)])
    where = f"{record}, " if len(asked.records) > 1 else ""
    with open(record or 0, encoding="ascii", newline="\n") as file:
        lines = Lines(file)
        try:
            count = judge(run, lines)
        except Wrong as fault:
            sys.exit(f"{where}line {lines.number}: {fault}")
    left = next(run.undone(), None)
    if left and (asked.complete or app.finishes):
        sys.exit(f"{where}left undone: {left}")
    return f"legal, {count} entries, " + (f"left undone: {left}" if left else "complete")


if __name__ == "__main__":
    parser = argparse.ArgumentParser(description="Judges the record of a run beside its document.")
    parser.add_argument("--complete", action="store_true", help="nothing may be left undone")
    parser.add_argument("--workers", action="store_true", help="the workers of the document are carriers, too")
    parser.add_argument("document")
    parser.add_argument("records", metavar="record", nargs="*")
    try:
        given = parser.parse_args()
        for name in given.records or [None]:
            print(judged(given, name))
    except (OSError, ValueError) as fault:
        sys.exit(str(fault))
