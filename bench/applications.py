#!/usr/bin/env python3
"""Draws applications, of the kinds that show whether what goes wrong in one is found, and writes a document for each.

    bench/applications.py FOLDER [KIND COUNT [SEED]]

Into the folder go COUNT documents of the kind, KIND_1.toml and so on; where no kind is named, those of SET. The same seed, 7 unless another is
given, draws the same documents. Each keeps the rules of docs/FORMAT.md. It has no choices, or `finish` alone, by which a run of it has a few
dozen to some hundred entries.

- `small`: two regions, three stores and three services with handlers of any statements. What a read misses there is nearly always a write of
  its own span, which has not come to the region.
- `flows`: two to four services. Each tells the next one, over a queue, a topic, a send, a call or a row, that something was written, and this
  one reads it.
- `chains`: three to five services in any order, each started by a request of its own. Each reads what the one before wrote, and some look
  further back. Nothing is missed where all of them go before anything is shipped, and seldom where they go in the order of the document.
- `long`: a read that misses a write behind more calls of its process than a document may have choices; and `near`, behind nearly as many.
  These have some thousand entries.

Barriers are left out at random, and now and then a transfer, so that some of each kind are placed and others are not.
"""
import os
import random
import sys

# How many documents of each kind `.ci/check_counterexamples.py` goes over, and from which seed.
SET = {"small": 40, "flows": 80, "chains": 80, "near": 1, "long": 1}
SEED = 7

REGIONS = ["us", "eu", "ap"]
KEYED = ["kv", "table", "blob", "cached"]
LINKS = ["queue", "topic", "send", "call", "read"]

# How often what the placement needs stands where it should.
BARRIER, TRANSFER = 0.55, 0.9

# What the keys of small ones are drawn from: `$in` is one of the first two.
KEYS = ["k1", "k1", "k2", "$in"]


class Draw:
    """What is drawn from a seed. Of Python's generator it uses `random` alone, whose numbers are the same in each version of Python."""

    def __init__(self, seed):
        self.part = random.Random(seed).random

    def below(self, count):
        return int(self.part() * count)

    def chance(self, part):
        return self.part() < part

    def among(self, items):
        return items[self.below(len(items))]

    def mixed(self, items):
        """The items in some order."""
        left, order = list(items), []
        while left:
            order.append(left.pop(self.below(len(left))))
        return order

    def perhaps(self, part, *lines):
        """These lines, or none of them."""
        return list(lines) if self.chance(part) else []

    def value(self, kind):
        """A value: for a blob of one part to three."""
        return "v" * (1 + self.below(150)) if kind == "blob" else "v"


def quoted(texts):
    """An array of strings."""
    return "[" + ", ".join(f'"{text}"' for text in texts) + "]"


def table(head, **values):
    """A table of an array, as lines."""
    yield f"[[{head}]]"
    for key, value in values.items():
        yield f"{key} = " + (quoted(value) if isinstance(value, list) else str(value) if isinstance(value, int) else f'"{value}"')


class Application:
    """An application as far as it was drawn: the lines of its stores, subs and requests, and of each service its region and its handlers with
    their bodies."""

    def __init__(self, draw, regions):
        self.draw, self.regions = draw, regions
        self.stores, self.subs, self.requests, self.services = [], [], [], {}

    def store(self, name, kind, replicas):
        more = {}
        if kind == "queue" and self.draw.chance(0.5):
            more = {"tries": 1 + self.draw.below(3)}
        if kind == "cached" and self.draw.chance(0.5):
            more = {"room": 1 + self.draw.below(3)}
        self.stores.append(table("store", name=name, kind=kind, replicas=replicas, **more))

    def sub(self, store, service, handler):
        self.subs.append(table("sub", name=f"on-{store}-{len(self.subs)}", store=store, channel="c", service=service, handler=handler))

    def request(self, service, handler, value):
        self.requests.append(table("request", service=service, handler=handler, value=value))

    def service(self, name, region, handlers):
        self.services[name] = (region, handlers)

    def serviced(self):
        """The lines of the services, in some order."""
        for name in self.draw.mixed(self.services):
            region, handlers = self.services[name]
            yield from table("service", name=name, region=region)
            for handler, body in handlers.items():
                yield from table("service.handler", name=handler, body=body)

    def text(self):
        """The document. Its choices are left out, none, or all that can happen."""
        lines = [f"regions = {quoted(self.regions)}", *self.draw.among([[], ["choices = []"], ['choices = ["finish"]']])]
        for one in [*self.stores, *self.subs, *self.draw.mixed(self.requests), self.serviced()]:
            lines += one
        return "\n".join(lines) + "\n"


# Small ones.


class Body:
    """The body of a handler, drawn line by line. `looks` has the stores that it may read, `writes` those that it may write, each as a name and
    a kind, and `posts` the handlers that it may call or send to. Of its reads the part `care` has what they need. `rows` are the variables
    with rows that a later line may use."""

    def __init__(self, draw, care, looks, writes, posts):
        self.draw, self.care, self.looks, self.writes, self.posts = draw, care, looks, writes, posts
        self.lines, self.count, self.posted, self.rows = [], 0, 0, []

    def fresh(self):
        """A variable that no line sets yet."""
        self.count += 1
        return f"x{self.count}"

    def write(self):
        name, kind = self.draw.among(self.writes)
        key = "c" if kind in ("queue", "topic") else self.draw.among(KEYS)
        return f"write {name} {key} {self.draw.among(['k1', 'k2', self.draw.value(kind)])}"

    def do_write(self):
        self.lines.append(self.write())

    def do_look(self):
        if not self.looks:
            return
        name, kind = self.draw.among(self.looks)
        if kind == "topic":
            look = f"poll {name} c#{1 + self.draw.below(2)}"
        elif kind == "table" and self.draw.chance(0.5):
            look = f"scan {name} k"
        else:
            look = f"read {name} {self.draw.among(KEYS)}"
        self.rows.append(self.fresh())
        self.lines += self.draw.perhaps(self.care, "barrier") + [f"{look} as {self.rows[-1]}"]
        self.lines += self.draw.perhaps(self.care, f"transfer {self.rows[-1]}")

    def do_barrier(self):
        self.lines.append("barrier")

    def do_transfer(self):
        if self.rows:
            self.lines.append(f"transfer {self.draw.among(self.rows)}")

    def do_post(self):
        # two posts at most, so that no message starts many more
        if self.posts and self.posted < 2:
            self.posted += 1
            service, handler = self.draw.among(self.posts)
            key = self.draw.among(["k1", "k2"])
            self.lines.append(self.draw.among([f"send {service} {handler} {key}", f"call {service} {handler} {key} as {self.fresh()}"]))

    def do_named(self):
        """A write with a name, which joins the lineage once more, is not tracked, or is taken out."""
        write = f"{self.write()} as {self.fresh()}"
        ways = [[write, f"append x{self.count}"], [f"{write} untracked"], [write, f"remove x{self.count}"]]
        self.lines += self.draw.among(ways[:1] if self.care == 1 else ways)

    def do_block(self):
        if self.rows and self.draw.chance(0.7):
            self.lines += [f"if {self.draw.among(self.rows)} absent", self.draw.among(["nack", "barrier", self.write()]), "end"]
        else:
            self.lines += [f"repeat {1 + self.draw.below(3)}", self.write(), "end"]

    def do_root(self):
        self.lines.append("root")
        self.rows = []

    # How often each is drawn.
    PARTS = {"write": 5, "look": 5, "barrier": 2, "transfer": 2, "post": 3, "named": 1, "block": 1, "root": 1}

    def drawn(self, count):
        words = [word for word, part in self.PARTS.items() for _ in range(part)]
        for _ in range(count):
            getattr(self, "do_" + self.draw.among(words))()
        return self.lines


def small(draw):
    """A service calls, sends to and writes to the subs of later ones alone, so that what a request starts comes to an end."""
    app, count, care = Application(draw, REGIONS[:2]), 3, draw.among([0, 0.4, 1])
    kinds = [draw.among(KEYED), draw.among(KEYED + ["queue", "topic"]), draw.among(["kv", "table", "queue", "topic"])]
    replicas = [draw.among([["us"], ["eu"], ["us", "eu"], ["us", "eu"]]) for _ in kinds]
    regions = [draw.among(app.regions) for _ in range(count)]
    handlers = [["one", "two"][: 1 + draw.below(2)] for _ in range(count)]
    latest = []  # of each store the last service that may write to it
    for number, kind in enumerate(kinds):
        app.store(f"s{number}", kind, replicas[number])
        started = [i for i in range(1, count) if regions[i] in replicas[number]] if kind in ("queue", "topic") else []
        started = [draw.among(started)] if started else []
        for i in started:
            app.sub(f"s{number}", f"w{i}", draw.among(handlers[i]))
        latest.append(started[0] - 1 if started else count)
    for i in range(count):
        looks = [(f"s{n}", kind) for n, kind in enumerate(kinds) if kind != "queue" and regions[i] in replicas[n]]
        writes = [(f"s{n}", kind) for n, kind in enumerate(kinds) if i <= latest[n]]
        posts = [(f"w{j}", handler) for j in range(i + 1, count) for handler in handlers[j]]
        bodies = {handler: Body(draw, care, looks, writes, posts).drawn(3 + draw.below(5)) for handler in handlers[i]}
        app.service(f"w{i}", regions[i], bodies)
        for _ in range(1 + draw.below(2)):
            app.request(f"w{i}", draw.among(handlers[i]), draw.among(["k1", "k2"]))
    return app.text()


# Flows.


def kept(draw, store, kind, key):
    """A write of what a flow tells of, and now and then one that the lineage loses."""
    write = f"write {store} {key} {draw.value(kind)}"
    return draw.among([[f"{write} as {store} untracked"], [f"{write} as {store}", f"remove {store}"]] + [[write]] * 22)


def arriving(draw, link, number):
    """How a service comes to what it is told of: its first lines, and the word for the key that it is told."""
    if link != "read":
        return [], "$in"
    return [f"read link{number} m as x", *draw.perhaps(TRANSFER, "transfer x")], "$x"


def telling(link, number, key):
    """How a service tells the next one."""
    if link in ("send", "call"):
        return [f"{link} w{number + 1} go {key}" + (" as r" if link == "call" else "")]
    return [f"write link{number} {'m' if link == 'read' else 'c'} {key}"]


def flow(draw):
    """Whoever is told of a key reads what was written under it first, or what the one before added. Who called then looks for what was added."""
    app, length = Application(draw, REGIONS), 2 + draw.below(3)
    regions = [draw.among(REGIONS) for _ in range(length)]
    links = [draw.among(LINKS) for _ in range(length - 1)]
    stores = {name: draw.among(KEYED) for name in ["data", "more"]}
    for name, kind in stores.items():
        app.store(name, kind, REGIONS)
    for number, link in enumerate(links):
        if link in ("queue", "topic", "read"):
            app.store(f"link{number}", draw.among(["kv", "table", "cached"]) if link == "read" else link, REGIONS[:])
        if link in ("queue", "topic"):
            app.sub(f"link{number}", f"w{number + 1}", "go")
    added = False  # whether the one before wrote to `more`
    for number in range(length):
        body, key = arriving(draw, links[number - 1], number - 1) if number else ([], "$in")
        if number:
            body += [*draw.perhaps(BARRIER, "barrier"), f"read {draw.among(['data', 'more'] if added else ['data'])} {key} as y"]
            body += draw.perhaps(TRANSFER, "transfer y")
        else:
            body += kept(draw, "data", stores["data"], key)
        added = draw.chance(0.5)
        body += kept(draw, "more", stores["more"], key) if added else []
        if number + 1 < length:
            body += telling(links[number], number, key)
            if links[number] == "call" and draw.chance(0.6):
                body += [*draw.perhaps(BARRIER, "barrier"), f"read more {key} as z"]
        app.service(f"w{number}", regions[number], {"go": body})
        if not number or links[number - 1] == "read":
            for _ in range(1 + draw.below(2)):
                app.request(f"w{number}", "go", draw.among(["k1", "k2"]))
    return app.text()


# Chains.


class Link:
    """A key of a store, which one service of a chain writes and later ones read."""

    def __init__(self, store, kind, number):
        self.store, self.kind, self.key = store, kind, "c" if kind == "topic" else f"k{number}"

    def written(self, draw):
        return f"write {self.store} {self.key} {draw.value(self.kind)}"

    def read(self, draw, name):
        if self.kind == "topic":
            return f"poll {self.store} c#1 as {name}"
        word = "scan" if self.kind == "table" and draw.chance(0.5) else "read"
        return f"{word} {self.store} {self.key} as {name}"


def links_of(draw, app, regions):
    """The links of a chain: each in a store of its own, with replicas where it may be read, or in a few stores with replicas everywhere."""
    count, few = len(regions) - 1, 1 + draw.below(3)
    if draw.chance(0.5):
        few, kinds = count, [draw.among(["kv", "table", "blob", "cached", "topic"]) for _ in range(count)]
        read = [[region for region in REGIONS if region in regions[number + 1 :]] for number in range(count)]
        replicas = [there if draw.chance(0.4) else REGIONS for there in read]
    else:
        # a single table shows nothing before all that was written before it
        kinds = [draw.among(["kv", "blob", "cached", "kv"] + ["table"] * (few > 1)) for _ in range(few)]
        replicas = [REGIONS] * few
    for number, kind in enumerate(kinds):
        app.store(f"d{number}", kind, replicas[number])
    of = list(range(count)) if few == count else [draw.below(few) for _ in range(count)]
    return [Link(f"d{of[number]}", kinds[of[number]], number) for number in range(count)]


def chained(draw, links, number):
    """The body of one of a chain: it reads what the one before wrote, looks perhaps further back, as the last one always does, and writes."""
    body, last = [], len(links)
    if number:
        body += [links[number - 1].read(draw, "x"), *draw.perhaps(TRANSFER + 0.05, "transfer x")]
    if number == last or number > 1 and draw.chance(0.4):
        body += [*draw.perhaps(BARRIER, "barrier"), links[draw.below(number - 1)].read(draw, "y"), *draw.perhaps(TRANSFER, "transfer y")]
    return body + ([links[number].written(draw)] if number < last else [])


def aside(draw, link, number):
    """The body of a by-stander, which reads a link, or writes a key that nobody reads next to it."""
    key = "e" if link.kind == "topic" else f"z{number}"
    return draw.among([[link.read(draw, "x")], [f"write {link.store} {key} {draw.value(link.kind)}"]])


def chain(draw):
    """Each is started by a request; nothing but what it reads joins it to the one before."""
    app, length = Application(draw, REGIONS), 3 + draw.below(3)
    regions = [draw.among(REGIONS) for _ in range(length)]
    links = links_of(draw, app, regions)
    names = draw.mixed([f"w{number}" for number in range(length)])  # so that no name tells a service's place
    for number, name in enumerate(names):
        app.service(name, regions[number], {"go": chained(draw, links, number)})
    for number in range(draw.below(4)):
        # where the last one is, all links have replicas
        app.service(f"by{number}", regions[-1], {"go": aside(draw, draw.among(links), number)})
    for name in app.services:
        for _ in range(1 if name in names[:-1] and draw.chance(0.8) else 1 + draw.below(2)):
            app.request(name, "go", "")
    return app.text()


# Long ones.


def long(draw, lines=17):
    """A service that reads what it wrote, behind so many lines that are each run 256 times: writes to queues, so that none replaces another,
    which are not tracked, so that no lineage grows. With comments, the choices of a run are too long for a document even where they are few
    enough."""
    app, queues = Application(draw, REGIONS[:1]), 5
    app.store("data", draw.among(KEYED), REGIONS[:1])
    for number in range(queues):
        app.store(f"queue-of-messages-{number}", "queue", REGIONS[:1])
    writes = [f"write queue-of-messages-{line % queues} c v as x{line} untracked" for line in range(lines)]
    app.service("w", "us", {"go": ["write data k v", "repeat 16", "repeat 16", *writes, "end", "end", "read data k as y"]})
    app.request("w", "go", "")
    return app.text()


def near(draw):
    return long(draw, 15)


KINDS = {"small": small, "flows": flow, "chains": chain, "near": near, "long": long}


def drawn(kind, count, seed=SEED):
    """So many documents of a kind, each with its name."""
    for number in range(1, count + 1):
        yield f"{kind}_{number}.toml", KINDS[kind](Draw(f"{kind} {seed} {number}"))


def written(folder, kind, count, seed=SEED):
    """Writes so many documents of a kind into a folder, and tells their paths."""
    os.makedirs(folder, exist_ok=True)
    paths = []
    for name, text in drawn(kind, count, seed):
        paths.append(os.path.join(folder, name))
        with open(paths[-1], "w", encoding="ascii") as file:
            file.write(text)
    return paths


if __name__ == "__main__":
    if len(sys.argv) not in (2, 4, 5) or len(sys.argv) > 2 and sys.argv[2] not in KINDS:
        sys.exit("usage: bench/applications.py FOLDER [KIND COUNT [SEED]]")
    asked = {sys.argv[2]: int(sys.argv[3])} if len(sys.argv) > 2 else SET
    for kind, count in asked.items():
        written(sys.argv[1], kind, count, int(sys.argv[4]) if len(sys.argv) > 4 else SEED)
