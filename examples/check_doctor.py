#!/usr/bin/env python3
"""Tells of a record what `antipode doctor` and `antipode session` have to write of its run.

    examples/check_doctor.py doctor RECORD
    examples/check_doctor.py session RECORD DOCUMENT

It shares nothing with the program, and goes another way. What is causally before a read it finds by a search from the read back along the
edges of docs/proof/MODEL.md, and which writes the read missed by looking at each write that the search came to. Whether any order explains the
reads of a span it finds once more, and without that: in each order a read stands behind the write that it shows of a key, and before the
next write to this key, so there is none just where these and the edges go round in a circle. Where the two ways do not agree, or an order
that it is about to tell does not explain the reads, it says so, and the status is 1.

For `doctor` the record is enough. What is carried into a read, and which stores have a replica where it reads, no record tells; so for
`session` the handlers of the document are played along the record, as `check_run.py` does it, which also judges whether the record is
legal. The lines `span` of the record are not looked at. The record comes from standard input where it is named `-`.
"""
import argparse
import collections
import functools
import graphlib
import re
import sys
import tomllib

sys.dont_write_bytecode = True  # nothing is left beside the examples
import check_run

ENTRY = re.compile(r"[0-9]+ (\S+) (\S+) (.+) = (.+)")
ID = re.compile(r"([A-Za-z0-9_-]+)/((?:[A-Za-z0-9_-]|%23)+)@([0-9]+)")
ROW = re.compile(r"(?:^| \+ )(\S+)@([0-9]+)")


def ids_in(text):
    """The ids of all lineages in a text, as (store, key, version). Nothing else that is written there has the form of an id."""
    return {(store, key.replace("%23", "#"), int(version)) for store, key, version in ID.findall(text)}


class Entry:
    """A line of a record. `wrote` is the id of the write that it is, `rows` has the version of each key that it was shown, `came` the ids
    of these rows and those beside them, and `brings` all ids that come to the span with it."""

    def __init__(self, line):
        self.mark, self.actor, call, self.reply = ENTRY.fullmatch(line).groups()
        self.object, self.word, self.call = self.mark.split(".")[0], call.split(" ")[0], call.split(" ")
        self.is_read = self.word in ("read", "scan", "poll")
        self.wrote, self.rows, self.came, self.brings = None, {}, set(), set()
        rows = {key: int(version) for key, version in ROW.findall(self.reply)}
        if self.is_read or self.word in ("pull", "repull"):
            self.rows = {key: version for key, version in rows.items() if version}
            self.brings = self.came = {(self.object, *row) for row in self.rows.items()} | ids_in(self.reply)
        elif self.word == "write":
            self.wrote = (self.object, *rows.popitem())
            self.brings = {self.wrote} | ids_in(self.reply if " over " in self.reply else call)
        elif self.word in ("take", "takereply"):
            self.brings = ids_in(self.reply)
        self.letter = self.letter_of()

    def letter_of(self):
        """The message that it posts or takes: the number of the call or send, or the one of the call that is answered."""
        if self.word == "takereply" or self.call[:2] == ["post", "reply"]:
            return ("reply", self.object, self.call[1 if self.word == "takereply" else 2])
        return ("message", self.object, self.reply.split(" ")[1]) if self.word in ("post", "take") else None

    def speaks_of(self, store, key):
        return store == self.object and (key.startswith(self.call[2]) if self.word == "scan" else key == self.call[2])


class Trace:
    """The entries of a record, named by their places in it; the places of the entries of each span, and of the posts, the takes and the
    takings of replies by their messages."""

    def __init__(self, text):
        lines = text.splitlines()
        self.entries = [Entry(line) for line in lines if line[:1].isdigit()]
        self.processes = [line.split(" ")[1] for line in lines if line.startswith("process ")]
        self.writes = [place for place, entry in enumerate(self.entries) if entry.wrote]
        self.spans, self.sources = collections.defaultdict(list), []
        self.by_letter = {word: {} for word in ("post", "take", "takereply")}
        self.find_sources()

    def find_sources(self):
        """Of each entry the places from which an edge leads to it: the one before it in its span, the post of what it takes, the writes of
        what it is shown and of what is kept beside that, and the write that it replaces."""
        written, newest = {}, {}
        for place, entry in enumerate(self.entries):
            found = [written[id] for id in entry.came] + self.spans.get(entry.actor, [])[-1:]
            if entry.word in ("take", "takereply"):
                found += [self.by_letter["post"][entry.letter]] if entry.letter in self.by_letter["post"] else []
            if entry.wrote:
                found += [newest[entry.wrote[:2]]] if entry.wrote[:2] in newest else []
                written[entry.wrote] = newest[entry.wrote[:2]] = place
            if entry.letter:
                self.by_letter[entry.word].setdefault(entry.letter, place)
            if not entry.actor.startswith("~"):
                self.spans[entry.actor].append(place)
            self.sources.append(found)

    @functools.cache
    def before(self, place):
        """The places of all that is causally before an entry."""
        found, left = set(), [place]
        while left:
            new = [source for source in self.sources[left.pop()] if source not in found]
            found.update(new)
            left += new
        return found

    def spans_in_order(self):
        """The names of the spans, by the births of their processes and by their numbers."""
        numbers = collections.defaultdict(list)
        for name in self.spans:
            numbers[name.split("/")[0]].append(int(name.split("/")[1]))
        return [f"{process}/{number}" for process in self.processes for number in sorted(numbers[process])]

    def reads_of(self, span):
        return [place for place in self.spans[span] if self.entries[place].is_read]

    def marks(self, places):
        return " ".join(self.entries[place].mark for place in places)

    # Orders.

    def order(self, reads):
        """For each read the writes before it that are not listed yet, and the read; then all other writes."""
        listed = {}
        for read in reads:
            listed.update(dict.fromkeys(place for place in self.writes if place in self.before(read)))
            listed[read] = None
        return list(listed | dict.fromkeys(self.writes))

    def bounds(self, read):
        """The write that a read shows of each key that it speaks of, and the next write to this key, each where there is one."""
        entry, chains = self.entries[read], collections.defaultdict(list)
        for place in self.writes:
            if entry.speaks_of(*self.entries[place].wrote[:2]):
                chains[self.entries[place].wrote[1]].append(place)
        for key, chain in chains.items():
            shown = [self.entries[place].wrote[2] <= entry.rows.get(key, 0) for place in chain].count(True)
            yield chain[shown - 1] if shown else None, chain[shown] if shown < len(chain) else None

    def has_order(self, reads):
        """Whether some order explains the reads: no circle leads along the edges, from a write to the read that shows it, and from a read
        to the next write to the key."""
        graph = {place: set(sources) for place, sources in enumerate(self.sources)}
        for read in reads:
            for shown, following in self.bounds(read):
                graph[read].update([] if shown is None else [shown])
                graph[read if following is None else following].update([] if following is None else [read])
        try:
            graphlib.TopologicalSorter(graph).prepare()
        except graphlib.CycleError:
            return False
        return True

    def explains(self, order):
        """Whether each member stands behind all that is before it, and each read between what it shows of a key and the next write."""
        at = {place: position for position, place in enumerate(order)}
        if any(at.get(other, -1) > position for place, position in at.items() for other in self.before(place)):
            return False
        bounds = [(at[read], *bound) for read in order if self.entries[read].is_read for bound in self.bounds(read)]
        return all((one is None or at[one] < here) and (other is None or at[other] > here) for here, one, other in bounds)

    def explained(self, span, reads):
        """The marks of the order of some reads, which has to explain them."""
        order = self.order(reads)
        if not self.explains(order):
            sys.exit(f"{span}: this order does not explain the reads: {self.marks(order)}")
        return self.marks(order)

    # The doctor.

    def missed(self, read):
        """The writes before a read, to keys that it speaks of, above what it shows: of each key the newest, ascending by key."""
        entry, newest = self.entries[read], {}
        for place in sorted(self.before(read)):
            store, key, version = self.entries[place].wrote or ("", "", 0)
            if version > entry.rows.get(key, 0) and entry.speaks_of(store, key):
                newest[key] = place
        return [newest[key] for key in sorted(newest)]

    def diagnosis(self, span):
        reads, first = self.reads_of(span), {}
        for read in reads:
            for write in self.missed(read):
                first.setdefault(write, read)
        if self.has_order(reads) != (not first):
            sys.exit(f"{span}: reads missed {self.marks(first) or 'nothing'}, and {'an' if first else 'no'} order explains them")
        if not first:
            return "sound " + self.explained(span, reads)
        return "misses " + " ".join(f"{self.entries[read].mark}:{self.entries[write].mark}" for write, read in first.items())

    # Sessions.

    def server(self, span, call):
        """The first span of the process that answered a call, where the span took the reply."""
        reply, post, taken = ("reply", *call.letter[1:]), self.by_letter["post"], self.by_letter["takereply"]
        taker = self.by_letter["take"].get(call.letter)
        if taker is None or reply not in post or reply not in taken or self.entries[taken[reply]].actor != span:
            return None
        served = self.entries[taker].actor
        return served if self.entries[post[reply]].actor == served else None

    def members(self, span):
        """The reads of a span, with the members of those who answered its calls."""
        for place in self.spans[span]:
            entry = self.entries[place]
            if entry.is_read:
                yield place
            elif entry.call[:2] == ["post", "call"]:
                server = self.server(span, entry)
                yield from self.members(server) if server else ()


class Played(check_run.Run):
    """A run that notes what is carried into each entry of a process."""

    def __init__(self, app):
        super().__init__(app, ["~0"] + [f"~{number}" for number in range(1, app.workers + 1)])
        self.carried = []

    def make(self, object, call, due, stamp, asker):
        process = self.processes.get(asker)
        self.carried.append({(id.store, id.key, id.version) for id in process.lineage} if process else set())
        super().make(object, call, due, stamp, asker)


class Sessions:
    """What is answered of sessions: of a trace, what is carried into each entry, and the regions of each store."""

    def __init__(self, trace, run):
        self.trace, self.carried = trace, run.carried
        self.regions = {store.name: set(store.owed) for store in run.app.stores}
        self.loss = next(filter(self.loses, range(len(trace.entries))), None)

    def earlier(self, place):
        span = self.trace.spans[self.trace.entries[place].actor]
        return [self.trace.entries[other] for other in span if other < place]

    def loses(self, place):
        """Whether at a write, a read, a look or a post less is carried than came to the span before."""
        entry = self.trace.entries[place]
        if not entry.is_read and entry.word not in ("write", "look", "dry", "post"):
            return False
        return not set().union(*(other.brings for other in self.earlier(place))) <= self.carried[place]

    def is_settled(self, read):
        region = self.trace.entries[read].call[1]
        looks = [other for other in self.earlier(read) if other.word in ("look", "dry") and other.reply == "clear"]
        found = set().union(*(ids_in(look.call[2]) for look in looks))
        return all(id in found for id in self.carried[read] if region in self.regions[id[0]])

    def answer(self, span, members):
        if self.loss is not None:
            return "lossy " + self.trace.marks([self.loss])
        unsettled = [read for read in members if not self.is_settled(read)]
        return "unguarded " + self.trace.marks(unsettled[:1]) if unsettled else "order " + self.trace.explained(span, members)

    def of_requests(self):
        """The sessions: the spans with members of processes that a request started."""
        for span in self.trace.spans_in_order():
            birth = self.trace.entries[self.trace.spans[span.split("/")[0] + "/1"][0]]
            members = list(self.trace.members(span))
            if members and birth.word == "take" and birth.reply.split(" ")[2] == "request":
                yield span, members


def played(document, text):
    """The run that a record tells, of the application that a document states."""
    with open(document, "rb") as file:
        run = Played(check_run.Application(tomllib.load(file)))
    for line in text.splitlines():
        if line[:1].isdigit():
            run.note(line)
    return run


def told(asked, text):
    """The lines that are due."""
    trace = Trace(text)
    yield f"{asked.command}{'s' if asked.command == 'session' else ''} 1"
    if asked.command == "doctor":
        yield from (f"span {span} {trace.diagnosis(span)}" for span in trace.spans_in_order() if trace.reads_of(span))
    else:
        sessions = Sessions(trace, played(asked.document, text))
        yield from (f"session {span} {sessions.answer(span, members)}" for span, members in sessions.of_requests())
    yield f"end {len(trace.entries)}"


if __name__ == "__main__":
    parser = argparse.ArgumentParser(description="Tells what `antipode doctor` and `antipode session` have to write.")
    commands = parser.add_subparsers(dest="command", required=True)
    commands.add_parser("doctor").add_argument("record")
    session = commands.add_parser("session")
    session.add_argument("record")
    session.add_argument("document")
    given = parser.parse_args()
    try:
        with open(0 if given.record == "-" else given.record, encoding="ascii", newline="\n") as source:
            print("\n".join(told(given, source.read())))
    except check_run.Wrong as fault:
        sys.exit(f"the record is not legal: {fault}")
    except (OSError, ValueError) as fault:
        sys.exit(str(fault))
