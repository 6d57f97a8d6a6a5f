#!/usr/bin/env python3
"""Reads records of `antipode` and works out the order that explains what each span read, from their entries alone.

    .ci/check_orders.py NAME.out ..

What a process carried is not in the record, so this goes another way than the program: it finds which entries are causally before which
(by the order of a process within a span, by messages, by the rows that are shown, by the lineages that are stored beside them, and by the
writes that others replace), and takes as the past of a read the writes before it. Each line `span .. order ..` has to be just the order
that results, and this order has to explain the reads: each shows, of each key that it speaks of, the last version that stands before it.
The status is 0 where that holds.
"""
import re
import sys
from urllib.parse import unquote


def ids_in(text):
    """The ids in all lineages of a text, as (store, key, version)."""
    found = set()
    for lineage in re.findall(r"(?<!\S)1;(\S*)", text):
        for id in filter(None, lineage.split(",")):
            store, rest = id.split("/")
            key, version = rest.split("@")
            found.add((unquote(store), unquote(key), int(version)))
    return found


def rows_in(reply):
    """The rows of a reply, as (key, version)."""
    return [(key, int(version)) for key, version in re.findall(r"(?:^| \+ )(\S+?)@(\d+)", reply)]


class Entry:
    def __init__(self, line):
        stamp, self.mark, self.actor, rest = line.split(" ", 3)
        call, self.reply = rest.split(" = ")
        self.object = self.mark.split(".")[0]
        self.word, self.call = call.split(" ")[0], call.split(" ")
        self.reads = self.word in ("read", "scan", "poll")
        self.wrote, self.came = None, set()
        if self.word == "write":
            (row,) = rows_in(self.reply)
            self.wrote = (self.object, *row)
        if self.reads or self.word in ("pull", "repull"):
            self.rows = rows_in(self.reply)
            self.came = {(self.object, *row) for row in self.rows if row[1] > 0} | ids_in(self.reply)

    def letter(self):
        """What it posts or takes: a call and a send by their number, a reply by that of its call."""
        if self.word == "post":
            kind = self.call[1]
            return ("answered", self.object, self.call[2]) if kind == "reply" else ("asked", self.object, self.reply.split(" ")[1])
        if self.word == "take":
            return ("asked", self.object, self.reply.split(" ")[1])
        return ("answered", self.object, self.call[1]) if self.word == "takereply" else None

    def speaks_of(self, key):
        return key.startswith(self.call[2]) if self.word == "scan" else key == self.call[2]


def pasts(entries):
    """Of each entry the places of all that is causally before it."""
    last, writes, newest, posts, before = {}, {}, {}, {}, []
    for place, entry in enumerate(entries):
        edges = {writes[id] for id in entry.came}
        if "/" in entry.actor and entry.actor in last:
            edges.add(last[entry.actor])
        if entry.wrote and entry.wrote[:2] in newest:
            edges.add(newest[entry.wrote[:2]])
        if entry.word in ("take", "takereply") and entry.letter() in posts:
            edges.add(posts[entry.letter()])
        before.append(edges.union(*(before[edge] for edge in edges)))
        last[entry.actor] = place
        if entry.wrote:
            writes[entry.wrote] = newest[entry.wrote[:2]] = place
        if entry.word == "post":
            posts[entry.letter()] = place
    return before


def order_of(entries, before, reads):
    """First the writes that are before a read and not listed yet, then the read; at the end all other writes."""
    writes, listed = [place for place, entry in enumerate(entries) if entry.wrote], []
    for read in reads:
        listed += [place for place in writes if place in before[read] and place not in listed] + [read]
    return listed + [place for place in writes if place not in listed]


def unexplained(entries, order):
    """The first read that does not show just the last versions before it."""
    for at, place in enumerate(order):
        read = entries[place]
        if read.reads:
            stand = [entries[other].wrote for other in order[:at] if entries[other].wrote]
            last = {key: version for store, key, version in stand if store == read.object and read.speaks_of(key)}
            if last != {key: version for key, version in read.rows if version > 0}:
                return read.mark
    return None


def check(name):
    """Ends the program with what is wrong with a record."""
    with open(name, encoding="ascii") as file:
        lines = file.read().splitlines()
    entries = [Entry(line) for line in lines if line.split(" ")[0].isdigit()]
    before = pasts(entries)
    spans = sorted({entry.actor for entry in entries if entry.reads})
    told = {line.split(" ")[1]: line.split(" ")[2:] for line in lines if line.startswith("span ")}
    if sorted(told) != spans:
        sys.exit(f"{name}: the spans with a read are {spans}")
    for span, (word, *marks) in told.items():
        order = order_of(entries, before, [place for place, entry in enumerate(entries) if entry.reads and entry.actor == span])
        wanted = [entries[place].mark for place in order]
        if word == "order" and marks != wanted:
            sys.exit(f"{name}: the order of {span} is {' '.join(wanted)}")
        if word == "order" and unexplained(entries, order):
            sys.exit(f"{name}: {span} does not explain {unexplained(entries, order)}")


for name in sys.argv[1:]:
    check(name)
