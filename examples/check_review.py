#!/usr/bin/env python3
"""Reviews the lines of an application, from the rule in docs/PLACEMENT.md alone; it shares nothing with the program.

    examples/check_review.py DOCUMENT

It prints what `antipode review` has to write of the document, which has to be one that `antipode step` plays. Each way through a body is gone
through by the states that can be there before each line: which variables hold rows that were not transferred, and whether a barrier waited
for all that is carried.
"""
import sys
import tomllib

RANKS = {"removed": 0, "untracked": 1, "untransferred": 2, "unsettled": 3}
LOOKS = ("read", "scan", "poll")


def blocks_of(lines):
    """The lines of a body as a list of items: a line's number with its words and, where it opens a block, the items of this."""
    items, number = [], 0
    while number < len(lines):
        words = lines[number].split()
        if words[0] in ("repeat", "if"):
            depth, end = 1, number
            while depth:
                end += 1
                depth += {"repeat": 1, "if": 1, "end": -1}.get(lines[end].split()[0], 0)
            inner = blocks_of(lines[number + 1:end])
            items.append((number + 1, words, shifted(inner, number + 1)))
            number = end + 1
        else:
            items.append((number + 1, words, None))
            number += 1
    return items


def shifted(items, by):
    """Items with later line numbers."""
    return [(line + by, words, block and shifted(block, by)) for line, words, block in items]


class Review:
    """What is found on the ways through the body of a handler."""

    def __init__(self, called):
        self.called, self.faults, self.waits, self.barriers = called, set(), set(), set()

    def fails(self, line, reason, does):
        """Notes that a line fails, where it does."""
        if does:
            self.faults.add((line, RANKS[reason], reason))

    def look(self, line, words, state):
        """What a line needs in a state."""
        rows, unsettled = state
        first = words[0]
        self.fails(line, "removed", first == "remove")
        untracked = first == "write" and words[-1] == "untracked"
        self.fails(line, "untracked", untracked)
        hands_on = first in ("write", "call", "send", "dryrun", "barrier") + LOOKS and not untracked
        self.fails(line, "untransferred", rows and (hands_on or first == "nack" and self.called))
        self.fails(line, "unsettled", first in LOOKS and unsettled)
        if first == "barrier" and unsettled:
            self.waits.add(line)

    def behind(self, words, state):
        """The state behind a line, or none where the way ends."""
        rows, unsettled = state
        match words[0]:
            case "nack":
                return None
            case "root" | "stop":
                return (frozenset(), False)
            case "barrier":
                return (rows, False)
            case "append" | "call":
                return (rows, True)
            case "write":
                return (rows, unsettled or words[-1] != "untracked")
            case "transfer":
                return (rows - {words[1]}, True)
            case "read" | "scan" | "poll":
                return (rows | {words[-1]}, unsettled)
        return state

    def through(self, items, states):
        """The states behind some items, of those before them."""
        for line, words, block in items:
            if words[0] == "if":
                states = states | self.through(block, states)
            elif words[0] == "repeat":
                if int(words[1]):
                    once = self.through(block, states)
                    states = once | self.through(block, once)
                else:
                    self.through(block, set())
            else:
                if words[0] == "barrier":
                    self.barriers.add(line)
                for state in states:
                    self.look(line, words, state)
                states = {after for after in (self.behind(words, state) for state in states) if after}
        return states


def named_in(document, service, handler):
    """Whether a call names the handler, and whether a call, a send or a sub does."""
    words = [line.split() for s in document.get("service", []) for h in s["handler"] for line in h["body"]]
    called = ["call", service, handler] in [w[:3] for w in words]
    sent = ["send", service, handler] in [w[:3] for w in words]
    subs = any(s["service"] == service and s["handler"] == handler for s in document.get("sub", []))
    return called, called or sent or subs


def reviewed(document):
    """The lines of the review, those of faults and those of barriers."""
    faults, barriers = [], []
    for service in document.get("service", []):
        for handler in service["handler"]:
            called, named = named_in(document, service["name"], handler["name"])
            review = Review(called)
            items = blocks_of(handler["body"]) + [(len(handler["body"]) + 1, ["nack"], None)]
            review.through(items, {(frozenset(), named)})
            place = f"{service['name']} {handler['name']}"
            faults += [f"{place} {line} {reason}" for line, _, reason in sorted(review.faults)]
            barriers += [f"{place} {line} superfluous" for line in sorted(review.barriers - review.waits)]
    return faults + barriers


with open(sys.argv[1], "rb") as source:
    remarks = reviewed(tomllib.load(source))
print("\n".join(["review 1", *remarks, f"end {len(remarks)}"]))
