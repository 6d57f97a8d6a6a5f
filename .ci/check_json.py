#!/usr/bin/env python3
"""Reads what `antipode json` wrote with a JSON reader that is not the program's own, and holds it against the record of the same document.

    antipode json < NAME.toml | .ci/check_json.py NAME.out

What the JSON says has to be what the lines of the record say, field by field. And its bytes have to be those of that value written
compactly, with the names of each object ascending, and a newline. The status is 0 where both hold.
"""
import json
import sys


def entry(line):
    """What the line of an entry says. A carrier has no span in the record; in JSON it has the span 0."""
    stamp, mark, actor, rest = line.split(" ", 3)
    call, reply = rest.split(" = ")
    name, place = mark.split(".")
    actor, _, span = actor.partition("/")
    numbers = {"place": int(place), "span": int(span or 0), "stamp": int(stamp)}
    return {"actor": actor, "call": call, "object": name, "reply": reply, **numbers}


def said(record):
    """What the lines of a record say."""
    value = {"entries": [], "processes": [], "spans": [], "waits": []}
    for line in record.splitlines():
        word, rest = line.split(" ", 1)
        if word.isdigit():
            value["entries"].append(entry(line))
        elif word == "wait":
            number, choice = rest.split(" ", 1)
            value["waits"].append({"choice": choice, "number": int(number)})
        elif word == "process":
            name, service, handler, end = rest.split(" ", 3)
            value["processes"].append({"end": end, "handler": handler, "name": name, "service": service})
        elif word == "span":
            name, answer = rest.split(" ", 1)
            value["spans"].append({"answer": answer, "name": name})
        else:  # `record` or `end`
            value[word] = int(rest)
    return value


def difference(found, wanted, path="it"):
    """Where two values differ first, or none."""
    if isinstance(found, dict) and isinstance(wanted, dict) and found.keys() == wanted.keys():
        pairs = [(f"{path}.{name}", found[name], wanted[name]) for name in wanted]
    elif isinstance(found, list) and isinstance(wanted, list) and len(found) == len(wanted):
        pairs = [(f"{path}[{place}]", *both) for place, both in enumerate(zip(found, wanted))]
    else:
        return None if found == wanted else f"{path} is {found!r} and not {wanted!r}"
    return next(filter(None, (difference(one, other, at) for at, one, other in pairs)), None)


with open(sys.argv[1], encoding="ascii") as file:
    wanted = said(file.read())
text = sys.stdin.buffer.read().decode("ascii")
compact = json.dumps(wanted, separators=(",", ":"), sort_keys=True) + "\n"
fault = difference(json.loads(text), wanted) or (None if text == compact else "its bytes are not those of the compact form")
sys.exit(fault and f"{sys.argv[1]}: {fault}")
