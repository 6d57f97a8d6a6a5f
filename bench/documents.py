"""The documents that bench/run plays: each a function of the sizes that it grows with."""
import os
import re

HERE = os.path.dirname(os.path.abspath(__file__))

# Limits of documents and objects: requests, and the units of an object, of which a write takes one for itself and one for each part
# that is to be brought to each replica.
MOST_REQUESTS = 400
MOST_UNITS = 4096


def quoted(texts):
    """An array of strings."""
    return "[" + ", ".join(f'"{text}"' for text in texts) + "]"


# What a handler does: it writes to the key of its request, each time with all that it wrote before in its lineage, and reads or looks.
BODIES = {
    "writes": [f"write s $in v{i}" for i in range(62)] + ["barrier", "read s $in as x"],
    "looks": [line for i in range(32) for line in (f"write s $in v{i}", "dryrun")],
}


def document(choices, body):
    """One store with a replica, requests with this body, each with a key of its own as its value, and a schedule of so many choices that
    ships each write at once."""
    lines, request, version = [], 0, 0
    while len(lines) < choices:
        request += 1
        lines.append("take w 1")
        for statement in body:
            lines.append(f"go w.{request}")
            if statement.startswith("write"):
                version += 1
                lines.append(f"ship s eu {version}")
    lines = lines[:choices]
    return "\n".join(
        [
            'regions = ["eu"]',
            f"choices = {quoted(lines)}",
            'store = [{ name = "s", kind = "kv", replicas = ["eu"] }]',
            "request = [" + ", ".join(f'{{ service = "w", handler = "h", value = "k{i}" }}' for i in range(max(request, 1))) + "]",
            "[[service]]",
            'name = "w"',
            'region = "eu"',
            f'handler = [{{ name = "h", body = {quoted(body)} }}]',
        ]
    )


def finished(requests, names, lines, services=1):
    """So many requests in turn to so many services, each with a key of its own as its value and a handler with these lines, on stores of
    these names with a replica each, and `finish`."""
    stores = ", ".join(f'{{ name = "{name}", kind = "kv", replicas = ["eu"] }}' for name in names)
    asked = ", ".join(f'{{ service = "w{i % services or ""}", handler = "h", value = "k{i}" }}' for i in range(requests))
    served = [
        line
        for i in range(services)
        for line in ("[[service]]", f'name = "w{i or ""}"', 'region = "eu"', f'handler = [{{ name = "h", body = {quoted(lines)} }}]')
    ]
    return "\n".join(['regions = ["eu"]', 'choices = ["finish"]', f"store = [{stores}]", f"request = [{asked}]", *served])


def with_workers(text, workers):
    """The same document with so many workers."""
    return f"workers = {workers}\n" + re.sub(r"^workers = .*\n", "", text, flags=re.MULTILINE)


def called(requests, deep):
    """So many requests, each through a chain of calls this deep, and `finish`."""
    services = "".join(
        f'[[service]]\nname = "a{i}"\nregion = "eu"\nhandler = [{{ name = "h", body = ["{line}"] }}]\n'
        for i, line in enumerate([f"call a{i + 1} h $in as x" for i in range(deep)] + ["reply $in"])
    )
    return "\n".join(
        [
            'regions = ["eu"]',
            'choices = ["finish"]',
            "request = [" + ", ".join(['{ service = "a0", handler = "h", value = "k" }'] * requests) + "]",
            services,
        ]
    )


def written(line, ids):
    """A line that is run so often, a multiple of 16: in blocks of at most 256 turns."""
    turns = [256] * (ids // 256) + [ids % 256] * (ids % 256 > 0)
    return [part for times in turns for part in ("repeat 16", f"repeat {times // 16}", line, "end", "end")]


def carrying(ids):
    """Seven requests, each of which writes to a key of its own, and sends 256 messages with so many ids, a multiple of 16, as their
    baggage."""
    lines = written("write s $in v", ids) + written("send d h x", SENDS)
    return "\n".join(
        [
            'regions = ["eu"]',
            'choices = ["finish"]',
            'store = [{ name = "s", kind = "kv", replicas = ["eu"] }]',
            "request = [" + ", ".join(f'{{ service = "c", handler = "h", value = "k{i}" }}' for i in range(7)) + "]",
            f'[[service]]\nname = "c"\nregion = "eu"\nhandler = [{{ name = "h", body = {quoted(lines)} }}]',
            '[[service]]\nname = "d"\nregion = "eu"\nhandler = [{ name = "h", body = [] }]',
        ]
    )


SENDS = 256
# Names with which an id has some 55 bytes.
LONG_STORE = "a-store-of-long-name-{}"
LONG_KEY = "a-key-of-a-longer-name"


def sending(services, times, ids, name="s{}", key="k", then=()):
    """A request for each of so many services: it writes so many ids of a key of its own, a multiple of 16, and sends `times` times 256
    messages to the service's one handler, which does what it is told. A store has units for eight such requests of 256 ids, or four of 512, an
    inbox for 2,048 sends."""
    bodies = []
    places = 2 if ids <= 256 else 4
    stores = ", ".join(f'{{ name = "{name.format(i)}", kind = "kv", replicas = ["eu"] }}' for i in range(places))
    for i in range(services):
        lines = written(f"write {name.format(i % places)} {key}{i} v", ids) + written(f"send d{i} h x", SENDS) * times
        bodies.append(f'{{ name = "h{i}", body = {quoted(lines)} }}')
    targets = "".join(
        f'[[service]]\nname = "d{i}"\nregion = "eu"\nhandler = [{{ name = "h", body = {quoted(then)} }}]\n' for i in range(services)
    )
    return "\n".join(
        [
            'regions = ["eu"]',
            'choices = ["finish"]',
            f"store = [{stores}]",
            "request = [" + ", ".join(f'{{ service = "c", handler = "h{i}" }}' for i in range(services)) + "]",
            f'[[service]]\nname = "c"\nregion = "eu"\nhandler = [{", ".join(bodies)}]',
            targets,
        ]
    )


def missing(stores, ids, looks):
    """A request for each of so many stores: it writes so many ids to it, a multiple of 16, and looks for them so often, a multiple of 512,
    before any of them is shipped. Of the 4,096 units of a store a write takes two, and each look one."""
    bodies = []
    for i in range(stores):
        lines = written(f"write {LONG_STORE.format(i)} {LONG_KEY} v", ids)
        lines += ["repeat 16", "repeat 16", "dryrun", "dryrun", "end", "end"] * (looks // 512)
        bodies.append(f'{{ name = "h{i}", body = {quoted(lines)} }}')
    defined = ", ".join(f'{{ name = "{LONG_STORE.format(i)}", kind = "kv", replicas = ["eu"] }}' for i in range(stores))
    return "\n".join(
        [
            'regions = ["eu"]',
            'choices = ["finish"]',
            f"store = [{defined}]",
            "request = [" + ", ".join(f'{{ service = "c", handler = "h{i}" }}' for i in range(stores)) + "]",
            f'[[service]]\nname = "c"\nregion = "eu"\nhandler = [{", ".join(bodies)}]',
        ]
    )


# Times that a line stands in a body of 64 lines beside two `repeat`s and what is done first, and turns of these.
IDLE_LINES, IDLE_TURNS = 58, ["repeat 16", "repeat 16"]


def idle(lines, first=(), then=()):
    """A request writes 255 ids to eight stores without a replica where it runs, does what it is told then, and sends 256 messages. The
    handler that they start does what it is told first, and then 58 times 256 of these lines in turn, which make no entry. Beside 15
    stores there is a topic without a replica there, where what a handler writes replaces nothing."""
    stores = ", ".join(f'{{ name = "s{i}", kind = "kv", replicas = ["{("eu", "us")[i % 2]}"] }}' for i in range(16) if i != 14)
    stores += ', { name = "n", kind = "topic", replicas = ["us"] }'
    writes = ["repeat 15"] + [f"write s{2 * (i % 8) + 1} k v" for i in range(17)] + ["end"]
    sends = IDLE_TURNS + ["send d h x", "end", "end"]
    body = [*first, *IDLE_TURNS, *(lines[i % len(lines)] for i in range(IDLE_LINES)), "end", "end"]
    return "\n".join(
        [
            'regions = ["eu", "us"]',
            'choices = ["finish"]',
            f"store = [{stores}]",
            'request = [{ service = "c", handler = "h" }]',
            f'[[service]]\nname = "c"\nregion = "eu"\nhandler = [{{ name = "h", body = {quoted([*writes, *then, *sends])} }}]',
            f'[[service]]\nname = "d"\nregion = "eu"\nhandler = [{{ name = "h", body = {quoted(body)} }}]',
        ]
    )


def on_stores(kind, regions, stores, requests, handlers):
    """`finish` of requests, each a handler and a value, on so many stores of a kind with a replica in each of so many regions."""
    names = [f"r{i}" for i in range(regions)]
    defined = ", ".join(f'{{ name = "s{i}", kind = "{kind}", replicas = {quoted(names)} }}' for i in range(stores))
    asked = ", ".join(f'{{ service = "w", handler = "{handler}", value = "{value}" }}' for handler, value in requests)
    bodies = ", ".join(f'{{ name = "{name}", body = {quoted(body)} }}' for name, body in handlers.items())
    return "\n".join(
        [
            f"regions = {quoted(names)}",
            'choices = ["finish"]',
            f"store = [{defined}]",
            f"request = [{asked}]",
            "[[service]]",
            'name = "w"',
            'region = "r0"',
            f"handler = [{bodies}]",
        ]
    )


def scanned(stores):
    """400 requests that write a key each on so many tables. The last eight wait for what they wrote, and scan all 400 keys of each
    table: of each 4,008 units, 2 for a write, 1 for a look of a barrier, and 400 for a scan."""
    writes = [f"write s{i} $in v" for i in range(stores)]
    scans = ["barrier"] + [f"scan s{i} k as x{i}" for i in range(stores)]
    requests = [("scan" if i >= MOST_REQUESTS - 8 else "put", f"k{i}") for i in range(MOST_REQUESTS)]
    return on_stores("table", 1, stores, requests, {"put": writes, "scan": writes + scans})


def replicated(stores):
    """Values of 256 bytes, in four parts, on so many blobs with eight replicas, each under a key of its own and read back where it was
    written: 33 units for a write, 1 for a look and 1 for a read, as often as a store has units."""
    body = [f"write s{i} $in {'v' * 256}" for i in range(stores)] + ["barrier"] + [f"read s{i} $in as x{i}" for i in range(stores)]
    return on_stores("blob", 8, stores, [("put", f"k{i}") for i in range(MOST_UNITS // 35)], {"put": body})


def filled(kind):
    """One store of a kind, which 400 requests fill: it has units for 2,048 of their 2,400 writes."""
    requests = [("put", f"k{i}") for i in range(MOST_REQUESTS)]
    return on_stores(kind, 1, 1, requests, {"put": ["write s0 $in v"] * 6})


# How many keys a handler of `read_over` names, a line each.
NAMED = 50


def read_over(kind, keys, room=None):
    """So many keys of one store, written once and shipped, and then read over and over by handlers that name 50 of them each, as often as the
    store has units for: one key after another, so that a cache with less room than keys never has the next one."""
    groups = range(keys // NAMED)
    lines = [choice for i in groups for choice in ["take w 1"] + [f"go w.{i + 1}"] * NAMED]
    lines += [f"ship s eu {i + 1}" for i in range(keys)] + ["finish"]
    put = {f"put{i}": [f"write s k{i * NAMED + j} v" for j in range(NAMED)] for i in groups}
    get = {f"get{i}": [f"read s k{i * NAMED + j} as x{j}" for j in range(NAMED)] for i in groups}
    bodies = ", ".join(f'{{ name = "{name}", body = {quoted(body)} }}' for name, body in {**put, **get}.items())
    asked = list(put) + [f"get{i % len(groups)}" for i in range((MOST_UNITS - 2 * keys) // NAMED)]
    return "\n".join(
        [
            'regions = ["eu"]',
            f"choices = {quoted(lines)}",
            f'store = [{{ name = "s", kind = "{kind}", replicas = ["eu"]{f", room = {room}" if room else ""} }}]',
            "request = [" + ", ".join(f'{{ service = "w", handler = "{name}" }}' for name in asked) + "]",
            "[[service]]",
            'name = "w"',
            'region = "eu"',
            f"handler = [{bodies}]",
        ]
    )


# How many messages are written by one request of `pulled`.
EACH = 4


def pulled(kind, units, subs, body):
    """A queue or a topic with one replica and so many subscriptions of one channel, whose handlers have this body. As many messages are
    written and shipped as the store has units for, if each takes so many to its end; then `finish` pulls them."""
    requests = MOST_UNITS // units // EACH
    lines = [choice for i in range(requests) for choice in ["take w 1"] + [f"go w.{i + 1}"] * EACH]
    lines += [f"ship s eu {i + 1}" for i in range(requests * EACH)] + ["finish"]
    defined = ", ".join(f'{{ name = "p{i}", store = "s", channel = "c", service = "w", handler = "h" }}' for i in range(subs))
    return "\n".join(
        [
            'regions = ["eu"]',
            f"choices = {quoted(lines)}",
            f'store = [{{ name = "s", kind = "{kind}", replicas = ["eu"]{", tries = 8" if kind == "queue" else ""} }}]',
            f"sub = [{defined}]",
            "request = [" + ", ".join(['{ service = "w", handler = "put", value = "v" }'] * requests) + "]",
            "[[service]]",
            'name = "w"',
            'region = "eu"',
            f'handler = [{{ name = "put", body = {quoted(["write s c $in"] * EACH)} }}, {{ name = "h", body = {quoted(body)} }}]',
        ]
    )


# What stands in the example of a whole application, and how each post gets a key of its own, and its picture.
OWN_KEYS = [
    ("write posts p1 $in", "write posts $in text"),
    ("write jobs j p1", "write jobs j $in"),
    ("media m1", "media $in"),
    ("reply m1", "reply $in"),
]


def whole(requests):
    """The example of a whole application, with a store of each kind, but so many requests in place of its own: two users, and posts, each
    with a key of its own."""
    with open(os.path.join(HERE, "../examples/whole_application.toml"), encoding="utf-8") as example:
        front, rest = example.read().split("request = [\n")
    for one, own in OWN_KEYS:
        assert one in rest, one
        rest = rest.replace(one, own)
    asked = ['{ service = "admin", handler = "join" }'] * 2
    asked += [f'{{ service = "front", handler = "post", value = "v{i}" }}' for i in range(requests - 2)]
    return front + "request = [\n" + ",\n".join(asked) + "\n" + rest[rest.index("]\n") :]


def largest():
    """A document of nearly 262,144 bytes: many choices, services and bodies, each line with a long literal."""
    text = "v" * 40
    body = "[" + ", ".join(f'"write s $in {text}{i}"' for i in range(64)) + "]"
    handlers = ", ".join(f'{{ name = "h{i}", body = {body} }}' for i in range(4))
    services = "".join(f'[[service]]\nname = "w{i}"\nregion = "eu"\nhandler = [{handlers}]\n' for i in range(12))
    head = 'regions = ["eu"]\nstore = [{ name = "s", kind = "kv", replicas = ["eu"] }]\n'
    requests = "request = [" + ", ".join('{ service = "w0", handler = "h0" }' for _ in range(400)) + "]\n"
    rest = 262_144 - len(head) - len(requests) - len(services) - len("choices = []\n")
    choices = "choices = [" + ", ".join(['"again s eu 4096"'] * min(4096, rest // 19)) + "]\n"
    document = head + choices + requests + services
    return document + "#" * (262_144 - len(document))


def judged(handlers):
    """So many handlers, a multiple of 16, of 59 lines, 256 in a document of 262,144 bytes: each reads into 14 variables, behind a barrier
    each time, and calls another."""
    each = handlers // 16
    body = ["barrier", "read s $in as a", "transfer a", "if a absent", "barrier", "end"]
    for i in range(13):
        body += ["barrier", f"read s k{i} as x{i}", f"transfer x{i}", f"write s k{i} v"]
    bodies = [[f'{{ name = "h{j}", body = {quoted(body + [f"call w{(i + 1) % 16} h{j} v as r"])} }}' for j in range(each)] for i in range(16)]
    services = "".join(f'[[service]]\nname = "w{i}"\nregion = "eu"\nhandler = [{", ".join(bodies[i])}]\n' for i in range(16))
    document = 'regions = ["eu"]\nstore = [{ name = "s", kind = "kv", replicas = ["eu"] }]\n' + services
    return document + "#" * (handlers * 1_024 - len(document))


def application(regions, stores, services, requests):
    """`finish` of requests, each a service, a handler and a value, on stores of a kind with replicas in these regions. A service has its region
    and its handlers with their bodies."""
    lines = [f"regions = {quoted(regions)}", 'choices = ["finish"]']
    for name, kind, replicas in stores:
        lines += ["[[store]]", f'name = "{name}"', f'kind = "{kind}"', f"replicas = {quoted(replicas)}"]
    for name, region, handlers in services:
        lines += ["[[service]]", f'name = "{name}"', f'region = "{region}"']
        for handler, body in handlers.items():
            lines += ["[[service.handler]]", f'name = "{handler}"', f"body = {quoted(body)}"]
    for service, handler, value in requests:
        lines += ["[[request]]", f'service = "{service}"', f'handler = "{handler}"', f'value = "{value}"']
    return "\n".join(lines)


REGIONS = ["us", "eu", "ap", "sa", "af", "me", "oc", "an"]


def long_lineages(requests, ids, looks=16):
    """Requests that carry so many ids, a multiple of 15, of three stores, at one of five services: a barrier behind each 15 writes, and a
    message to the next service, which waits for all of them, looks so many times, reads, and carries on what it read."""
    services = []
    for i in range(5):
        front = [f"repeat {ids // 15}", "repeat 5", *(f"write s{3 * i + j} $in v" for j in range(3)), "end", "barrier", "end"]
        back = ["barrier", f"repeat {looks}", "dryrun", "end", f"read s{3 * i} $in as x", "transfer x"]
        services.append((f"w{i}", "us", {"front": front + [f"send w{(i + 1) % 5} back $in"], "back": back}))
    stores = [(f"s{i}", "kv", REGIONS[:1]) for i in range(15)]
    return application(REGIONS[:1], stores, services, [(f"w{i % 5}", "front", f"key-{i}") for i in range(requests)])


def short_spans(requests, writes):
    """So many requests, each of which starts five processes of four short spans with a read each, over so many writes, a multiple of 64."""
    front = ["send w work $in"] * 5 + ["read s0 $in as x", "transfer x"]
    work = ["read s0 $in as x", "transfer x", "root", "read s1 $in as y", "transfer y", "barrier"]
    work += ["root", "read s5 $in as u", "root", "read s0 $in as w"]
    put = ["repeat 16", *(f"write s{i} $in v" for i in range(4)), "end"]
    stores = [(f"s{i}", "kv", REGIONS[:2]) for i in range(8)]
    services = [("w", "us", {"front": front, "work": work}), ("z", "us", {"put": put})]
    asked = [("z", "put", f"z{i}") for i in range(writes // 64)] + [("w", "front", f"k{i}") for i in range(requests)]
    return application(REGIONS[:2], stores, services, asked)


def large_values(requests, parts, regions):
    """Requests that each write three values in so many parts to 16 blobs at so many regions. Who reads them waits at two barriers."""
    services = []
    for i in range(16):
        front = [f"write b{(i + j) % 16} $in {'z' * (64 * parts)}" for j in range(3)] + [f"send w{(i + j) % 16} look $in" for j in (1, 2, 3)]
        look = ["barrier", f"read b{i} $in as x", "transfer x", "barrier", f"read b{(i + 1) % 16} $in as y"]
        services.append((f"w{i}", REGIONS[i % regions], {"front": front, "look": look}))
    stores = [(f"b{i}", "blob", REGIONS[:regions]) for i in range(16)]
    return application(REGIONS[:regions], stores, services, [(f"w{i % 16}", "front", f"k{i}") for i in range(requests)])


def full_stores(requests, turns, regions=3):
    """Requests that each write so many times to three of 16 stores at so many regions, until these have no unit left."""
    services = []
    for i in range(16):
        body = [f"repeat {turns}", *(f"write s{(i + j) % 16} $in v" for j in range(3)), "end"]
        services.append((f"w{i}", REGIONS[i % regions], {"front": body}))
    stores = [(f"s{i}", "kv", REGIONS[:regions]) for i in range(16)]
    return application(REGIONS[:regions], stores, services, [(f"w{i % 16}", "front", f"k{i}") for i in range(requests)])


def most_writes(requests):
    """So many requests, 400 at most, that write one key of one of 16 stores 64 times each, send that to 16 messages of a service that reads it, and
    64 to one that does nothing: of 400 there are 25,600 writes, 6,400 spans with a read, and 32,000 messages."""
    services = []
    for i in range(16):
        front = ["repeat 16", "repeat 4", f"write s{i} $in v", "end", "end", "repeat 16", f"send w{(i + 1) % 16} look $in", "end"]
        front += ["repeat 4", "repeat 16", f"send w{i} rest $in", "end", "end"]
        services.append((f"w{i}", "us", {"front": front, "look": [f"read s{(i + 15) % 16} $in as x"], "rest": []}))
    stores = [(f"s{i}", "kv", REGIONS[:1]) for i in range(16)]
    return application(REGIONS[:1], stores, services, [(f"w{i % 16}", "front", f"k{i}") for i in range(requests)])


def full_of_writes():
    """400 requests that nearly fill 16 stores with 32,399 writes and 16 inboxes with 31,122 messages; 738 spans with a read find room."""
    services = []
    for i in range(16):
        front = ["repeat 16", "repeat 5", f"write s{i} $in v", "end", "end", f"write s{i} $in v", "repeat 2", f"send w{(i + 1) % 16} look $in", "end"]
        front += ["repeat 4", "repeat 16", f"send w{i} rest $in", "end", "end", "repeat 12", f"send w{i} rest $in", "end"]
        services.append((f"w{i}", "us", {"front": front, "look": [f"read s{(i + 15) % 16} $in as x"], "rest": []}))
    stores = [(f"s{i}", "kv", REGIONS[:1]) for i in range(16)]
    return application(REGIONS[:1], stores, services, [(f"w{i % 16}", "front", f"k{i}") for i in range(400)])


def asked_through(requests, deep):
    """So many requests through so many calls, one in the other, each of which reads behind its call what the request wrote."""
    services = []
    for i in range(deep):
        on = [f"call w{i + 1} get $in as y"] if i + 1 < deep else []
        services.append((f"w{i}", "us", {"get": ["barrier", *on, "read s0 $in as x", "reply $x"]}))
    front = ["write s0 $in v", "call w0 get $in as y", "barrier", "read s0 $in as x"]
    stores = [("s0", "table", REGIONS[:1])]
    return application(REGIONS[:1], stores, [("front", "us", {"ask": front}), *services], [("front", "ask", f"k{i}") for i in range(requests)])
