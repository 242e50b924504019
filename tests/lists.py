#!/usr/bin/env python3
"""The list of commands, moves and sweeps that crates/lists carries out, and what it must print, by the Python model of
tests/service.py. `lists.py stdin` writes the list, `lists.py stdout` the output. Of the sweeps some are asked for as such,
and some stand in the list as the moves that they make. The list ends with guests that have queues, and moves due."""
import random
import sys

from service import Service

OPS = ("create", "remove", "open", "close", "assign", "unassign", "apmask", "aqmask", "configure", "move", "sweep")
KINDS = ("adapter", "domain", "control")
MOVED = {"idle": 0, "released": 1, "host": 2, "passthrough": 3}

rng = random.Random(1999)
s = Service(255, 255)
data, answers = bytearray(), []


def put(op, kind=0, name=0, payload=b"", queue=None):
    ident = bytes(queue) + bytes(14) if queue else name.to_bytes(16, "big")
    data.extend(bytes([OPS.index(op), kind]) + ident + len(payload).to_bytes(2, "big") + payload)


def packed(bits):
    return sum(1 << (255 - b) for b in bits).to_bytes(32, "big")


def move(a, d):
    put("move", queue=(a, d))
    answers.append(MOVED[s.move(a, d)])


def sweep(budget):
    data.extend(bytes([OPS.index("sweep"), 0]) + budget.to_bytes(4, "big") + bytes(14))
    answers.append(1 if s.sweep(budget)[1] else 0)


def configure(adapters, domains, controls, types):
    put("configure", payload=packed(adapters) + packed(domains) + packed(controls) + bytes(types))
    answers.append(s.configure(adapters, domains, controls, types))


def assign(kind, name, text):
    put("assign", KINDS.index(kind), name, text)
    answers.append(s.assign(kind, name, text))


def plain(what, name):
    put(what, name=name)
    answers.append(getattr(s, what)(name))


def host_mask(what, text):
    put(what, payload=text)
    answers.append(s.set_mask(what[:2], text))


# nine devices, of which the ninth finds no place, and then three
for name in range(1, 10):
    plain("create", name)
for name in range(4, 10):
    plain("remove", name)
host_mask("apmask", b"-5,-6")
host_mask("aqmask", b"-4,-0x47,-0xab,-0xff\n")

NUMBERS = {"adapter": (b"5", b"6", b"0x5\n", b"7", b"256"), "domain": (b"4", b"0x47", b"0xab", b"0253", b"5", b"08"), "control": (b"4", b"71", b"", b"300")}
MASKS = (b"-5", b"+5", b"-5,-6\n", b"+6", b"-4", b"+4", b"-0x47,-0xab,-0xff", b"+0xab", b"0xf9" + b"f" * 62, b"0xg", b"+5,")
for _ in range(420):
    what = rng.choices(OPS, (3, 1, 3, 3, 20, 4, 3, 3, 2, 20, 2))[0]
    name, kind = rng.randrange(1, 4), rng.randrange(3)
    if what in ("create", "remove", "open", "close"):
        plain(what, name)
    elif what in ("assign", "unassign"):
        text = rng.choice(NUMBERS[KINDS[kind]])
        put(what, kind, name, text)
        answers.append(getattr(s, what)(KINDS[kind], name, text))
    elif what in ("apmask", "aqmask"):
        host_mask(what, rng.choice(MASKS))
    elif what == "configure":
        masks = [set(rng.sample(pool, rng.randrange(1, 4))) for pool in ((5, 6, 7), (4, 0x47, 0xab), (4, 0x47, 0xff))]
        types = [rng.choice((9, 10, 11)) for _ in range(256)]
        configure(*masks, types)
    elif what == "sweep":
        sweep(rng.choice((0, 1, 2, 3, 7, 131072, 131073, 2 ** 32 - 1)))
    elif rng.random() < 0.1:
        # a sweep, as the moves that it makes
        for a in range(256):
            for d in range(256):
                while s.driver.get((a, d)) != s.target(a, d):
                    move(a, d)
    else:
        move(rng.choice((5, 6, 7)), rng.choice((4, 0x47, 0xab)))

# the end: three guests, two of them running, that have queues already; then moves are due for other queues
host_mask("apmask", b"0x0")
host_mask("aqmask", b"0x0")
configure({5, 6, 7}, {4, 0x47, 0xab}, {4, 0x47}, [11] * 256)
sweep(131072)
for name in (1, 2, 3):
    plain("close", name)
    plain("remove", name)
    plain("create", name)
for kind, name, text in (
    ("adapter", 1, b"5"), ("adapter", 1, b"6"), ("domain", 1, b"4"), ("domain", 1, b"0xab"), ("control", 1, b"0x47"),
    ("adapter", 2, b"5"), ("adapter", 2, b"6"), ("domain", 2, b"0x47"), ("control", 2, b"4"), ("control", 2, b"5"),
    ("adapter", 3, b"7"), ("domain", 3, b"4"), ("domain", 3, b"0x47"), ("domain", 2, b"4"), ("adapter", 3, b"6"),
):
    assign(kind, name, text)
plain("open", 1)
plain("open", 2)
configure({5, 6}, {4, 0x47, 0xab}, {4, 0x47}, [11] * 256)
configure({5, 6, 7}, {4, 0x47, 0xab}, {4, 0x47}, [11] * 256)
host_mask("aqmask", b"+0xab")
host_mask("apmask", b"+7")
sweep(1)
data.extend(b"\x00\x00")  # no whole step is left

lines = [f"steps {len(answers)}"] + [str(a) for a in answers]
assert len(answers) <= 640 and len(data) <= 32768


def left():
    lines.append(f"remaining {s.remaining()}")
    for v in sorted(s.devices, key=lambda v: v.id):
        lines.append(f"device {v.id}")
        if v.open:
            lines.append(" open")
        for masks in ((v.has["adapter"], v.has["domain"], v.has["control"]), s.guest(v)):
            for word, bits in zip((" adapters", " domains", " controls"), masks):
                lines.append("".join([word] + [f" {n}" for n in sorted(bits)]))
            lines.extend(f"{a:02x}.{d:04x}" for a in sorted(masks[0]) for d in sorted(masks[1]))
            lines.append(" next 65536")


left()
lines.append(f"sweep {s.sweep(131072)[0]}")
left()
if __name__ == "__main__":
    if sys.argv[1] == "stdin":
        sys.stdout.buffer.write(data)
    else:
        print("\n".join(lines))
