#!/usr/bin/env python3
"""What crates/cases reads, and what it must print, by the Python model of tests/service.py. A row of the table is what the
program does and the label that it prints. The argument is `stdin` or `stdout`. `make expected` compares the output with
crates/cases/stdin and crates/cases/stdout."""
import sys

from service import NAMES, Service
from textcases import EMPTY, mask

# The rows of "control domains" have all sixteen ways in which a domain can be assigned and configured. Domain 4 a + c is assigned by
# a and configured by c: 0 not at all, 1 as a control domain, 2 as a usage domain, 3 as both. The guest controls those where neither
# is 0: 5 6 7 9 10 11 13 14 15. If usage domains were no control domains, it would control 5 7 13 15.
ROWS = r"""
fresh 256 255|fresh 255 256|fresh 63 15
configure 10 +63 +15 +15|configure 10 +64 +15 +15|configure 10 +63 +16 +15|configure 10 +63 +15 +16
create 1|assign 1 adapter 63|assign 1 adapter 64|assign 1 domain 16|assign 1 control 16|unassign 1 domain 16
setting 14
fresh 255 255|create 1|create 2|create 3|create 4|create 5|create 6|create 7|create 8|create 9|create 1
remove 4|create 9|slot 9|remove 6|remove 2|create 10|slot 10|remove 2|slot 2
close 1|open 1|open 1|remove 1|close 1|remove 1|open 1|close 1
assign 1 adapter 08|assign 1 adapter 256|assign 3 adapter 256|assign 3 adapter 0xff\n|assign 3 adapter 255
unassign 3 adapter 0377|unassign 3 adapter 0377|unassign 3 control 256|unassign 1 control 256|unassign 1 control x
apmask 0x|aqmask +1,
setting 7
fresh 255 255|create 1|assign 1 adapter 5|assign 1 domain 4
setting 11
apmask -5\n|assign 1 domain 4|apmask +5|aqmask -4|apmask +5|aqmask +4|apmask -5
setting 5
fresh 255 255|apmask 0x0|aqmask 0x0|create 1|create 2
assign 1 adapter 1|assign 1 adapter 2|assign 1 domain 5|assign 1 domain 6
assign 2 adapter 1|assign 2 adapter 2|assign 2 domain 7
setting 6
assign 2 domain 6|assign 2 control 6|assign 1 control 6|unassign 2 adapter 1|unassign 2 adapter 2|assign 2 domain 6
assign 2 adapter 2|remove 1|assign 2 adapter 2
setting 12
fresh 255 255|apmask 0x04|aqmask 0x02|create 1|create 2|assign 1 adapter 5|assign 1 domain 4
assign 2 domain 4|assign 2 domain 6|assign 2 adapter 5|unassign 2 domain 6|assign 2 adapter 5
setting 13
fresh 255 255|configure 10 +5 +4 0x0|target 5 4|move 5 4|apmask -5|target 5 4
remaining|sweep 0|move 5 4|remaining|move 5 4|remaining|move 5 4|move 7 4
configure 9 +5 +4 0x0|target 5 4|move 5 4|target 4 5
budgets
fresh 255 255|configure 10 +5,+6 +4,+171 +71|sweep 0|sweep 3|sweep 4294967295|sweep 5
apmask -5,-6|remaining|sweep 5|move 6 4|sweep 131072|remaining
setting 9
fresh 255 255|apmask -5,-6|configure 10 +5,+6 +4,+171 +71|create 1
assign 1 adapter 5|assign 1 adapter 6|assign 1 domain 4|assign 1 domain 0xab|assign 1 control 71|assign 1 control 72
masks 1 assigned|masks 1 guest|sweep 3|masks 1 guest|list 1 assigned 0 32|list 1 guest 0 32|lines 1 assigned|lines 1 guest
usable 1 5 171|open 1|usable 1 5 171|usable 1 6 4|usable 1 5 5|usable 2 5 171
setting 10
configure 10 +5,+6 +4 +71|masks 1 guest
a sweep
configure 10 +5,+6 +4,+171 +71|masks 1 guest|move 5 171|masks 1 guest|usable 1 6 4
sweep 131072|masks 1 guest|usable 1 6 4|masks 2 guest
the listing of a guest
lines 1 guest|list 1 guest 0 32|list 1 guest 0 20|list 1 guest 1452 20|list 1 guest 1452 16|list 1 guest 0 7|list 2 guest 0 7
list 1 guest 65536 32|list 1 guest 65535 32|list 1 guest 18446744073709551615 32
control domains
fresh 255 255|apmask 0x0|aqmask 0x0|create 1|assign 1 adapter 5|configure 10 +5 0x3333 0x5555
assign 1 control 4|assign 1 control 5|assign 1 control 6|assign 1 control 7
assign 1 domain 8|assign 1 domain 9|assign 1 domain 10|assign 1 domain 11
assign 1 control 12|assign 1 control 13|assign 1 control 14|assign 1 control 15
assign 1 domain 12|assign 1 domain 13|assign 1 domain 14|assign 1 domain 15
masks 1 assigned|masks 1 guest|open 1|sweep 131072|masks 1 guest|usable 1 5 13|usable 1 5 14
unassign 1 control 14|unassign 1 domain 10|masks 1 guest|configure 10 +5 0x3333 0x0|masks 1 guest
"""
ROWS = [row for line in ROWS.strip().split("\n") for row in line.split("|")]
lines = []
s = None


def bits(text):
    return {i for i, c in enumerate(mask(text.encode(), EMPTY)) if c == "1"}


def name(errno):
    return NAMES.get(errno, "ok")


def fresh(adapter, domain):
    global s
    if int(adapter) > 255 or int(domain) > 255:
        return name(22)
    s = Service(int(adapter), int(domain))
    return "ok"


def shown(n, which):
    v = s.find(n)
    if not v:
        return name(2)
    sets = s.matrix(v, which)
    return "ok" + "".join("\n " + word + "".join(f" {k}" for k in sorted(b)) for word, b in zip(("adapters", "domains", "controls"), sets))


def listed(n, which, place, room):
    errno, written, after, buffer = s.list(n, which, int(place), b"#" * int(room))
    numbers = "" if errno else f"\n{written} {after}"
    return name(errno) + numbers + "\n" + (buffer + b"#" * (32 - int(room))).decode()


def swept(budget):
    used, more = s.sweep(int(budget))
    return f"{used}\nmoves remain: {'yes' if more else 'no'}"


DO = {
    "fresh": fresh,
    "create": lambda n: name(s.create(n)),
    "remove": lambda n: name(s.remove(n)),
    "open": lambda n: name(s.open(n)),
    "close": lambda n: name(s.close(n)),
    "assign": lambda n, kind, text: name(s.assign(kind, n, text.encode())),
    "unassign": lambda n, kind, text: name(s.unassign(kind, n, text.encode())),
    "apmask": lambda text: name(s.set_mask("ap", text.encode())),
    "aqmask": lambda text: name(s.set_mask("aq", text.encode())),
    "configure": lambda t, a, d, c: name(s.configure(bits(a), bits(d), bits(c), [int(t)] * 256)),
    "slot": lambda n: s.slot(n),
    "target": lambda a, d: s.target(int(a), int(d)) or "none",
    "move": lambda a, d: s.move(int(a), int(d)),
    "remaining": lambda: s.remaining(),
    "sweep": swept,
    "masks": shown,
    "usable": lambda n, a, d: "yes" if s.usable(n, int(a), int(d)) else "no",
    "lines": lambda n, which: len(s.matrix(s.find(n), which)[0]) * len(s.matrix(s.find(n), which)[1]),
    "list": listed,
}
# the letters by which the program knows what to do; a row without them is only printed
LETTERS = {
    "fresh": "hf", "configure": "hg", "apmask": "hp", "aqmask": "hq", "create": "dc", "remove": "dr", "open": "do",
    "close": "dx", "assign": "aa", "unassign": "au", "target": "qt", "move": "qm", "remaining": "qn", "sweep": "qs",
    "slot": "mi", "masks": "mk", "usable": "my", "lines": "mj", "list": "ml",
}
data = "".join(f"{LETTERS.get(row.split(' ')[0], '##')} {row};" for row in ROWS).replace("\\n", "\n")
for row in ROWS:
    word, *arguments = row.split(" ")
    if word not in DO:
        lines.append(row)
        continue
    arguments = [a.replace("\\n", "\n") for a in arguments]
    lines.append(f"{row}: {DO[word](*arguments)}")
if __name__ == "__main__":
    if sys.argv[1] == "stdin":
        sys.stdout.write(data)
    else:
        print("\n".join(lines))
