"""The rules once more (docs/RULES.md), as a plain Python program: sets of numbers and loops over queues, written from the
requirements and not from the library. tests/cases.py uses it to work out what crates/cases must print."""
from textcases import EMPTY, mask, number

NAMES = {2: "ENOENT", 16: "EBUSY", 17: "EEXIST", 19: "ENODEV", 22: "EINVAL", 28: "ENOSPC", 98: "EADDRINUSE", 99: "EADDRNOTAVAIL"}
KINDS = ("adapter", "domain", "control")


class Device:
    def __init__(self, name):
        self.id, self.open = name, False
        self.has = {k: set() for k in KINDS}

    def product(self):
        return {(a, d) for a in self.has["adapter"] for d in self.has["domain"]}


class Service:
    def __init__(self, adapter, domain):
        self.top = {"adapter": adapter, "domain": domain, "control": domain}
        self.ap, self.aq = set(range(256)), set(range(256))
        self.adapters, self.domains, self.controls, self.types = set(), set(), set(), [0] * 256
        self.driver = {}
        self.slots = [None] * 8

    @property
    def devices(self):
        return [v for v in self.slots if v]

    def find(self, name):
        return next((v for v in self.devices if v.id == name), None)

    def slot(self, name):
        """The slot of a device, or 8."""
        return next((k for k, v in enumerate(self.slots) if v and v.id == name), 8)

    def create(self, name):
        if self.find(name):
            return 17
        if len(self.devices) == 8:
            return 28
        self.slots[self.slots.index(None)] = Device(name)
        return 0

    def remove(self, name):
        v = self.find(name)
        if not v:
            return 2
        if v.open:
            return 16
        self.slots[self.slot(name)] = None
        return 0

    def open(self, name):
        v = self.find(name)
        if not v:
            return 2
        if v.open:
            return 16
        v.open = True
        return 0

    def close(self, name):
        v = self.find(name)
        if not v:
            return 2
        if not v.open:
            return 22
        v.open = False
        return 0

    def reserved(self, a, d):
        return a in self.ap and d in self.aq

    def assign(self, kind, name, text):
        n = number(text)
        if n is None:
            return 22
        v = self.find(name)
        if not v:
            return 2
        if n > self.top[kind]:
            return 19
        if n in v.has[kind]:
            return 0
        new = set()
        if kind == "adapter":
            new = {(n, d) for d in v.has["domain"]}
        if kind == "domain":
            new = {(a, n) for a in v.has["adapter"]}
        if any(self.reserved(a, d) for a, d in new):
            return 99
        if any(new & w.product() for w in self.devices if w is not v):
            return 98
        v.has[kind].add(n)
        return 0

    def unassign(self, kind, name, text):
        n = number(text)
        if n is None:
            return 22
        v = self.find(name)
        if not v:
            return 2
        if n > self.top[kind]:
            return 19
        v.has[kind].discard(n)
        return 0

    def set_mask(self, which, text):
        old = self.ap if which == "ap" else self.aq
        bits = mask(text, "".join("1" if i in old else "0" for i in range(256)))
        if bits is None:
            return 22
        new = {i for i in range(256) if bits[i] == "1"}
        ap, aq = (new, self.aq) if which == "ap" else (self.ap, new)
        if any(a in ap and d in aq for v in self.devices for a, d in v.product()):
            return 98
        self.ap, self.aq = ap, aq
        return 0

    def configure(self, adapters, domains, controls, types):
        if any(a > self.top["adapter"] for a in adapters) or any(d > self.top["domain"] for d in domains | controls):
            return 19
        was = {(a, d) for a in self.adapters for d in self.domains}
        self.adapters, self.domains, self.controls = set(adapters), set(domains), set(controls)
        self.types = [t if a in adapters else 0 for a, t in enumerate(types)]
        for a, d in was:
            if not (a in adapters and d in domains):
                self.driver.pop((a, d), None)
        return 0

    def target(self, a, d):
        if a not in self.adapters or d not in self.domains:
            return None
        if self.reserved(a, d):
            return "host"
        return "passthrough" if self.types[a] >= 10 else None

    def move(self, a, d):
        now, want = self.driver.get((a, d)), self.target(a, d)
        if now == want:
            return "idle"
        if now:
            del self.driver[(a, d)]
            return "released"
        self.driver[(a, d)] = want
        return want

    def remaining(self):
        left = 0
        for a in range(256):
            for d in range(256):
                now, want = self.driver.get((a, d)), self.target(a, d)
                if now != want:
                    left += 2 if now and want else 1
        return left

    def sweep(self, budget):
        budget, used = min(budget, 131072), 0
        for a in range(256):
            for d in range(256):
                while used < budget and self.driver.get((a, d)) != self.target(a, d):
                    self.move(a, d)
                    used += 1
        return used, self.remaining() > 0

    def guest(self, v):
        domains = v.has["domain"] & self.domains
        adapters = {a for a in v.has["adapter"] & self.adapters if all(self.driver.get((a, d)) == "passthrough" for d in domains)}
        controls = (v.has["control"] | v.has["domain"]) & (self.controls | self.domains)
        return adapters, domains, controls

    def usable(self, name, a, d):
        v = self.find(name)
        if not v or not v.open:
            return False
        adapters, domains, _ = self.guest(v)
        return a in adapters and d in domains

    def matrix(self, v, which):
        if which == "assigned":
            return v.has["adapter"], v.has["domain"], v.has["control"]
        return self.guest(v)

    def list(self, name, which, place, buffer):
        """The answer, the bytes written, the next place and the buffer; no numbers where it is refused."""
        v = self.find(name)
        if not v:
            return 2, None, None, buffer
        if len(buffer) < 8:
            return 28, None, None, buffer
        adapters, domains, _ = self.matrix(v, which)
        queues = [q for q in sorted(a * 256 + d for a in adapters for d in domains) if q >= place]
        fit = queues[:len(buffer) // 8]
        text = b"".join(b"%02x.%04x\n" % (q // 256, q % 256) for q in fit)
        return 0, len(text), (fit[-1] + 1 if len(fit) < len(queues) else 65536), text + buffer[len(text):]
