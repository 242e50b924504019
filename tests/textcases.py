#!/usr/bin/env python3
"""What crates/textcases must print, from the rules of text (docs/RULES.md) by another hand: splitting, regular expressions and Python's own
int(). It shares no code with the readers. `make expected` compares it with crates/textcases/stdout."""
import re


def number(text, newline=True, most=65535):
    if newline and text.endswith(b"\n"):
        text = text[:-1]
    if not 1 <= len(text) <= 16:
        return None
    t = text.decode("latin-1")
    if re.fullmatch(r"0x[0-9a-fA-F]+", t):
        v = int(t[2:], 16)
    elif re.fullmatch(r"0[0-7]*", t):
        v = int(t, 8)
    elif re.fullmatch(r"[1-9][0-9]*", t):
        v = int(t, 10)
    else:
        return None
    return v if v <= most else None


def mask(text, old):
    """A mask is a string of 256 characters 0 or 1, bit 0 first."""
    if text.endswith(b"\n"):
        text = text[:-1]
    if text.startswith(b"0x"):
        t = text[2:].decode("latin-1")
        if not re.fullmatch(r"[0-9a-fA-F]{1,64}", t):
            return None
        return "".join(f"{int(c, 16):04b}" for c in t).ljust(256, "0")
    bits = list(old)
    for item in text.split(b","):
        n = number(item[1:], newline=False, most=255)
        if item[:1] not in (b"+", b"-") or n is None:
            return None
        bits[n] = "1" if item[:1] == b"+" else "0"
    return "".join(bits)


EMPTY, FULL = "0" * 256, "1" * 256
lines = []


def number_outcome(text):
    v = number(text)
    return "EINVAL" if v is None else str(v)


def mask_outcome(text, old):
    m = mask(text, old)
    return "EINVAL" if m is None else f"0x{int(m, 2):064x}"


def shown(text):
    return text.decode("latin-1").replace("\n", "\\n")


for t in (b"4", b"0x5", b"020", b"0x8", b"0107", b"71\n", b"0x47", b"0", b"0\n", b"00", b"256", b"65535", b"65536", b"0xffff", b"0xFfFf",
          b"0x10000", b"0177777", b"0200000", b"08", b"0x", b"0X5", b"x5", b"+5", b"-5", b" 5", b"5 ", b"", b"\n", b"5\n\n", b"\n5", b"5a",
          b"0xg"):
    lines.append(f"number {shown(t)}: {number_outcome(t)}")
HAND = [(b"0x41", EMPTY), (b"0x7d", EMPTY), (b"0x41", FULL), (b"0xffff", EMPTY), (b"0x40", EMPTY), (b"0x7d" + b"f" * 62, EMPTY),
        (b"0x7D" + b"F" * 62 + b"\n", EMPTY), (b"+0", EMPTY), (b"-13", FULL), (b"+0x41", EMPTY), (b"-0xff", FULL),
        (b"+0,-6,+0x47,-0xf0", EMPTY), (b"+0,-6,+0x47,-0xf0", FULL), (b"-5,-6", FULL), (b"-4,-0x47,-0xab,-0xff\n", FULL),
        (b"+5,-5,+5", EMPTY), (b"+255", EMPTY), (b"+256", EMPTY), (b"+0377", EMPTY), (b"+0400", EMPTY)]
HAND += [(t, FULL) for t in (b"", b"\n", b"0x", b"0xfg", b"0X41", b"5", b"+", b"+5,", b",+5", b"+5,,+6", b"+5\n,+6", b"+5,+6\n\n", b"+ 5",
                             b"+5 +6", b"++5", b"+08")]
for t, old in HAND:
    lines.append(f"mask {shown(t)}: {mask_outcome(t, old)}")
for c in (b"0", b"1"):
    for n in range(21):
        lines.append(number_outcome(c * n))
        lines.append(number_outcome(c * n + b"\n"))
for n in range(69):
    lines.append(mask_outcome(b"0x" + b"c" * n, FULL))
for n in range(21):
    lines.append(mask_outcome(b"+" + b"0" * n, EMPTY))
for t in (b"7", b"10\n", b"0x1f", b"0107"):
    for place in range(len(t)):
        for b in range(256):
            s = t[:place] + bytes([b]) + t[place + 1:]
            if number(s) is not None:
                lines.append(f"{place} {b} {number(s)}")
for t in (b"0x4", b"0xa1\n", b"+1", b"-0x9,+07\n"):
    for place in range(len(t)):
        for b in range(256):
            s = t[:place] + bytes([b]) + t[place + 1:]
            if mask(s, FULL) is not None:
                lines.append(f"{place} {b} {mask_outcome(s, FULL)}")
if __name__ == "__main__":
    print("\n".join(lines))
