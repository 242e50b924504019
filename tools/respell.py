#!/usr/bin/env python3
"""Brings the definitions and lemmas of this repository to the spelling of today's Rattle.

usage: respell.py PORT [--dry]      at the top of a checkout; PORT is the kit's port.py

Run once, after port.py, before anything of what it wrote is committed. That script passes over folders named `target`, as build
output, so the crate `target` is turned first, under another name, in a copy of the commit. Words of specs/ and proofs/ that port.py
left as they were are turned to snake case: `queuesOf` to `queues_of`, `digit-op` to `digit_op`. Types, modules, functions of src/,
names that Rattle makes (goals, steps, labels) and strings stay. Pages get the same names. `--dry` writes nothing and only says which
names would fall together.
"""
import glob
import os
import re
import subprocess
import sys
import tempfile

DECLARED = re.compile(r"^(\s*)((?:abbrev |unfoldable |pub )*)([^\s:(){}]+) : (.*)$")
TOKEN = re.compile(r"[A-Za-z0-9_'₂-]+")
STRING = re.compile(r'b?"(?:[^"\\]|\\.)*"')

# Lemmas that port.py turned, and that would have the name of a definition: the crates in which they stand and are cited.
APART = {
    "goes_on": ["run"],
    "row_target": ["targetrow", "sweep", "due"],
    "some_pair": ["model"],
}


def snake(name):
    words = re.sub(r"([a-z0-9])([A-Z])", lambda m: m.group(1) + "_" + m.group(2).lower(), name)
    return words.replace("-", "_")


def sources():
    for part in ("specs", "proofs"):
        yield from sorted(glob.glob(f"crates/*/{part}/**/*.antt", recursive=True))


def collect():
    camel, dashed = set(), set()
    for path in sources():
        for line in open(path):
            found = DECLARED.match(line.rstrip("\n"))
            if not found:
                continue
            name, kind = found.group(3), found.group(4)
            if kind.startswith(("tie.", "goal.", "given.")):
                continue
            if re.match(r"^[a-z]\w*[A-Z]", name) and "-" not in name:
                camel.add(name)
            elif "-" in name and name[0].islower():
                dashed.add(name)
    return camel, dashed


def declared_words():
    """Definitions of specs/ and words that port.py turned, which a lemma may not be named as."""
    words = set()
    for path in sources():
        for line in open(path):
            found = DECLARED.match(line.rstrip("\n"))
            if found and ("/specs/" in path or "abbrev" in found.group(2) or "unfoldable" in found.group(2)):
                words.add(found.group(3))
    return words


def library_words():
    words = set()
    for path in sources():
        for found in re.finditer(r"^\s*(?:pub )?use (?!Rattle\.(?!std))(\S+)\.\{([^}]*)\}", open(path).read(), re.M):
            words.update(w.strip().split(" as ")[0] for w in found.group(2).split(","))
    return words


def turn(text, names):
    def one(m):
        word = m.group(0)
        before = text[: m.start()]
        if word not in names:
            return word
        if "-" in word and before.endswith("."):
            return word
        return names[word]

    return TOKEN.sub(one, text)


def turn_outside_strings(text, names):
    out, at = [], 0
    for m in STRING.finditer(text):
        out.append(turn(text[at : m.start()], names))
        out.append(m.group(0))
        at = m.end()
    out.append(turn(text[at:], names))
    return "".join(out)


def words_in(text, word, other):
    return re.sub(rf"(?<![A-Za-z0-9_'.-]){word}(?![A-Za-z0-9_'-])", other, text)


def turn_target(port):
    """The crate `target`, as port.py turns a crate of another name."""
    with tempfile.TemporaryDirectory() as copy:
        archive = subprocess.run(["git", "archive", "HEAD"], check=True, capture_output=True).stdout
        subprocess.run(["tar", "x", "-C", copy], input=archive, check=True)
        folders = [d for d, _, _ in os.walk(os.path.join(copy, "crates"), topdown=False) if d.endswith("/target")]
        for d in folders:
            os.rename(d, d + "q")
        for folder, _, files in os.walk(copy):
            for name in files:
                path = os.path.join(folder, name)
                if path.endswith((".rt", ".antt", "crates.txt")):
                    text = open(path).read()
                    open(path, "w").write(re.sub(r"(?<![A-Za-z0-9_-])target(?![A-Za-z0-9_-])", "targetq", text))
        git = ["git", "-C", copy, "-c", "user.name=copy", "-c", "user.email=copy@localhost"]
        for args in (["init", "-q"], ["add", "-A"], ["commit", "-qm", "copy"]):
            subprocess.run(git + args, check=True)
        subprocess.run([sys.executable, port], cwd=copy, check=True, stdout=subprocess.DEVNULL)
        turned = os.path.join(copy, "crates/targetq")
        for folder, _, files in os.walk(turned):
            for name in files:
                path = os.path.join(folder, name)
                to = "crates/target/" + os.path.relpath(path, turned).replace("targetq", "target")
                open(to, "w").write(open(path).read().replace("targetq", "target"))


def main():
    dry = "--dry" in sys.argv
    if not dry:
        turn_target(os.path.abspath(sys.argv[1]))
    camel, dashed = collect()
    kit = library_words()
    dashed -= kit
    camel -= kit
    camel_names = {n: snake(n) for n in camel}
    taken = set(camel_names.values()) | declared_words()
    all_names = dict(camel_names)
    for name in dashed:
        new = snake(name)
        all_names[name] = new + "_lem" if new in taken else new
    for path in sources():
        text = was = open(path).read()
        for word, crates in APART.items():
            if path.split("/")[1] in crates:
                text = words_in(text, word, word + "_lem")
        words = set(TOKEN.findall(text))
        for word in sorted(words):
            new = all_names.get(word)
            if new and new != word and new in words:
                print(f"together: {path}: {word} {new}")
        turned = turn_outside_strings(text, all_names)
        if turned != was and not dry:
            open(path, "w").write(turned)
    for path in sorted(glob.glob("crates/*/src/**/*.rt", recursive=True)):
        text = open(path).read()
        words = set(TOKEN.findall(text))
        for word in sorted(words):
            new = camel_names.get(word)
            if new and new in words:
                print(f"together: {path}: {word} {new}")
        turned = turn_outside_strings(text, camel_names)
        if turned != text and not dry:
            open(path, "w").write(turned)
    pages = ["README.md"] + sorted(glob.glob("docs/*.md"))
    for path in pages:
        text = open(path).read()
        turned = re.sub(r"`[^`\n]*`", lambda m: turn(m.group(0), camel_names), text)
        if turned != text and not dry:
            open(path, "w").write(turned)
    print(f"{len(camel)} words and {len(dashed)} lemmas")


main()
