#!/usr/bin/env python3
"""Counts, at a commit, the places that docs/DESIGN-PASS.md is about: candidates in crates/*/src, which are then read.

    tools/places.py COMMIT [POINT]
"""

import collections
import re
import subprocess
import sys


def git(*words):
    return subprocess.run(["git", *words], capture_output=True, text=True, check=True).stdout


def sources(commit):
    """Each source file with its text, without ghost lines and comments."""
    for path in git("ls-tree", "-r", "--name-only", commit).splitlines():
        if re.fullmatch(r"crates/\w+/src/\w+\.rt", path):
            lines = git("show", f"{commit}:{path}").splitlines()
            keep = [line for line in lines if not re.match(r" *(//|ghost |#!?\[)", line)]
            yield path.split("/")[1], "\n".join(keep)


HEAD = re.compile(r"fn (\w+)(?:<[^()]*>)?\(((?:[^()]|\([^()]*\))*)\)(?: -> ([^{\n]+))?")


def functions(text):
    """Name, parameters, result and body of each function."""
    for head in HEAD.finditer(text):
        indent = re.match(r" *", text[text.rfind("\n", 0, head.start()) + 1 :])[0]
        body = re.compile(rf"(?:\{{|\n{indent}\{{)\n(.*?)\n{indent}\}}", re.S).search(text, head.end())
        yield head[1], head[2], head[3] or "", body[1] if body else ""


def point1(commit):
    for crate, text in sources(commit):
        for m in re.finditer(r"^(?:pub )?(?:struct|enum) (\w+)", text, re.M):
            yield f"type {crate}::{m[1]}"
        for name, takes, gives, body in functions(text):
            if re.search(r": bool\b", takes):
                yield f"flag as a parameter {crate}::{name}"
            if re.search(r"\b(op|how|what|who|letter|group): u8", takes):
                yield f"number for a kind {crate}::{name}"
        for m in re.finditer(r"^pub const (\w+): u8 =", text, re.M):
            yield f"number for a kind {crate}::{m[1]}"


def point2(commit):
    shapes = collections.defaultdict(list)
    for crate, text in sources(commit):
        for name, takes, gives, body in functions(text):
            shape = re.sub(r"\b\w+\b", "x", re.sub(r"\s+", " ", body))
            if len(shape) > 12:
                shapes[shape].append(f"{crate}::{name}")
    for names in shapes.values():
        if len(names) > 1:
            yield "one shape: " + " ".join(names)


def point3(commit):
    for crate, text in sources(commit):
        for m in re.finditer(r"^ *(while|loop)\b.*", text, re.M):
            yield f"{crate}: {m[0].strip()}"
        for m in re.finditer(r"^ *for .+(?:\.\.|enumerate).*", text, re.M):
            yield f"a count in {crate}: {m[0].strip()}"


def point4(commit):
    for crate, text in sources(commit):
        for m in re.finditer(r".*(?:% \d+\) as u\d+|\{ 1(?:u64)? \} else \{ 0|\bif \w+ < \w+ \{ \w+ \} else|if \w+\.\w+ == \w+\.\w+|as (?:u8|u16|u32|u64)\b).*", text):
            yield f"{crate}: {m[0].strip()}"
        for name, takes, gives, body in functions(text):
            if re.match(r"\s*match \w+ \{(\s*[\w:() ]+ => [\w:()]+,)+\s*\}\s*$", body):
                yield f"a table {crate}::{name}"


def point5(commit):
    for crate, text in sources(commit):
        for name, takes, gives, body in functions(text):
            if re.search(r"(adapter|apid): (Apid|u8)", takes) and re.search(r"(domain|apqi): (Apqi|u8)", takes):
                yield f"adapter and domain {crate}::{name}"
            if "words:" in takes and "drivers:" in takes:
                yield f"words and drivers {crate}::{name}"


def point6(commit):
    for crate, text in sources(commit):
        for m in re.finditer(r"^(?:pub )?struct (\w+) \{([^}]*)\}", text, re.M):
            if re.search(r"\b(len|from|at|written): usize", m[2]):
                yield f"a length or a place beside {crate}::{m[1]}"
        for name, takes, gives, body in functions(text):
            if re.search(r": \[u8; \d+\], \w+: usize|s: &\[u8\], n: usize", takes):
                yield f"a buffer and a length {crate}::{name}"


def point7(commit):
    for crate, text in sources(commit):
        for name, takes, gives, body in functions(text):
            if re.search(r"match \w+ \{", body) and "(" in body and re.search(r"=> \w+(::\w+)?\([^)]*\),", body):
                yield f"a match that calls {crate}::{name}"
            if re.search(r": bool\b", takes) and re.search(r"\bif !?\w+ \{", body):
                yield f"a flag that chooses {crate}::{name}"


def point8(commit):
    paths = git("ls-tree", "-r", "--name-only", commit).splitlines()
    for kind in ["Proof", "Answers", "Invariants"]:
        yield f"{sum(p.endswith(f'/{kind}.antt') for p in paths)} files {kind}.antt"
    yield f"{sum(bool(re.fullmatch(r'crates/[^/]+/proofs/[^/]+[.]antt', p)) for p in paths)} files of lemmas"


POINTS = [point1, point2, point3, point4, point5, point6, point7, point8]

if __name__ == "__main__":
    chosen = [int(sys.argv[2])] if len(sys.argv) > 2 else range(1, 9)
    for n in chosen:
        found = list(POINTS[n - 1](sys.argv[1]))
        print(f"point {n}: {len(found)} candidates")
        for line in found:
            print(f"    {line}")
