#!/usr/bin/env python3
"""What translate.py makes of small texts, and at which it stops."""

import collections
import sys

from translate import Strange, imported, shim, translate

# A text, and what becomes of it.
GOOD = {
    "a ghost line": ("ghost use a.B.{c, ◌≡◌};\nuse mask::Mask;", "use mask::Mask;"),
    "an impl and a trait": (
        "impl From<A> for u8 {\n    ghost from_gives = { λ a n. n ≡ a.0 };\n\n    fn from(a: A) -> u8 {\n        a.0\n    }\n}\n"
        "pub trait T {\n    ghost bit: { Self → ℕ };\n\n    fn bit(self) -> u8\n        ensures { result ≡ bit self };\n}",
        "impl From<A> for u8 {\n\n    fn from(a: A) -> u8 {\n        a.0\n    }\n}\npub trait T {\n\n    fn bit(self) -> u8\n    ;\n}",
    ),
    "generics": (
        "fn f<N: T>(n: N, s: &'static [u8]) -> u8\n    ensures { result ≡ N.bit n }\n{\n    n.bit()\n}\n"
        "fn g<const N: usize>() -> [u8; N]\n    ensures { N ≡ N }\n{\n    h::<N>()\n}",
        "fn f<N: T>(n: N, s: &'static [u8]) -> u8\n{\n    n.bit()\n}\nfn g<const N: usize>() -> [u8; N]\n{\n    h::<N>()\n}",
    ),
    "tactics": (
        "#![tactic(auto)]\n\n#[tactic(auto, using(a, b))]\nfn f() {\n    #[tactic(none)]\n    g();\n}",
        "\nfn f() {\n    g();\n}",
    ),
    "a contract": (
        "fn f(x: u8) -> u8\n    requires { x < 4 }\n    ensures named { result ≡ x }\n{\n    x\n}",
        "fn f(x: u8) -> u8\n{\n    x\n}",
    ),
    "a contract of two lines": (
        "    fn f(\n        x: u8,\n    ) -> [u8; 2]\n        ensures { result\n            ≡ x }\n    {\n    }",
        "    fn f(\n        x: u8,\n    ) -> [u8; 2]\n    {\n    }",
    ),
    "braces in a contract": (
        "fn f(x: u8)\n    requires a { g {p = x} ({ y }) }\n    ensures b { g {p = x'}\n        {q = x} }\n{\n}",
        "fn f(x: u8)\n{\n}",
    ),
    "no contract": ("fn f() {\n    g(\n        1,\n    )\n}", "fn f() {\n    g(\n        1,\n    )\n}"),
    "types": (
        "#[derive(Clone, Copy)]\npub struct A(pub u8);\n#[derive(Drop)]\nstruct B(u8);\n// why\n#[derive(Debug, Drop, Eq)]\nenum C {",
        "#[derive(Clone, Copy)]\npub struct A(pub u8);\nstruct B(u8);\n// why\n#[derive(Debug, Eq)]\nenum C {",
    ),
    "an export": (
        '#[unsafe(no_mangle)]\npub extern "C" fn f(x: u8) -> u8\n    ensures { result ≡ x }\n{\n    x\n}',
        "pub fn f(x: u8) -> u8\n{\n    x\n}",
    ),
    "a program": ("fn main(rt: HostRuntime) {\n}", "pub fn main(rt: HostRuntime) {\n}"),
    "a program with a result": (
        "fn main(rt: HostRuntime) -> io::Result<()> {\n}",
        "pub fn main(rt: HostRuntime) -> io::Result<()> {\n}",
    ),
    "a test that begins a line": ("    !(x)", "    !(x)"),
    "print": ('    print!(rt; "{x:016x}")?;', '    print!(rt; "{x:016x}")?;'),
    "matches": ("    if matches!(c, b'0'..=b'9') {", "    if matches!(c, b'0'..=b'9') {"),
    "a string over lines": (
        'fn f() {\n    g(b\'"\', b"x", b"a\\\n        ghost use x;\\\nstruct S;\\"\\\n    b");\n}',
        'fn f() {\n    g(b\'"\', b"x", b"a\\\n        ghost use x;\\\nstruct S;\\"\\\n    b");\n}',
    ),
    "a lifetime": (
        "struct R<'a> {\n    x: &'a [u8],\n}\nfn f<'a>(x: &'a u8, y: u8) -> R<'a>\n    ensures { result ≡ x }\n{\n    g(y <b'a', '\"')\n}",
        "struct R<'a> {\n    x: &'a [u8],\n}\nfn f<'a>(x: &'a u8, y: u8) -> R<'a>\n{\n    g(y <b'a', '\"')\n}",
    ),
    "a comment": ("// ghost, unsafe, ≡ and #[x]", "// ghost, unsafe, ≡ and #[x]"),
}

# Texts at which it stops: each would lose something, or is not plain code.
BAD = {
    "another ghost line": "ghost let x = 1;",
    "code after a ghost member": "    ghost a = { b }; let x = { c };",
    "a ghost member without an end": "    ghost a = { b",
    "an indented ghost line": "    ghost use a.b;",
    "code after a ghost line": "ghost use a.b; use c::D;",
    "a ghost line without an end": "ghost use a.b.{c,",
    "code after a tactic": "#[tactic(auto)] fn f() {\n}",
    "a tactic over lines": "#[tactic(\n    auto,\n)]\nfn f() {\n}",
    "an attribute after a tactic": "#[tactic(auto)] #[x]\nfn f() {\n}",
    "a contract in a body": "fn f() {\n    ensures { x }\n}",
    "a contract before a head": "    ensures { x }\nfn f()\n{\n}",
    "a contract without an end": "fn f()\n    ensures { x\n{\n    g();\n    }\n}",
    "a contract that runs into the body": "fn f()\n    ensures { x\n    g(); }\n{\n}",
    "a contract at the end of the file": "fn f()\n    ensures { x",
    "a contract that opens a brace more": "fn f()\n    ensures { x { y }\n{\n}",
    "a contract that closes a brace more": "fn f()\n    ensures { x } }\n{\n}",
    "a body on a contract's line": "fn f()\n    ensures { x } {\n    g();\n}",
    "two contracts on a line": "fn f()\n    ensures a { x } ensures b { y }\n{\n}",
    "code between two contracts": "fn f()\n    ensures { x } g(); ensures { y }\n{\n}",
    "code after a contract": "fn f()\n    ensures { x }\n    g();\n{\n}",
    "code after a contract of two lines": "fn f()\n    ensures { x\n        y } g();\n{\n}",
    "a body at another place": "fn f()\n    ensures { x }\n    {\n}",
    "a contract at another place": "fn f()\n        ensures { x }\n{\n}",
    "a contract of another form": "fn f()\n    requires a b { x }\n{\n}",
    "a contract of memory": "fn f()\n    requires* { x }\n{\n}",
    "a contract with no space at its end": "fn f()\n    requires { x}\n{\n}",
    "a contract on a head's line": "fn f() requires { x } {\n}",
    "a comment in a contract": "fn f()\n    ensures { x // {\n        }\n        g(); }\n{\n}",
    "a comment of a definition in a contract": "fn f()\n    ensures { x -- {\n        }\n        g(); }\n{\n}",
    "a comment over lines in a contract": "fn f()\n    ensures { x {- { -}\n        }\n        g(); }\n{\n}",
    "a string in a contract": "fn f()\n    ensures { x \"{\"\n        }\n        g(); }\n{\n}",
    "a brace as a sign in a contract": "fn f()\n    ensures { x '{'\n        }\n        g(); }\n{\n}",
    "another clause": "fn f()\n    decreases { n }\n{\n}",
    "a clause of a loop": "    while i < n\n        invariant { x }\n    {",
    "a derive that is not known": "#[derive(Clone, Other)]\nstruct S(u8);",
    "a derive before a function": "#[derive(Drop)]\nfn f() {\n}",
    "a derive on a type's line": "#[derive(Drop)] struct S(u8);",
    "a string that is open at the end of a line": '    g(b"a\\\nghost use x;\ncd");',
    "a string that is not closed": '    g(b"ab\\',
    "code after a string over lines": '    g(b"a\\\n    b"); unsafe { h() };',
    "a raw string after a string over lines": '    g(b"a;\\\n    b;", br"\\", b"\nghost use x;\n"); // "',
    "a raw string": '    g(br"a\\");',
    "a comment over lines": "/*\nghost use a /* ;\n*/\npub fn f() {}\n// */",
    "the end of a comment": "    ghost use z */ *x = 1;",
    "a comment within a line": "    f(/* x */ y);",
    "a label": "    'a: loop {",
    "a lifetime of another form": "fn f<'a, 'b>(x: &'a u8, y: &'b u8) {",
    "a lifetime that a quote follows": "    f(x <'a', \"",
    "a static": "static A: u8 = 1;",
    "a sign in code": "    let x = y ≡ z;",
    "an attribute": "#[inline]\nfn f() {\n}",
    "an attribute of the file": "#![no_std]",
    "unsafe code": "    unsafe { f() }",
    "a foreign function": 'extern "C" {\n    fn read();\n}',
    "another file": "mod other;",
    "a macro": "    assert!(x);",
    "a macro after a space": "    name !(x);",
    "a macro before a space": "    name! (x);",
    "a macro with brackets": "    let x = vec![1];",
    "a macro with braces": "    name!{x}",
    "a macro of its own": "macro_rules! matches {",
    "print of another form": '    print!("x");',
    "print on another handle": '    print!(out; "x")?;',
    "another macro within print": '    print!(rt; "{}", format!("x"))?;',
    "a macro that ends as print": '    eprint!(rt; "x")?;',
    "matches on more than a name": "    if matches!(c.x, 1) {",
    "matches on what is lent": "    if matches!(*c, 1) {",
    "matches by a path": "    if digits::matches!(c, 1) {",
    "matches as a raw name": "    if r#matches!(c, 1) {",
    "another macro within matches": "    if matches!(x, f!(1)) {",
    "a macro that ends as matches": "    if unmatches!(x, 1) {",
    "no_mangle elsewhere": "#[unsafe(no_mangle)]\npub fn f() {\n}",
    "no_mangle of another form": '#[no_mangle]\npub extern "C" fn f(x: u8) -> u8\n{\n}',
    "an export without no_mangle": 'pub extern "C" fn f(x: u8) -> u8\n{\n}',
    "an export without parameters": '#[unsafe(no_mangle)]\npub extern "C" fn f() -> u8\n{\n}',
    "a comment in an export's head": '#[unsafe(no_mangle)]\npub extern "C" fn f(\n    // x: u8,\n    y: u8,\n) -> u8\n{\n}',
    "an export of another result": '#[unsafe(no_mangle)]\npub extern "C" fn f(x: u8) -> Mask\n{\n}',
}

# Parameters of an export that the shim does not know.
BAD_PARAMETERS = ["Mask", "&[u64]", "&mut [Mask]", "&[u8; 16]", "*const u8", "bool", "&Unknown"]


def main():
    wrong = []
    for name, (text, expected) in GOOD.items():
        out, _ = translate(name, text.splitlines(), collections.Counter())
        if "\n".join(out) != expected:
            wrong.append(name)
    for name, text in BAD.items():
        try:
            translate(name, text.splitlines(), collections.Counter())
            wrong.append(name)
        except Strange:
            pass
    for kind in BAD_PARAMETERS:
        try:
            shim("c_x", {"Words": "layout::Words"}, ("f", [("x", kind)], ""))
            wrong.append(f"a parameter {kind}")
        except Strange:
            pass
    made = "\n".join(shim("c_x", {"W": "l::W"}, ("f", [("w", "&mut W"), ("t", "&[u8]"), ("b", "&mut [u8]")], " -> u8")))
    if made != (
        '\n    #[no_mangle]\n    pub unsafe extern "C" fn f(\n        w: &mut l::W,\n        t: *const u8,\n'
        "        t_length: usize,\n        b: *mut u8,\n        b_length: usize,\n    ) -> u8 {\n"
        "        c_x::f(w, from_raw_parts(t, t_length), from_raw_parts_mut(b, b_length))\n    }"
    ):
        wrong.append("a shim")
    if imported(["use a::B;", "use c::{D, E};", "use f::{", "    G,", "    H,", "};"]) != {
        "B": "a::B",
        "D": "c::D",
        "E": "c::E",
        "G": "f::G",
        "H": "f::H",
    }:
        wrong.append("use lines")
    if wrong:
        sys.exit(f"translate_test: WRONG: {', '.join(wrong)}")
    print(f"translator: {len(GOOD)} forms as expected, stops at {len(BAD) + len(BAD_PARAMETERS)} others")


main()
