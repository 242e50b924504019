#!/usr/bin/env python3
"""Translates the crates from Rattle to Rust.

    translate.py OUT            the library: OUT/lib.rs, a module for each crate, and a shim for each export
    translate.py OUT PROGRAM    a program of the gate: OUT/main.rs, and a module for each crate that it rests on

The code of a Rattle function is a Rust function's code. So a line is copied as it is, unless it has one of nine forms:

    ghost use ...;                       dropped
    ghost NAME = { ... };                a member of an impl for the proofs, or with a colon of a trait: dropped
    #![tactic(...)] or #[tactic(...)]    dropped: how the check is to prove
    requires { ... }                     dropped, where it stands between the head and the body of a function
    ensures NAME { ... }                 the same; the name may be missing, and lines after the first are indented more
    ensures NAME { ... };                the last of a trait's function without a body: leaves the semicolon
    #[derive(...)]                       loses Drop, which Rust has no derive for; one of Drop alone is dropped
    #[unsafe(no_mangle)]                 dropped from an export, whose head loses its extern "C": the shim has both
    fn main(rt: HostRuntime) ... {       gets a pub, since a program is a module too

A line `use crate::{...};` goes before the first, with the crates that are named, and `use crate::kit::*;` where a name of the kit's
prelude is for which something stands in port/kit.rs: in programs alone.

A line of code of another form stops the translation where it has a word or a sign of a specification, a macro that is not
print! or matches!, or something else that is on the list STRANGE, or a comment or a string that runs over its end. Only a
string whose line ends in a backslash may go on; the lines within it, and comments, are copied whatever they have. What is
left is copied too, and rustc judges it. So nothing is missing from the output but lines of the first eight forms.
"""

import collections
import os
import re
import sys

GHOST_USE = re.compile(r"ghost use [^;]+;")
GHOST_MEMBER = re.compile(r"    ghost \w+(?: =|:) (\{ .+ \});")
# the last line of a function's head, where its body begins on a line of its own
HEAD_END = re.compile(r"""( *)((pub )?(extern "C" )?fn \w+(<[^()]+>)?\(.*)?\)( -> [^{}]+)?""")
CONTRACT = re.compile(r"( *)(requires|ensures)( \w+)? \{ .*")
# what can hold a brace that is none of a clause's own
CONTRACT_STRANGE = re.compile(r"//|--|\"|'[{}]'|\{-")
TACTIC = re.compile(r" *#!?\[tactic\([^\[\]]*\)\]")
DERIVE = re.compile(r"#\[derive\((\w+(?:, \w+)*)\)\]")
# those that Rust has, with the same meaning
DERIVES = {"Clone", "Copy", "Debug", "PartialEq", "Eq", "PartialOrd", "Ord"}
NO_MANGLE = "#[unsafe(no_mangle)]"
EXPORT = re.compile(r'pub extern "C" (fn \w+\(.*)')
TYPE = re.compile(r"(pub )?(struct|enum) \w+.*")
MAIN = re.compile(r"fn main\(rt: HostRuntime\)( -> io::Result<\(\)>)? \{")
USE = re.compile(r"^use (\w+)::(?:(\w+)|\{([^{}]*)\});", re.M)
# the lines of a string after its first: one that goes on, and the last, after whose quote only these signs may come
STRING_MORE = re.compile(r'(\\.|[^"\\])*\\')
STRING_END = re.compile(r'(\\.|[^"\\])*"[),;]*')
# the two macros that are copied: port/kit.rs has print, and Rust has matches, with the same meaning
MACRO = re.compile(r"(?<![\w:#])(print!\(rt; (?=\")|matches!\((?=\w+, ))")
# names of the kit's prelude for which something stands there
PRELUDE = re.compile(r"\b(HostRuntime|Input|Print)\b")
# what a line of code that is copied must not have, beside what is not ASCII
STRANGE = re.compile(
    r"\b(ghost|requires|ensures|invariant|decreases|assert\w*|assume\w*|unsafe|extern|(?<!')static|mod)\b"
    r'|#!?\[|\w\s*!\s*[(\[{]|\bmacro_rules\b|\bb?r#*"'
)

LIBRARY_HEAD = """\
// Made by port/translate.py from the crates of Zokormendu.
#![no_std]
#![deny(unsafe_code, improper_ctypes_definitions)]
#![allow(dead_code, unused_variables, unknown_lints, unexpected_cfgs)]
"""

SHIMS_HEAD = """
// What C calls. Here alone is unsafe code: a slice is made of the pointer and the length that C passes.
#[allow(unsafe_code)]
mod shims {
    use super::*;
    use core::slice::{from_raw_parts, from_raw_parts_mut};

    #[cfg(not(unchecked))]
    extern "C" {
        fn zk_stop() -> !;
    }

    // Where a check fails. The proofs say that none does: a build with the cfg `unchecked` tells the compiler so, which then
    // leaves the checks out, and any other build stops.
    #[panic_handler]
    fn panic(_: &core::panic::PanicInfo) -> ! {
        #[cfg(not(unchecked))]
        unsafe {
            zk_stop()
        }
        #[cfg(unchecked)]
        unsafe {
            core::hint::unreachable_unchecked()
        }
    }
"""

PROGRAM_HEAD = """\
// Made by port/translate.py from the crates of Zokormendu.
#![forbid(unsafe_code)]
#![allow(dead_code, unused_variables, unused_imports, unused_macros)]

#[macro_use]
mod kit;
"""


class Strange(Exception):
    """A line that is not understood."""


def is_comment(line):
    return line.lstrip().startswith("//")


def string_open(line):
    """Whether a string is open at the end of a line that begins outside of one; None where that is not plain."""
    rest = line
    while rest:
        part = (
            re.match(r"//.*", rest)
            or re.match(r"b?'(\\.|[^'\\])'", rest)
            or re.match(r"[<&]'(?:[a-z]|static)(?=[ >])", rest)
            or re.match(r'"(\\.|[^"\\])*"', rest)
            or re.match(r"(?!/\*|\*/)[^'\"]", rest)
        )
        if not part:
            # a string that goes on; else a label, or a comment or a string that runs over the end
            return True if STRING_MORE.fullmatch(rest[1:]) and rest[0] == '"' else None
        rest = rest[part.end() :]
    return False


def depth_after(line, depth):
    """How many braces are open after a line of a clause; None where the line goes on after the last one."""
    for at, sign in enumerate(line):
        depth += {"{": 1, "}": -1}.get(sign, 0)
        if sign == "}" and depth == 0 and at + 1 < len(line):
            return None
    return depth


def translate(path, lines, counts):
    """The lines of a crate in Rust, and the heads of its exports."""
    out, exports = [], []
    head = None  # the indentation of a function of which the head is read and the body is not
    in_string = False
    i = 0

    def strange(why):
        return Strange(f"{path}:{i}: {why}:\n    {line}")

    while i < len(lines):
        line = lines[i]
        i += 1
        if in_string:
            in_string = STRING_MORE.fullmatch(line) is not None
            if not line.isascii() or not in_string and not STRING_END.fullmatch(line):
                raise strange("a string that is not plain")
            counts["lines copied"] += 1
            out.append(line)
            continue
        contract = CONTRACT.fullmatch(line)
        if contract:
            if head is None or contract[1] != head + "    ":
                raise strange("a contract that does not follow the head of a function")
            depth, without_body = 0, False
            while True:
                counts[f"lines of {contract[2]} dropped"] += 1
                without_body = line.endswith(" };")
                depth = depth_after(line.removesuffix(";") if without_body else line, depth)
                if depth is None or CONTRACT_STRANGE.search(line):
                    raise strange("more than a contract, or a text in it")
                if depth == 0:
                    break
                line = lines[i] if i < len(lines) else ""
                i += 1
                if not line.startswith(contract[1] + "    "):
                    raise strange("a contract that does not end")
            if without_body and head and contract[2] == "ensures":
                counts["lines of ensures dropped"] -= 1
                counts["lines changed"] += 1
                out.append(head + ";")
                head = None
            elif not line.endswith(" }"):
                raise strange("a contract that does not end as others do")
            continue
        if head is not None and line != head + "{":
            raise strange("neither a contract nor the body of a function")
        head = None
        member = GHOST_MEMBER.fullmatch(line)
        if GHOST_USE.fullmatch(line) or member and depth_after(member[1], 0) == 0 and not CONTRACT_STRANGE.search(line):
            counts["ghost lines dropped"] += 1
            continue
        if TACTIC.fullmatch(line):
            counts["lines of tactic dropped"] += 1
            continue
        if line == NO_MANGLE:
            if i == len(lines) or not EXPORT.fullmatch(lines[i]):
                raise strange("not before an export")
            counts["lines of no_mangle dropped"] += 1
            continue
        derive = DERIVE.fullmatch(line)
        if derive:
            names = derive[1].split(", ")
            if not {*names} - {"Drop"} <= DERIVES or i == len(lines) or not TYPE.fullmatch(lines[i]):
                raise strange("not known, or not before a type")
            if names == ["Drop"]:
                counts["lines of derive dropped"] += 1
            else:
                counts["lines copied"] += 1
                out.append(f"#[derive({', '.join(name for name in names if name != 'Drop')})]")
            continue
        export = EXPORT.fullmatch(line)
        if export:
            if i < 2 or lines[i - 2] != NO_MANGLE:
                raise strange(f"an export without {NO_MANGLE}")
            exports.append(read_head(path, lines[i - 1 :]))
            counts["heads changed"] += 1
            line = "pub " + export[1]
        elif MAIN.fullmatch(line):
            counts["heads changed"] += 1
            line = "pub " + line
        else:
            counts["lines copied"] += 1
        if not is_comment(line):
            in_string = string_open(line)
            if in_string is None or not line.isascii() or STRANGE.search(MACRO.sub("", line)):
                raise strange("a form that is not known")
            # a call can end as a head does, but is not followed by a contract or a body
            end = HEAD_END.fullmatch(line)
            if end and i < len(lines) and (CONTRACT.fullmatch(lines[i]) or lines[i] == end[1] + "{"):
                head = end[1]
        out.append(line)
    if head is not None or in_string:
        raise Strange(f"{path}: a function without a body, or a string without an end")
    return out, exports


def read_head(path, lines):
    """The name, the parameters and the result of the export whose head begins these lines."""
    text = ""
    for line in lines:
        text += line.strip()
        if HEAD_END.fullmatch(line):
            break
    form = re.fullmatch(r'pub extern "C" fn (\w+)\((.*?),?\)( -> u8| -> u32| -> usize)?', text)
    parameters = [re.fullmatch(r" *(\w+): (.+)", parameter) for parameter in form[2].split(",")] if form else [None]
    if None in parameters:
        raise Strange(f"{path}: the head of an export that is not known:\n    {text}")
    return form[1], [(parameter[1], parameter[2]) for parameter in parameters], form[3] or ""


def full_type(where, kind, names):
    """The type of a parameter, with its names as paths from the root."""
    number = r"u8|u32|u64|usize"
    if not re.fullmatch(rf"{number}|&(mut )?({number}|[A-Z]\w*|\[u8(; [A-Z]\w*)?\])", kind):
        raise Strange(f"{where}: the type of a parameter that is not known:\n    {kind}")
    for name in re.findall(r"\b[A-Z]\w*", kind):
        if name not in names:
            raise Strange(f"{where}: a name that no use line has:\n    {name}")
        kind = kind.replace(name, names[name])
    return kind


def shim(crate, names, export):
    """The function that C calls: it makes slices of pointers and lengths, and passes the rest on."""
    name, parameters, result = export
    takes, passes, unsafe = [], [], ""
    for parameter, kind in parameters:
        kind = full_type(f"{crate}: {name}", kind, names)
        if kind == "&[u8]":
            takes += [f"{parameter}: *const u8", f"{parameter}_length: usize"]
            passes.append(f"from_raw_parts({parameter}, {parameter}_length)")
            unsafe = "unsafe "
        elif kind == "&mut [u8]":
            takes += [f"{parameter}: *mut u8", f"{parameter}_length: usize"]
            passes.append(f"from_raw_parts_mut({parameter}, {parameter}_length)")
            unsafe = "unsafe "
        else:
            takes.append(f"{parameter}: {kind}")
            passes.append(parameter)
    return [
        "",
        "    #[no_mangle]",
        f'    pub {unsafe}extern "C" fn {name}(',
        *[f"        {parameter}," for parameter in takes],
        f"    ){result} {{",
        f"        {crate}::{name}({', '.join(passes)})",
        "    }",
    ]


def imports(rests_on, lines):
    """The lines that bring those crates into scope whose names stand before :: in the code, and the kit's prelude."""
    code = "\n".join(line for line in lines if not is_comment(line))
    used = [name for name in rests_on if re.search(rf"\b{name}::", code)]
    lines = [f"use crate::{{{', '.join(used)}}};"] if used else []
    return lines + ["use crate::kit::*;"] * bool(PRELUDE.search(code))


def read_crates():
    """crates.txt: what each crate rests on, in its order."""
    crates = {}
    for line in read_lines("crates.txt"):
        line = line.split("#")[0].strip()
        if line:
            form = re.fullmatch(r"(\w+)(?: +staticlib)?:((?: +\w+)*)", line)
            if not form or form[1] in crates:
                raise Strange(f"crates.txt: a line that is not known, or a second one:\n    {line}")
            crates[form[1]] = form[2].split()
    for name, others in crates.items():
        for other in others:
            if other not in crates:
                raise Strange(f"crates.txt: {name} rests on {other}, which is no crate")
    return crates


def is_for_programs(name):
    """Whether a crate is a program or uses the kit's std."""
    if os.path.exists(f"crates/{name}/src/main.rt"):
        return True
    lines = read_lines(f"crates/{name}/src/lib.rt")
    return any(re.search(r"\bstd::", line) for line in lines if not is_comment(line) and not TACTIC.fullmatch(line))


def below(crates, name):
    """All that a crate rests on."""
    found, todo = set(), [name]
    while todo:
        for other in crates[todo.pop()]:
            if other not in found:
                found.add(other)
                todo.append(other)
    return found


def imported(lines):
    """The names that the use lines bring in, with their paths."""
    names = {}
    for crate, one, several in USE.findall("\n".join(lines)):
        for name in re.findall(r"\w+", one or several):
            names[name] = f"{crate}::{name}"
    return names


def write(folder, name, lines):
    with open(os.path.join(folder, name), "w", encoding="utf-8") as file:
        file.write("\n".join(lines) + "\n")


def read_lines(path):
    with open(path, encoding="utf-8") as file:
        return file.read().splitlines()


def main(folder, program=None):
    crates = read_crates()
    if program:
        wanted = [name for name in crates if name in below(crates, program) | {program}]
    else:
        others = {name for name in crates if is_for_programs(name)}
        wanted = [name for name in crates if not others & (below(crates, name) | {name})]
    os.makedirs(folder, exist_ok=True)
    counts, seen, made, shims = collections.Counter(), 0, 0, []
    for name in wanted:
        source, file = f"crates/{name}/src", "main.rt" if name == program else "lib.rt"
        if os.listdir(source) != [file]:
            raise Strange(f"{source}: other files than {file}")
        lines = read_lines(f"{source}/{file}")
        seen += len(lines)
        code, exports = translate(f"{source}/{file}", lines, counts)
        made += len(code)
        write(folder, f"{name}.rs", imports(crates[name], code) + code)
        for export in exports:
            shims += shim(name, imported(code), export)
    if program:
        write(folder, "kit.rs", read_lines("port/kit.rs"))
        modules = [f"mod {name};" for name in wanted]
        start = ["", "fn main() -> impl std::process::Termination {", f"    {program}::main(kit::HostRuntime)", "}"]
        write(folder, "main.rs", [PROGRAM_HEAD, *modules, *start])
    else:
        modules = [f"#[forbid(unsafe_code)] mod {name};" for name in wanted]
        write(folder, "lib.rs", [LIBRARY_HEAD, *modules, SHIMS_HEAD.rstrip(), *shims, "}"])
    if made != seen - sum(n for what, n in counts.items() if what.endswith("dropped")):
        raise Strange("lines that are neither copied nor changed nor dropped")
    parts = ", ".join(f"{n} {what}" for what, n in sorted(counts.items()))
    rest = "" if program else f"; not in it, as for programs: {', '.join(name for name in crates if name not in wanted)}"
    print(f"{program or 'library'}: {len(wanted)} crates, {seen} lines: {parts}{rest}")


if __name__ == "__main__":
    if len(sys.argv) not in (2, 3):
        sys.exit("usage: translate.py OUT [PROGRAM]")
    out_folder = os.path.abspath(sys.argv[1])
    os.chdir(os.path.join(os.path.dirname(os.path.abspath(__file__)), ".."))
    try:
        main(out_folder, *sys.argv[2:])
    except Strange as what:
        sys.exit(f"translate: {what}")
