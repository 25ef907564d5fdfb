#!/usr/bin/env python3
"""Measures the lexer on texts of a megabyte, or the way from bytes to a typed file on texts of up to 200,000 tokens, and
prints time and memory of each.

Builds a small program around c_lexer, or around c_typing and acsl_typing, in a folder of its own, makes the texts, and runs
the program on each, with 8 MB of stack. The program is proved first, as any. Run by hand: bench/reading.py tokens, or
bench/reading.py trees
"""
import os
import subprocess
import sys
import tempfile
import time

TOP = os.path.dirname(os.path.dirname(os.path.abspath(__file__)))
LIMIT = 1048576
MEMORY = [4, 8, 12, 16, 24, 32, 48, 64, 96, 128, 192, 256]
LEXER = ["wp_io", "c_lexer"]
TYPING = LEXER + ["c_kinds", "c_parser", "c_typing", "acsl_typing"]

MAIN = r"""//! Reads a file, and tells by its status whether it is read whole.
#![tactic(auto)]

ghost use Rattle.std.specs.Prelude.{◌≤◌, length};

USES
use std::alloc::Global;
use std::env;
use std::process::ExitCode;
use wp_base::{Stop, Str};
use wp_io::{Files, RealFiles, read_all};

const LIMIT: usize = 1_048_576;

fn text_of(rt: HostRuntime) -> Option<Vec<u8>> {
    let alloc = rt.alloc();
    let args = env::args(&rt).ok()?;
    let mut name = None;
    for word in args.skip(1) {
        name = Str::from_bytes(alloc, word.as_bytes()).ok();
    }
    let name = name?;
    let mut files = RealFiles::new(rt);
    files.open(&name).ok()?;
    read_all(alloc, &mut files, LIMIT).ok()
}

fn main(rt: HostRuntime) -> ExitCode {
    let alloc = rt.alloc();
    let Some(text) = text_of(rt) else {
        return ExitCode::from(3);
    };
    if text.len() > LIMIT {
        return ExitCode::from(4);
    }
    match read(alloc, text.as_slice()) {
        Ok(()) => ExitCode::from(0),
        Err(Stop::Refused(_)) => ExitCode::from(1),
        Err(Stop::NoMemory) => ExitCode::from(2),
    }
}
"""

READ_TOKENS = """fn read(alloc: Global, text: &[u8]) -> Result<(), Stop>
    requires { length text.now ≤ 1048576 }
{
    let _tokens = lex(alloc, text)?;
    Ok(())
}
"""

READ_TREES = """fn read(alloc: Global, text: &[u8]) -> Result<(), Stop>
    requires { length text.now ≤ 1048576 }
{
    let tokens = lex(alloc, text)?;
    let program = parse(alloc, &tokens)?;
    let typed = type_program(alloc, &program, Machdep::X86_64)?;
    let _annotations = type_annots(alloc, &typed)?;
    Ok(())
}
"""

TOKENS = {
    "nothing": b"",
    "blanks": b" " * LIMIT,
    "newlines": b"\n" * LIMIT,
    "a comment": b"/*" + b"x" * (LIMIT - 4) + b"*/",
    "a comment of stars": b"/*" + b"*" * (LIMIT - 3) + b"/",
    "comments": b"/**/" * (LIMIT // 4),
    "line comments": b"//\n" * (LIMIT // 3),
    "an annotation": b"/*@" + b" " * (LIMIT - 5) + b"*/",
    "an annotation left open": b"/*@" + b"*" * (LIMIT - 3),
    "annotations left open in lines": b"//@ /*\n" * 60000,
    "a name": b"a" * LIMIT,
    "names": b"a b " * 100000,
    "digits": b"0" * LIMIT,
    "digits past the limit": b"1" * LIMIT,
    "hexadecimal digits": b"0x" + b"f" * (LIMIT - 2),
    "a long escape": b"'\\x" + b"0" * (LIMIT - 4) + b"'",
    "a quote": b"'" + b"a" * (LIMIT - 1),
    "opening brackets": b"(" * LIMIT,
    "200,000 tokens": b"( + a" * 66666,
    "line markers": b"# 1 x\n" * (LIMIT // 6),
    "marker of comments": b"#" + b"/**/" * (LIMIT // 4 - 1) + b"1",
    "backslashes in an annotation": b"//@ \\" + b"a" * (LIMIT - 6),
}


def function(body):
    return b"int f(int a) {" + body + b"}"


def contract(clause):
    return b"/*@ ensures " + clause + b"; */ " + function(b"return a;")


# At most 200,000 tokens each. No text has more than 200 forms open at a place; chains of what isn't counted as a form are
# read, walked and dropped by loops.
TREES = {
    "nothing": b"",
    "400 functions of 80 statements": b"\n".join(function(b"a = a + a; " * 80) for _ in range(400)),
    "199 brackets": function(b"return " + b"(" * 199 + b"a" + b")" * 199 + b";"),
    "200 brackets": function(b"return " + b"(" * 200 + b"a" + b")" * 200 + b";"),
    "a ladder of 190 else if": function(b"if (a) ; else " * 190 + b";"),
    "100,000 statements": function(b";" * 100000),
    "1,000 globals": b"int x = 1, y[2];\n" * 1000,
    "24,000 typedefs, each used": b"".join(b"typedef int t%d;\n" % i for i in range(24000)) + b"".join(b"t%d x%d;\n" % (i, i) for i in range(24000)),
    "no declaration at the end": b"int x = 1;\n" * 30000 + b"int",
    "a sum of 90,000": function(b"return a" + b" + a" * 90000 + b";"),
    "a product of 90,000": function(b"return a" + b" * a" * 90000 + b";"),
    "90,000 comparisons": function(b"return a" + b" < a" * 90000 + b";"),
    "90,000 assignments": function(b"a = " * 90000 + b"a;"),
    "60,000 indices": function(b"return a" + b"[0]" * 60000 + b";"),
    "190,000 stars": b"int " + b"*" * 190000 + b"p;",
    "a sum of 90,000 in a clause": contract(b"a < a" + b" + a" * 90000),
    "45,000 comparisons joined": contract(b"a < a" + b" && a < a" * 45000),
    "45,000 equivalences": contract(b"a < a" + b" <==> a < a" * 45000),
    "45,000 quantifiers": contract(b"\\forall integer i; " * 45000 + b"a < a"),
    "20,000 quantifiers joined": contract(b"a < a && \\exists integer i; " * 20000 + b"a < a"),
    "35,000 \\let": contract(b"\\let i = a; " * 35000 + b"a < a"),
    "95,000 stars of two binders": contract(b"\\forall int " + b"*" * 95000 + b"p, q; a < a"),
    "a contract of 9,000 clauses": b"/*@ " + b"requires a < 1 && a > 0; " * 9000 + b"*/ " + function(b"return a;"),
}


def below(names):
    """These crates and all that they stand on."""
    stands = {}
    for line in open(f"{TOP}/crates.txt"):
        name, colon, others = line.partition("#")[0].partition(":")
        if colon:
            stands[name.split()[0]] = others.split()
    found, left = [], list(names)
    while left:
        name = left.pop()
        if name in stands and name not in found:
            found.append(name)
            left += stands[name]
    return found


USES = """use acsl_typing::type_annots;
use c_kinds::Machdep;
use c_lexer::lex;
use c_parser::parse;
use c_typing::type_program;"""


def sources(trees):
    """The crates of the program, those that it names, and its text."""
    if not trees:
        return below(LEXER), "wp_base wp_io c_lexer", MAIN.replace("USES", "use c_lexer::lex;") + READ_TOKENS
    return below(TYPING), "wp_base " + " ".join(TYPING), MAIN.replace("USES", USES) + READ_TREES


def build(room, trees):
    crates, named, main = sources(trees)
    os.makedirs(f"{room}/crates/read_file/src")
    os.mkdir(f"{room}/.git")
    for name in crates:
        subprocess.run(["cp", "-a", f"{TOP}/crates/{name}", f"{room}/crates/{name}"], check=True)
    lines = [line for line in open(f"{TOP}/crates.txt") if line.split(":")[0] in crates]
    with open(f"{room}/crates.txt", "w") as out:
        out.write("".join(lines) + f"read_file: {named}\n")
    with open(f"{room}/crates/read_file/src/main.rt", "w") as out:
        out.write(main)
    # Building ends in a run; one without a file only ends with its status.
    log = subprocess.run(["rt", "run"], cwd=f"{room}/crates/read_file", capture_output=True, text=True)
    program = f"{room}/crates/read_file/out/read_file"
    if not os.path.exists(program):
        sys.exit(log.stdout + log.stderr)
    return program


def run(program, path, megabytes=None):
    """The seconds that the program takes on a file, and its status; with at most so much memory, where it is said. The
    stack has 8 MB."""
    limits = "ulimit -s 8192; " + (f"ulimit -v {megabytes * 1024}; " if megabytes else "")
    words = ["sh", "-c", limits + 'exec "$1" "$2"', "sh", program, path]
    start = time.monotonic()
    status = subprocess.run(words, capture_output=True).returncode
    return time.monotonic() - start, status


def main():
    if sys.argv[1:] not in (["tokens"], ["trees"]):
        sys.exit("usage: bench/reading.py tokens | trees")
    trees = sys.argv[1] == "trees"
    with tempfile.TemporaryDirectory() as room:
        program = build(room, trees)
        print(f"{'text':34}{'bytes':>9}{'seconds':>10}{'MB':>6}  status")
        for name, text in (TREES if trees else TOKENS).items():
            path = f"{room}/text.c"
            with open(path, "wb") as out:
                out.write(text)
            seconds, status = run(program, path)
            # the least memory, code and stack included, in which it ends so
            least = next((megabytes for megabytes in MEMORY if run(program, path, megabytes)[1] == status), None)
            print(f"{name:34}{len(text):9}{seconds:10.3f}{least or 'more':>6}  {status}", flush=True)


main()
