#!/usr/bin/env python3
"""Measures preprocessor, lexer and parser, in processor time.

    bench/front.py [BYTES]

It makes sources whose texts have about BYTES bytes (4,190,000 if left out, a little below the greatest text), and takes
each through the three. The program that is measured stands in a copy of the repository in a new folder, which is removed
at the end.
"""

import sys
import tempfile

from program import copied, ran
from source import SOURCES

LIBRARIES = ("xt_base", "vl_pre", "vl_lex", "vl_tree", "vl_expr", "vl_parse")

PROGRAM = r"""//! Takes a source through preprocessor, lexer and parser.
#![tactic(auto)]

use std::env;
use std::io;
use std::time::CpuClock;
use vl_pre::{Defines, expand};
use xt_base::HostFiles;

fn main(rt: HostRuntime) -> io::Result<()> {
    let mut words = env::args(&rt)?.skip(1);
    let Some(file) = words.next() else {
        return Ok(());
    };
    let mut files = HostFiles::new(rt);
    let defines = Defines::new(rt.alloc());
    let start = rt.process_cpu_time()?;
    let Ok(text) = expand(rt.alloc(), &mut files, file.as_str(), &defines) else {
        return Ok(());
    };
    let end = rt.process_cpu_time()?;
    let millis = end.saturating_sub(start).as_millis();
    println!(rt; "{} {millis}", text.bytes().len())?;
    let start = rt.process_cpu_time()?;
    let Ok(tokens) = vl_lex::lex(rt.alloc(), &text) else {
        return Ok(());
    };
    let end = rt.process_cpu_time()?;
    let millis = end.saturating_sub(start).as_millis();
    println!(rt; "{} {millis}", tokens.list().len())?;
    let start = rt.process_cpu_time()?;
    let Ok(tree) = vl_parse::parse(rt.alloc(), &text, &tokens) else {
        return Ok(());
    };
    let end = rt.process_cpu_time()?;
    let millis = end.saturating_sub(start).as_millis();
    println!(rt; "{} {millis}", tree.modules.len())?;
    Ok(())
}
"""


def main():
    size = int(sys.argv[1]) if sys.argv[1:] else 4_190_000
    with tempfile.TemporaryDirectory(prefix="front-") as folder:
        program = copied(folder, "front", LIBRARIES, PROGRAM)
        for make in SOURCES:
            with open(f"{program}/source.v", "w", encoding="ascii") as to:
                to.write(make(size))
            (length, expanded), (count, lexed), (_, parsed) = ran(program, [f"{program}/source.v"], 3)
            print(f"{make.__name__}: {length} bytes, {count} tokens,", end=" ")
            print(f"expanded in {expanded} ms, tokens in {lexed} ms, tree in {parsed} ms", flush=True)


if __name__ == "__main__":
    main()
