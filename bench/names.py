#!/usr/bin/env python3
"""Measures the scopes of a source and the rules on its names, in processor time.

    bench/names.py [LINES]

It makes sources of LINES lines (10,000 if left out) and of a tenth and four times as many, in which two of three lines declare a
name and ten scopes stand in one another, and asks the rules on names of each. The growth exponent is that from the first to the
second. The program that is measured stands in a copy of
the repository in a new folder, which is removed at the end.
"""

import math
import sys
import tempfile

from program import copied, ran
from source import scopes

LIBRARIES = ("xt_base", "vl_pre", "vl_lex", "vl_tree", "vl_expr", "vl_parse", "vl_names", "el_scope")

PROGRAM = r"""//! Asks the rules on names of a source.
#![tactic(auto)]

use el_scope::Scopes;
use std::env;
use std::io;
use std::time::CpuClock;
use vl_pre::{Defines, expand};
use xt_base::HostFiles;

fn main(rt: HostRuntime) -> io::Result<()> {
    let mut words = env::args(&rt)?.skip(1);
    let Some(file) = words.next() else {
        return Ok(());
    };
    let mut files = HostFiles::new(rt);
    let defines = Defines::new(rt.alloc());
    let Ok(text) = expand(rt.alloc(), &mut files, file.as_str(), &defines) else {
        return Ok(());
    };
    let Ok(tokens) = vl_lex::lex(rt.alloc(), &text) else {
        return Ok(());
    };
    let Ok(tree) = vl_parse::parse(rt.alloc(), &text, &tokens) else {
        return Ok(());
    };
    let start = rt.process_cpu_time()?;
    let Ok(scopes) = Scopes::build(rt.alloc(), &text, &tokens, &tree) else {
        return Ok(());
    };
    let end = rt.process_cpu_time()?;
    let built = end.saturating_sub(start).as_micros();
    let start = rt.process_cpu_time()?;
    let Ok(()) = scopes.check(rt.alloc(), &tree) else {
        return Ok(());
    };
    let end = rt.process_cpu_time()?;
    let checked = end.saturating_sub(start).as_micros();
    println!(rt; "{} {} {built} {checked}", text.bytes().len(), tokens.list().len())?;
    Ok(())
}
"""


def main():
    lines = int(sys.argv[1]) if sys.argv[1:] else 10_000
    with tempfile.TemporaryDirectory(prefix="names-") as folder:
        program = copied(folder, "names", LIBRARIES, PROGRAM)
        times = []
        for count in (lines // 10, lines, 4 * lines):
            with open(f"{program}/source.v", "w", encoding="ascii") as to:
                to.write(scopes(count))
            ((size, tokens, built, checked),) = ran(program, [f"{program}/source.v"], 1)
            times.append((int(size), int(built) + int(checked)))
            print(f"{count} lines, {size} bytes, {tokens} tokens:", end=" ")
            print(f"scopes in {int(built) / 1000:.1f} ms, rules in {int(checked) / 1000:.1f} ms", flush=True)
        (small, first), (large, second) = times[:2]
        print(f"growth exponent {math.log(second / first) / math.log(large / small):.2f}")


if __name__ == "__main__":
    main()
