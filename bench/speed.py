#!/usr/bin/env python3
"""Measures the reader and the machine of written designs, in processor time.

    bench/speed.py [NODES] [TICKS] [MEGABYTES]

It makes a design text of NODES nodes of all forms (5,000 if left out), reads it and makes TICKS ticks of it (100,000),
first with nothing acknowledged and then with each request acknowledged in its tick, which evaluates the nodes a second
time. Then it reads a text of MEGABYTES (50). The program that is measured stands in a copy of the repository in a new
folder, which is removed at the end.
"""

import sys
import tempfile

from design import design
from program import copied, ran

LIBRARIES = ("xt_base", "xt_bits", "nt_core", "nt_write", "nt_read", "nt_run")
BYTES_A_NODE = 48

PROGRAM = r"""//! Reads a design and makes ticks of it.
#![tactic(auto)]

use nt_core::Netlist;
use nt_run::{Acks, Runner, TickEnd};
use std::alloc::Global;
use std::env;
use std::fs;
use std::io;
use std::time::CpuClock;
use xt_base::NoMemory;

/// Makes so many ticks, and says how many were made.
fn ticks(alloc: Global, netlist: &Netlist, count: u32, answers: bool) -> Result<u32, NoMemory> {
    let mut runner = Runner::new(alloc, netlist)?;
    let mut acks = Acks::new(alloc, netlist)?;
    if answers && netlist.hosts.len() > 0 {
        acks.set(0, &[7]);
    }
    let mut made = 0;
    for tick in 0..count {
        if runner.tick(&acks) != TickEnd::Stalled {
            made = tick + 1;
        }
    }
    Ok(made)
}

fn main(rt: HostRuntime) -> io::Result<()> {
    let mut words = env::args(&rt)?.skip(1);
    let (Some(file), Some(count)) = (words.next(), words.next()) else {
        return Ok(());
    };
    let count = count.as_str().parse::<u32>().unwrap_or(0);
    let text = fs::read(&rt, file.as_str())?;
    let start = rt.process_cpu_time()?;
    let Ok(netlist) = nt_read::read(rt.alloc(), text.as_slice()) else {
        return Ok(());
    };
    let end = rt.process_cpu_time()?;
    let millis = end.saturating_sub(start).as_millis();
    println!(rt; "read {} {} {millis}", text.len(), netlist.nodes.len())?;
    for answers in [false, true] {
        let start = rt.process_cpu_time()?;
        let made = ticks(rt.alloc(), &netlist, count, answers).unwrap_or(0);
        let end = rt.process_cpu_time()?;
        let millis = end.saturating_sub(start).as_millis();
        println!(rt; "{} {made} {millis}", if answers { "answered" } else { "quiet" })?;
    }
    Ok(())
}
"""


def measured(program, text, ticks):
    """Runs the program over a text, and answers the words of each of its lines."""
    with open(f"{program}/design.txt", "w", encoding="ascii") as to:
        to.write(text)
    return ran(program, [f"{program}/design.txt", str(ticks)], 3)


def main():
    given = [int(word) for word in sys.argv[1:]]
    nodes, ticks, megabytes = given + [5_000, 100_000, 50][len(given) :]
    with tempfile.TemporaryDirectory(prefix="speed-") as folder:
        program = copied(folder, "speed", LIBRARIES, PROGRAM)
        (_, size, count, millis), *runs = measured(program, design(nodes), ticks)
        print(f"{count} nodes, {size} bytes, read in {millis} ms", flush=True)
        for name, made, millis in runs:
            rate = 1000 * int(made) // max(int(millis), 1)
            print(f"{name}: {made} ticks in {millis} ms, {rate} ticks a second", flush=True)
        (_, size, count, millis), *_ = measured(program, design(megabytes * 10**6 // BYTES_A_NODE), 0)
        print(f"{count} nodes, {size} bytes, read in {millis} ms")


if __name__ == "__main__":
    main()
