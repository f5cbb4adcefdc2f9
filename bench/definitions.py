#!/usr/bin/env python3
"""Measures how the cost of parameter definitions grows with their number.

Usage: bench/definitions.py [NUMBER]
In a copy of the repository it builds a small program over `obu_data`, which adds NUMBER definitions and reads a parameter
block of each, and times it for NUMBER (200000 where none is given) and twice as many. The build proves `obu_data` and the
crates below it where no earlier run on the machine did, which takes some minutes.
It ends with 1 where the build or a run fails, and with 0 else, whatever was measured.
"""

import os
import shutil
import subprocess
import sys
import tempfile
import time

TOP = os.path.dirname(os.path.dirname(os.path.abspath(__file__)))
RUNS = 5
LIMIT = 2.5

PROGRAM = """//! Adds definitions of mix gains, and reads a block of each.
#![tactic(auto)]

use iamf_bits::Out;
use obu_data::{Definitions, Shape, read_block};
use obu_timing::Timing;
use std::alloc::{AllocError, Global};
use std::process::ExitCode;
use std::{env, io};

// A block that lasts one tick and steps to 0 dB.
fn payload_of(alloc: Global, id: u32) -> Result<Vec<u8>, AllocError> {
    let mut out = Out::new(alloc);
    out.put_leb(id)?;
    out.put_bytes(&[1, 1, 0, 0, 0])?;
    Ok(out.finish())
}

fn define(alloc: Global, definitions: &mut Definitions, count: u32) -> bool {
    for id in 0..count {
        let shape = Shape::Gain(Timing {
            id,
            rate: 48000,
            fixed: None,
        });
        if let Err(_) = definitions.add(id, shape) {
            return false;
        }
    }
    true
}

fn read_all(alloc: Global, definitions: &Definitions, count: u32) -> bool {
    for id in 0..count {
        let Ok(payload) = payload_of(alloc, id) else {
            return false;
        };
        if let Err(_) = read_block(alloc, definitions, &payload) {
            return false;
        }
    }
    true
}

fn count_in(rt: &HostRuntime) -> io::Result<u32> {
    let mut count = 0;
    for word in env::args(rt)?.skip(1) {
        count = word.as_str().parse().unwrap_or(0);
    }
    Ok(count)
}

fn main(rt: HostRuntime) -> ExitCode {
    let alloc = rt.alloc();
    let Ok(count) = count_in(&rt) else {
        return ExitCode::from(1);
    };
    let mut definitions = Definitions::new(alloc);
    if define(alloc, &mut definitions, count) && read_all(alloc, &definitions, count) {
        ExitCode::from(0)
    } else {
        ExitCode::from(1)
    }
}
"""


class Fails(Exception):
    """The build or a run failed."""


def copy_repository(work):
    shutil.copy(os.path.join(TOP, "HANDLES"), work)
    for crate in sorted(os.listdir(os.path.join(TOP, "crates"))):
        for part in ("src", "specs", "proofs"):
            source = os.path.join(TOP, "crates", crate, part)
            if os.path.isdir(source):
                shutil.copytree(source, os.path.join(work, "crates", crate, part))
    with open(os.path.join(TOP, "crates.txt")) as lines:
        crates = lines.read()
    with open(os.path.join(work, "crates.txt"), "w") as lines:
        lines.write(crates + "growth: obu_data obu_timing iamf_bits\n")
    os.makedirs(os.path.join(work, "crates", "growth", "src"))
    with open(os.path.join(work, "crates", "growth", "src", "main.rt"), "w") as main:
        main.write(PROGRAM)


def build(work):
    crate = os.path.join(work, "crates", "growth")
    run = subprocess.run(["rt", "run", "--", "1"], cwd=crate, capture_output=True, text=True)
    program = os.path.join(crate, "out", "growth")
    if run.returncode != 0 or not os.access(program, os.X_OK):
        raise Fails("the build failed:\n" + run.stdout[-2000:] + run.stderr[-2000:])
    return program


def best(program, number):
    times = []
    for _ in range(RUNS):
        begun = time.perf_counter()
        if subprocess.run([program, str(number)]).returncode != 0:
            raise Fails("a run failed")
        times.append(time.perf_counter() - begun)
    return min(times)


def main():
    number = int(sys.argv[1]) if len(sys.argv) > 1 else 200_000
    with tempfile.TemporaryDirectory() as work:
        copy_repository(work)
        program = build(work)
        once, twice = best(program, number), best(program, 2 * number)
    growth = twice / once
    print("| definitions and look-ups | program, s | twice as many, s | growth | below 2.5 |")
    print("| --- | --- | --- | --- | --- |")
    print(f"| {number} | {once:.3f} | {twice:.3f} | {growth:.2f} | {'met' if growth < LIMIT else 'MISSED'} |")


if __name__ == "__main__":
    try:
        main()
    except Fails as failure:
        print(failure, file=sys.stderr)
        sys.exit(1)
