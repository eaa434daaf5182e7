#!/usr/bin/env python3
"""Times how long nt_merge takes to join a chain of segments whose links come in several orders. It builds a small program
in a folder of its own, over a copy of the crate, and so needs the kit (`rt`) and some minutes."""

import pathlib
import shutil
import subprocess
import sys
import tempfile
import time

PROGRAM = """//! Joins a chain of segments.
#![tactic(auto)]

ghost use Rattle.std.specs.Prelude.{◌<◌, All, IfOk};
ghost use Rattle.nt_merge.specs.Classes.{Within};

use nt_merge::{Link, classes};
use std::alloc::{AllocError, Global};
use std::env;
use std::process::ExitCode;

// The links of a chain of so many segments. Each stands `step` places behind the one before it, round and round.
fn chain(alloc: Global, segments: u32, step: u32) -> Result<Vec<Link>, AllocError>
    requires { 1 < segments }
    ensures { IfOk result (λ links. All (Within segments) links.items) }
{
    let mut links = Vec::new(alloc);
    for k in 0..segments - 1 {
        let at = (u64::from(k) * u64::from(step) % u64::from(segments - 1)) as u32;
        links.push(Link {
            a: at,
            b: at + 1,
        })?;
    }
    Ok(links)
}

fn main(rt: HostRuntime) -> ExitCode {
    let Ok(mut all) = env::args(&rt) else {
        return ExitCode::from(2);
    };
    let (Some(segments), Some(step)) = (all.nth(1), all.next()) else {
        return ExitCode::from(2);
    };
    let (Ok(segments), Ok(step)) = (segments.parse::<u32>(), step.parse::<u32>()) else {
        return ExitCode::from(2);
    };
    if segments < 2 {
        return ExitCode::from(2);
    }
    let Ok(links) = chain(rt.alloc(), segments, step) else {
        return ExitCode::from(3);
    };
    let Ok(found) = classes(rt.alloc(), segments, &links) else {
        return ExitCode::from(3);
    };
    let joined = found.items().iter().filter(|least| **least == 0).count();
    match println!(rt; "{}", joined) {
        Ok(()) => ExitCode::from(0),
        Err(_) => ExitCode::from(4),
    }
}
"""

INVARIANT = """use Rattle.std.specs.List.{All}
use Rattle.nt_merge.specs.Classes.{Within}
use Rattle.join.proofs.chain.Given as goal

abbrev pub invariant-loop-k : goal.invariant-loop-k
invariant-loop-k l = All (Within l.segments) l.links.items
"""


def main():
    top = pathlib.Path(__file__).resolve().parent.parent
    with tempfile.TemporaryDirectory() as folder:
        work = pathlib.Path(folder)
        (work / "crates").mkdir()
        shutil.copytree(top / "crates" / "nt_merge", work / "crates" / "nt_merge", ignore=shutil.ignore_patterns("out", "must-fail"))
        (work / "crates.txt").write_text("nt_merge:\njoin: nt_merge\n")
        crate = work / "crates" / "join"
        for path in ("src", "specs", "proofs/chain"):
            (crate / path).mkdir(parents=True)
        (crate / "src" / "main.rt").write_text(PROGRAM)
        (crate / "specs" / "Lib.antt").write_text("")
        (crate / "proofs" / "Lib.antt").write_text("")
        (crate / "proofs" / "chain" / "Invariants.antt").write_text(INVARIANT)
        built = subprocess.run(["rt", "run", "--", "2", "1"], cwd=crate, capture_output=True, text=True)
        program = crate / "out" / "join"
        if not program.exists():
            sys.exit(built.stdout[-2000:] + built.stderr[-2000:])
        for segments in (16384, 131072, 1048576):
            for name, step in (("from the front", 1), ("from the back", segments - 2), ("spread", 7919)):
                begin = time.monotonic()
                out = subprocess.run([program, str(segments), str(step)], capture_output=True, text=True)
                print(f"{segments} segments, links {name}: status {out.returncode}, {out.stdout.strip()} joined, {time.monotonic() - begin:.3f} s", flush=True)


main()
