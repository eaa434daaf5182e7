#!/usr/bin/env python3
"""Times how long nt_lexer takes to cut files of 1, 2 and 4 MiB into tokens. It builds a small program in a folder of its
own, over copies of the crates, and so needs the kit (`rt`) and some minutes."""

import os
import pathlib
import shutil
import subprocess
import sys
import tempfile
import time

CRATES = ["nt_io", "nt_value", "nt_diag", "nt_lexer"]

PROGRAM = """//! Counts the tokens of a file.
#![tactic(auto)]

use nt_io::{FileInputs, read_all};
use nt_lexer::{Head, tokens};
use std::env;
use std::process::ExitCode;

fn main(rt: HostRuntime) -> ExitCode {
    let Ok(mut all) = env::args(&rt) else {
        return ExitCode::from(2);
    };
    let Some(path) = all.nth(1) else {
        return ExitCode::from(2);
    };
    let mut inputs = FileInputs::new(&rt);
    let Ok(bytes) = read_all(rt.alloc(), &mut inputs, path.as_str(), 4194304) else {
        return ExitCode::from(3);
    };
    let mut head = Head {
        unit: None,
        count: 0,
    };
    match tokens(rt.alloc(), 0, &bytes, &mut head) {
        Ok(found) => match println!(rt; "{}", found.len()) {
            Ok(()) => ExitCode::from(0),
            Err(_) => ExitCode::from(4),
        },
        Err(_) => ExitCode::from(1),
    }
}
"""

# text, and how many bytes a token takes in it
LINES = {
    "names": b"signal_of_a_net ",
    "numbers": b"16'hdead_beefxx ",
    "marks and comments": b"a<=b; // a line of words\n",
    "texts": b'"a\\n text  here" ',
}


def main():
    top = pathlib.Path(__file__).resolve().parent.parent
    with tempfile.TemporaryDirectory() as folder:
        work = pathlib.Path(folder)
        (work / "crates").mkdir()
        for name in CRATES:
            shutil.copytree(top / "crates" / name, work / "crates" / name, ignore=shutil.ignore_patterns("out", "must-fail"))
        (work / "crates.txt").write_text(
            "nt_io:\nnt_value: itoa\nnt_diag: nt_value\nnt_lexer: nt_value nt_diag\ncut: nt_io nt_value nt_diag nt_lexer\n"
        )
        (work / "crates" / "cut" / "src").mkdir(parents=True)
        for empty in ("specs", "proofs"):
            (work / "crates" / "cut" / empty).mkdir()
            (work / "crates" / "cut" / empty / "Lib.antt").write_text("")
        (work / "crates" / "cut" / "src" / "main.rt").write_text(PROGRAM)
        built = subprocess.run(["rt", "run", "--", "nothing"], cwd=work / "crates" / "cut", capture_output=True, text=True)
        program = work / "crates" / "cut" / "out" / "cut"
        if not program.exists():
            sys.exit(built.stdout[-2000:] + built.stderr[-2000:])
        for name, line in LINES.items():
            for mebibytes in (1, 2, 4):
                size = mebibytes << 20
                path = work / "text"
                path.write_bytes((line * (size // len(line) + 1))[:size // len(line) * len(line)])
                begin = time.monotonic()
                out = subprocess.run([program, path], capture_output=True, text=True)
                print(f"{name}: {os.path.getsize(path)} bytes, status {out.returncode}, {out.stdout.strip()} tokens, {time.monotonic() - begin:.3f} s", flush=True)


main()
