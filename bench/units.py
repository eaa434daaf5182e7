#!/usr/bin/env python3
"""Times how long it takes to read files of 1, 2 and 4 MiB, from their bytes to their trees, which are dropped. It builds a small
program in a folder of its own, over copies of the crates, and so needs the kit (`rt`) and some minutes."""

import os
import pathlib
import shutil
import subprocess
import sys
import tempfile
import time

CRATES = "nt_io nt_value nt_diag nt_lexer nt_ast nt_items nt_read_expr nt_read_stmt nt_read_unit nt_read_item nt_read_module nt_parse_expr nt_parse_unit".split()

PROGRAM = """//! Counts the items of a file.
#![tactic(auto)]

use nt_io::{FileInputs, read_all};
use nt_lexer::{Head, tokens};
use nt_parse_unit::source_text;
use std::env;
use std::process::ExitCode;

fn main(rt: HostRuntime) -> ExitCode {
    let Ok(mut all) = env::args(&rt) else {
        return ExitCode::from(2);
    };
    let Some(path) = all.nth(1) else {
        return ExitCode::from(2);
    };
    let mut inputs = FileInputs::new(&rt);
    let Ok(bytes) = read_all(rt.alloc(), &mut inputs, path.as_str(), 4194304) else {
        return ExitCode::from(3);
    };
    let mut head = Head {
        unit: None,
        count: 0,
    };
    let Ok(found) = tokens(rt.alloc(), 0, &bytes, &mut head) else {
        return ExitCode::from(1);
    };
    match source_text(rt.alloc(), &found) {
        Ok(units) => match println!(rt; "{}", units.items.len()) {
            Ok(()) => ExitCode::from(0),
            Err(_) => ExitCode::from(4),
        },
        Err(_) => ExitCode::from(5),
    }
}
"""

# what stands before, a line that is repeated, and what stands after
LINES = {
    "imports": (b"", b"import some_package::some_name;\n", b""),
    "variables": (b"module m;\n", b"logic [31:0] signal_of_the_module_before_this = 17;\n", b"endmodule\n"),
    "names of one declaration": (b"module m; some_type a", b", a_name_of_the_list", b"; endmodule\n"),
    "instances": (b"module m;\n", b"stage_of_a_pipeline #(.K(3)) instance_of_the_stage(clock_of_all, data_in_of_it, data_out_of_it);\n", b"endmodule\n"),
    "procedures": (b"module m;\n", b"always @(posedge clock_of_all) if (enable_of_it) state_of_this <= state_of_this + 1;\n", b"endmodule\n"),
    "small modules": (b"", b"module stage(input logic clk, output int q); endmodule\n", b""),
    "members": (b"typedef struct {\n", b"logic [3:0] member_of_all_of_these_structures;\n", b"} T;\n"),
    "open structures": (b"typedef ", b"struct { ", b""),
}


def main():
    top = pathlib.Path(__file__).resolve().parent.parent
    with tempfile.TemporaryDirectory() as folder:
        work = pathlib.Path(folder)
        (work / "crates").mkdir()
        for name in CRATES:
            shutil.copytree(top / "crates" / name, work / "crates" / name, ignore=shutil.ignore_patterns("out", "must-fail"))
        lines = [line for line in (top / "crates.txt").read_text().splitlines() if line.split(":")[0] in CRATES]
        (work / "crates.txt").write_text("\n".join(lines) + "\ncut: nt_io nt_value nt_diag nt_lexer nt_items nt_parse_unit\n")
        (work / "crates" / "cut" / "src").mkdir(parents=True)
        for empty in ("specs", "proofs"):
            (work / "crates" / "cut" / empty).mkdir()
            (work / "crates" / "cut" / empty / "Lib.antt").write_text("")
        (work / "crates" / "cut" / "src" / "main.rt").write_text(PROGRAM)
        built = subprocess.run(["rt", "run", "--", "nothing"], cwd=work / "crates" / "cut", capture_output=True, text=True)
        program = work / "crates" / "cut" / "out" / "cut"
        if not program.exists():
            sys.exit(built.stdout[-2000:] + built.stderr[-2000:])
        for name, (before, line, after) in LINES.items():
            for mebibytes in (1, 2, 4):
                size = mebibytes << 20
                path = work / "text"
                path.write_bytes(before + line * ((size - len(before) - len(after)) // len(line)) + after)
                begin = time.monotonic()
                out = subprocess.run([program, path], capture_output=True, text=True)
                print(f"{name}: {os.path.getsize(path)} bytes, status {out.returncode}, {out.stdout.strip() or 'no'} items, {time.monotonic() - begin:.3f} s", flush=True)


main()
