"""Sees that a view of a log does not outlive the bytes of the log: a function that gives up the bytes while a view is still used does not compile. The same
function with the view used first is proved, so it is refused for nothing else."""
import os
import subprocess
import sys

sys.dont_write_bytecode = True  # no folder of it beside the tests
from program import folder_of_toolchain, run, words_of_a_crate

FUNCTION = """\
//! A view and the bytes that it shows.
#![tactic(auto)]

use std::alloc::Global;
use wal::read_log;

/// Gives up bytes.
fn give_up(_bytes: Vec<u8>) {}

/// Whether a log has a record with LSN 1.
pub fn has_first(alloc: Global, bytes: Vec<u8>) -> bool {
    let Ok((log, _)) = read_log(alloc, &bytes) else {
        return false;
    };
    let view = log.get(1);
%s}
"""
USED_FIRST = "    let found = view.is_some();\n    drop(log);\n    give_up(bytes);\n    found\n"
GIVEN_UP_FIRST = "    give_up(bytes);\n    view.is_some()\n"


def checked(room, name, end):
    """What the prover says of the function with this end."""
    kit, folder = folder_of_toolchain(), os.path.join(room, name)
    os.makedirs(os.path.join(folder, "src"))
    with open(os.path.join(folder, "src/lib.rt"), "w") as file:
        file.write(FUNCTION % end)
    words = [f"{kit}/bin/rattle", "check", *words_of_a_crate(kit, name, ["wal", "page"])]
    ran = run(words, cwd=folder, stdin=subprocess.DEVNULL, text=True)
    return ran.stdout + ran.stderr


def check_borrow(tally, room):
    said = checked(room, "view_used_first", USED_FIRST)
    tally.say("a view that is used before its bytes are given up is proved", "logic=proved" in said, said)
    said = checked(room, "bytes_given_up_first", GIVEN_UP_FIRST)
    refusal = "error[borrow-e0505]: cannot move out of `bytes` because it is borrowed"
    tally.say("a view that is used after its bytes are given up does not compile", refusal in said, said)
