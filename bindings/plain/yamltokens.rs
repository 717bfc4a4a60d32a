//! The program `yamltokens`, as `crates/yamltokens` has it.

use pokhvizi::kit::HostRuntime;
use pokhvizi::token_lines::command::program;
use std::process::ExitCode;

fn main() -> ExitCode {
    program(HostRuntime)
}
