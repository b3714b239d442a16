//! A console over one bounded buffer: what is typed goes, byte by byte, through the buffer to what
//! is printed. The typist and the printer are natives, each in a thread of its own.
#![tactic(auto)]

pub mod bytes;
pub mod ends;
pub mod passing;

use passing::pass_on;
use std::process::ExitCode;

fn main(rt: HostRuntime) -> ExitCode {
    let _ = eprintln!(rt; "console: what is typed is printed; control-D ends it");
    let report = match pass_on(&rt, rt.alloc(), rt.stdin(), rt.stdout()) {
        Ok(report) => report,
        Err(refusal) => {
            let _ = eprintln!(rt; "console: {refusal}");
            return ExitCode::FAILURE;
        }
    };
    let mut code = ExitCode::SUCCESS;
    for end in report.natives.iter() {
        if let Err(error) = end.ended() {
            let _ = eprintln!(rt; "console: {error}");
            code = ExitCode::FAILURE;
        }
    }
    code
}
