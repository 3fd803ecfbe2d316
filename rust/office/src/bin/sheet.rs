//! The lease office's tool.
use office::tool::{run, Told, UNUSABLE};
use office::words::Said;
use std::io::{self, ErrorKind, Write};
use std::process::ExitCode;

fn main() -> ExitCode {
    let words = std::env::args_os().skip(1).collect();
    ExitCode::from(match run(words) {
        Told::Result(said) => print(io::stdout(), said),
        Told::Message(said) => print(io::stderr(), said),
    })
}

/// Prints the text and gives the status. A reader that has seen enough closes the pipe, which is no fault.
fn print(mut to: impl Write, said: Said) -> u8 {
    match to.write_all(said.text.as_bytes()).and_then(|()| to.flush()) {
        Err(error) if error.kind() != ErrorKind::BrokenPipe => {
            // Where standard error cannot be written either, the status is all that can be told.
            let _ = writeln!(io::stderr(), "the result cannot be written: {error}");
            UNUSABLE
        }
        _ => said.status,
    }
}
