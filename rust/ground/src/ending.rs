//! How a subcommand ends, and how it says what it has to say: results on standard output, all else on standard error.

use std::io::{self, BufWriter, ErrorKind, Write};
use std::process::ExitCode;

/// How a subcommand ended.
#[derive(Clone, Copy, PartialEq, Eq, Debug)]
pub enum Ending {
    /// All went well.
    Done,
    /// Something was refused.
    Refused,
    /// The options or a file were not as expected.
    Misused,
}

impl From<Ending> for ExitCode {
    fn from(ending: Ending) -> ExitCode {
        ExitCode::from(match ending {
            Ending::Done => 0,
            Ending::Refused => 1,
            Ending::Misused => 2,
        })
    }
}

/// Writes to standard output. A reader that has gone, as `head` does once it has enough, wants no more, and that is no failure.
pub fn print(bytes: impl AsRef<[u8]>) -> Result<(), Vec<String>> {
    print_on(bytes).map(|_| ())
}

/// The same, and gives whether there is a reader still, for who would go on as long as there is.
pub fn print_on(bytes: impl AsRef<[u8]>) -> Result<bool, Vec<String>> {
    let mut out = io::stdout().lock();
    match out.write_all(bytes.as_ref()).and_then(|()| out.flush()) {
        Ok(()) => Ok(true),
        Err(told) if told.kind() == ErrorKind::BrokenPipe => Ok(false),
        Err(told) => Err(vec![format!("standard output: {told}")]),
    }
}

/// Says something on standard error, a line each, after the name of the subcommand. Where that can't be written to, the exit
/// status alone tells.
pub fn say(name: &str, lines: &[String]) {
    let mut out = BufWriter::new(io::stderr().lock());
    for line in lines {
        if writeln!(out, "{name}: {line}").is_err() {
            return;
        }
    }
    let _ = out.flush();
}

/// Says why a subcommand could not do what it should.
pub fn failed(name: &str, lines: &[String]) -> Ending {
    say(name, lines);
    Ending::Misused
}
