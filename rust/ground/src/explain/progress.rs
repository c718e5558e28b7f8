//! How far a long run has come, on a line of a terminal that is wiped at the end.

use std::fs::File;
use std::io::{self, IsTerminal, Stderr, Write};
use std::os::fd::AsFd;
use std::os::unix::fs::FileTypeExt;
use std::time::{Duration, Instant};

/// A run that is shorter shows none.
const FIRST: Duration = Duration::from_secs(1);
/// The line changes no faster.
const EACH: Duration = Duration::from_millis(250);

pub struct Progress<W: Write> {
    /// None where it is not shown.
    out: Option<W>,
    name: &'static str,
    /// How many bytes there are, where that is known.
    total: Option<u64>,
    next: Instant,
    /// The characters that stand on the line.
    width: usize,
}

impl Progress<Stderr> {
    /// It is shown where standard error is a terminal and the results go neither to one nor to another program, which may
    /// have the terminal: there they show by themselves how far it came.
    pub fn new(name: &'static str, total: Option<u64>) -> Progress<Stderr> {
        let shown = io::stderr().is_terminal() && !io::stdout().is_terminal() && !is_pipe();
        Progress::on(shown.then(io::stderr), name, total, Instant::now())
    }
}

/// Whether standard output is a pipe.
fn is_pipe() -> bool {
    let own = io::stdout().as_fd().try_clone_to_owned();
    let kind = own.and_then(|own| Ok(File::from(own).metadata()?.file_type()));
    kind.is_ok_and(|kind| kind.is_fifo())
}

impl<W: Write> Progress<W> {
    fn on(out: Option<W>, name: &'static str, total: Option<u64>, now: Instant) -> Progress<W> {
        Progress {
            out,
            name,
            total,
            next: now + FIRST,
            width: 0,
        }
    }

    /// Shows how many bytes were read, if it is time to.
    pub fn at(&mut self, read: u64) {
        if self.out.is_some() {
            self.show(read, Instant::now());
        }
    }

    fn show(&mut self, read: u64, now: Instant) {
        if now < self.next {
            return;
        }
        self.next = now + EACH;
        let percent = match self.total {
            // A file that grows meanwhile is never past its end.
            Some(total) if total > 0 => format!(", {}%", read.min(total) * 100 / total),
            _ => String::new(),
        };
        let line = format!("{}: {read} bytes read{percent}", self.name);
        self.put(&line);
        self.width = line.len();
    }

    /// Wipes the line.
    pub fn clear(&mut self) {
        if self.width > 0 {
            self.put("");
            self.width = 0;
            self.put("");
        }
    }

    /// Puts a text in the place of the line. Where that fails there is nothing to be done about it.
    fn put(&mut self, line: &str) {
        if let Some(out) = &mut self.out {
            let width = self.width;
            let _ = write!(out, "\r{line:width$}").and_then(|()| out.flush());
        }
    }
}

impl<W: Write> Drop for Progress<W> {
    fn drop(&mut self) {
        self.clear();
    }
}

#[cfg(test)]
impl Progress<io::Sink> {
    /// One that is not shown.
    pub fn none() -> Progress<io::Sink> {
        Progress::on(None, "", None, Instant::now())
    }
}

#[cfg(test)]
mod tests {
    use super::*;

    /// What a terminal was sent by a run with these bytes read at these milliseconds.
    fn sent(total: Option<u64>, steps: &[(u64, u64)]) -> String {
        let mut out = Vec::new();
        let now = Instant::now();
        let mut progress = Progress::on(Some(&mut out), "x", total, now);
        for (milliseconds, read) in steps {
            progress.show(*read, now + Duration::from_millis(*milliseconds));
        }
        drop(progress);
        String::from_utf8(out).expect("it is text")
    }

    #[test]
    fn a_short_run_shows_none() {
        assert_eq!(sent(Some(100), &[(0, 10), (999, 100)]), "");
    }

    #[test]
    fn a_long_run_shows_how_far_it_came_and_wipes_it() {
        let steps = [(999, 1), (1000, 5), (1100, 90), (1250, 100), (1500, 7)];
        let expected = "\rx: 5 bytes read, 5%\rx: 100 bytes read, 100%\rx: 7 bytes read, 7%    \r                   \r";
        assert_eq!(sent(Some(100), &steps), expected);
        assert_eq!(
            sent(None, &[(1000, 5)]),
            "\rx: 5 bytes read\r               \r"
        );
        assert_eq!(
            sent(Some(0), &[(1000, 0)]),
            "\rx: 0 bytes read\r               \r"
        );
        // The file has grown since its size was asked.
        assert!(sent(Some(4), &[(1000, 5)]).starts_with("\rx: 5 bytes read, 100%\r"));
    }

    #[test]
    fn where_it_is_not_shown_nothing_is() {
        let now = Instant::now();
        let mut progress = Progress::on(None::<Vec<u8>>, "x", None, now);
        progress.show(5, now + FIRST);
        progress.clear();
        assert!(progress.out.is_none());
    }
}
