//! What a subcommand reads: a file, or standard input where the name is `-`.

use std::fs::File;
use std::io::{self, Read};
use std::path::Path;

pub const MIB: u64 = 1 << 20;

/// The most bytes of a sheet, or of an image that is shown.
pub const LARGEST: u64 = 256 * MIB;

/// All bytes of a file, which are held in memory and so are limited: at most `most`, a whole number of MiB.
pub fn read(path: &Path, most: u64) -> Result<Vec<u8>, Vec<String>> {
    let mut data = Vec::new();
    let (name, read) = if path == Path::new("-") {
        let mut input = io::stdin().lock().take(most + 1);
        ("standard input".to_string(), input.read_to_end(&mut data))
    } else {
        let read = File::open(path).and_then(|file| file.take(most + 1).read_to_end(&mut data));
        (path.display().to_string(), read)
    };
    match read {
        Err(told) => Err(vec![format!("{name}: {told}")]),
        Ok(length) if length as u64 > most => {
            Err(vec![format!("{name}: more than {} MiB", most / MIB)])
        }
        Ok(_) => Ok(data),
    }
}

/// Whether both names are of one file that is there.
pub fn same(one: &Path, other: &Path) -> bool {
    let real = |path: &Path| path.canonicalize().ok();
    real(one).is_some() && real(one) == real(other)
}
