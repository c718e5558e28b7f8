//! Files that appear whole or not at all.

use std::fs::{self, File, OpenOptions};
use std::io::{self, ErrorKind, Write};
use std::path::{Path, PathBuf};
use std::process;

/// A file whose bytes stand on the disk beside its place. [`WholeFile::keep`] puts it there; dropped before, it is removed.
#[must_use]
#[derive(Debug)]
pub struct WholeFile {
    /// None once it is in its place, and for a pipe or a device, which has nothing beside it and has had its bytes already.
    beside: Option<PathBuf>,
    place: PathBuf,
}

impl WholeFile {
    /// Writes the bytes beside `path`. A link is followed, so that the file behind it is replaced and not the link.
    pub fn write(path: &Path, bytes: &[u8]) -> io::Result<WholeFile> {
        let place = path.canonicalize().unwrap_or(path.to_path_buf());
        let there = fs::metadata(&place).ok();
        if there.as_ref().is_some_and(|there| !there.is_file()) {
            OpenOptions::new()
                .write(true)
                .open(&place)?
                .write_all(bytes)?;
            return Ok(WholeFile {
                beside: None,
                place,
            });
        }
        let (mut file, beside) = create_beside(&place)?;
        // From here on a failure drops it, and so removes what was begun.
        let begun = WholeFile {
            beside: Some(beside),
            place,
        };
        if let Some(there) = there {
            file.set_permissions(there.permissions())?;
        }
        file.write_all(bytes)?;
        file.sync_all()?;
        Ok(begun)
    }

    /// Puts the file in its place, at once.
    pub fn keep(mut self) -> io::Result<()> {
        if let Some(beside) = &self.beside {
            fs::rename(beside, &self.place)?;
            self.beside = None;
        }
        Ok(())
    }
}

impl Drop for WholeFile {
    fn drop(&mut self) {
        if let Some(beside) = &self.beside {
            // A failure was told already, and there is nothing else to do about one here.
            let _ = fs::remove_file(beside);
        }
    }
}

/// A new file in the folder of `place`. A name that is taken, by a run that was killed, is left alone.
fn create_beside(place: &Path) -> io::Result<(File, PathBuf)> {
    let name = place.file_name().ok_or(ErrorKind::InvalidInput)?;
    let mut attempt = 0;
    loop {
        let mut name = name.to_os_string();
        name.push(format!(".{}-{attempt}.part", process::id()));
        let beside = place.with_file_name(name);
        match OpenOptions::new()
            .write(true)
            .create_new(true)
            .open(&beside)
        {
            Ok(file) => return Ok((file, beside)),
            Err(taken) if taken.kind() == ErrorKind::AlreadyExists && attempt < 100 => attempt += 1,
            Err(told) => return Err(told),
        }
    }
}

#[cfg(test)]
mod tests {
    use super::*;
    use std::env::temp_dir;

    /// A new folder, removed at the end of its test.
    struct Folder(PathBuf);

    impl Folder {
        fn new(name: &str) -> Folder {
            let path = temp_dir().join(format!("ground-{name}-{}", process::id()));
            fs::create_dir_all(&path).expect("the folder is made");
            Folder(path)
        }

        fn names(&self) -> Vec<String> {
            let entries = fs::read_dir(&self.0).expect("the folder is read");
            let mut names: Vec<String> = entries
                .map(|entry| {
                    entry
                        .expect("an entry")
                        .file_name()
                        .to_string_lossy()
                        .into_owned()
                })
                .collect();
            names.sort();
            names
        }
    }

    impl Drop for Folder {
        fn drop(&mut self) {
            let _ = fs::remove_dir_all(&self.0);
        }
    }

    #[test]
    fn a_file_appears_when_it_is_kept() {
        let folder = Folder::new("kept");
        let path = folder.0.join("a");
        let file = WholeFile::write(&path, b"one").expect("it is written");
        assert!(!path.exists());
        file.keep().expect("it is kept");
        assert_eq!(fs::read(&path).expect("it is read"), b"one");
        WholeFile::write(&path, b"two")
            .and_then(WholeFile::keep)
            .expect("it is replaced");
        assert_eq!(fs::read(&path).expect("it is read"), b"two");
        assert_eq!(folder.names(), ["a"]);
    }

    #[test]
    fn a_file_that_is_not_kept_leaves_nothing() {
        let folder = Folder::new("dropped");
        let path = folder.0.join("a");
        fs::write(&path, b"before").expect("it is written");
        drop(WholeFile::write(&path, b"one").expect("it is written"));
        assert_eq!(folder.names(), ["a"]);
        assert_eq!(fs::read(&path).expect("it is read"), b"before");
        assert!(WholeFile::write(&folder.0.join("none/a"), b"one").is_err());
        assert!(WholeFile::write(&folder.0, b"one").is_err());
        assert_eq!(folder.names(), ["a"]);
    }

    #[test]
    fn the_file_behind_a_link_is_replaced() {
        let folder = Folder::new("link");
        let (file, link) = (folder.0.join("file"), folder.0.join("link"));
        fs::write(&file, b"before").expect("it is written");
        std::os::unix::fs::symlink(&file, &link).expect("it is linked");
        WholeFile::write(&link, b"one")
            .and_then(WholeFile::keep)
            .expect("it is replaced");
        assert!(link.is_symlink());
        assert_eq!(fs::read(&file).expect("it is read"), b"one");
    }

    #[test]
    fn what_is_no_plain_file_is_never_replaced() {
        // A socket stands for pipes and devices: it can't be opened, and /dev/null would be the machine's own.
        let folder = Folder::new("socket");
        let path = folder.0.join("socket");
        let socket = std::os::unix::net::UnixListener::bind(&path).expect("it is made");
        assert!(WholeFile::write(&path, b"one").is_err());
        assert!(!fs::metadata(&path).expect("it is there").is_file());
        assert_eq!(folder.names(), ["socket"]);
        drop(socket);
    }
}
