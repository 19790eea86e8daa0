//! A log that is still being written: what is added is read as it comes.

use std::fs::{self, File};
use std::io::{self, Read};
use std::os::unix::fs::MetadataExt;
use std::path::PathBuf;
use std::thread::sleep;
use std::time::Duration;

/// So often a look is taken for more.
const LOOK: Duration = Duration::from_millis(100);

/// A file that grows. It ends where it is replaced, cut or taken away.
pub struct Growing {
    file: File,
    path: PathBuf,
    read: u64,
}

impl Growing {
    pub fn open(name: &str) -> io::Result<Growing> {
        Ok(Growing {
            file: File::open(name)?,
            path: PathBuf::from(name),
            read: 0,
        })
    }

    /// Can there be more to come?
    fn is_current(&self) -> io::Result<bool> {
        let own = self.file.metadata()?;
        let same = match fs::metadata(&self.path) {
            Ok(named) => (named.dev(), named.ino()) == (own.dev(), own.ino()),
            Err(_) => false,
        };
        Ok(same && own.len() >= self.read)
    }
}

impl Read for Growing {
    fn read(&mut self, bytes: &mut [u8]) -> io::Result<usize> {
        loop {
            let current = self.is_current()?;
            let read = self.file.read(bytes)?;
            self.read += read as u64;
            if read > 0 || bytes.is_empty() || !current {
                return Ok(read);
            }
            sleep(LOOK);
        }
    }
}
