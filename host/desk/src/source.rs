//! Where a log is read from: a file, one packed by gzip, or memory.

use std::fs::File;
use std::io::{self, BufReader, Cursor, Read, Seek};
use std::process::{Child, ChildStdout, Command, Stdio};
use std::sync::Arc;

/// So much is read at a time.
const CHUNK: usize = 1 << 16;

/// What can be read from its start as often as it is needed.
#[derive(Clone)]
pub enum Source {
    /// A file, up to the length that it had when it was first read.
    File(String, u64),
    /// A file that gzip unpacks.
    Packed(String),
    Memory(Arc<[u8]>),
}

/// A log that is being read.
pub type Input = BufReader<Box<dyn Read + Send>>;

fn buffered(input: impl Read + Send + 'static) -> Input {
    BufReader::with_capacity(CHUNK, Box::new(input))
}

impl Source {
    /// A file by its name, or standard input if that is `-`. What can be read only once is kept.
    pub fn of(name: &str) -> io::Result<Source> {
        if name == "-" {
            return kept(io::stdin().lock());
        }
        let mut file = File::open(name)?;
        let about = file.metadata()?;
        if about.is_dir() {
            return Err(io::Error::from_raw_os_error(21));
        }
        if !about.is_file() {
            return kept(file);
        }
        if is_packed(name) {
            return Ok(Source::Packed(name.to_string()));
        }
        let length = file.seek(io::SeekFrom::End(0))?;
        Ok(Source::File(name.to_string(), length))
    }

    pub fn open(&self) -> io::Result<Input> {
        Ok(match self {
            Source::File(name, length) => buffered(File::open(name)?.take(*length)),
            Source::Packed(name) => buffered(Unpacked::start(name)?),
            Source::Memory(bytes) => buffered(Cursor::new(Arc::clone(bytes))),
        })
    }
}

/// Can it be read only from its start to its end: standard input, a pipe?
pub fn is_stream(name: &str) -> bool {
    let is_file = |about: std::fs::Metadata| about.is_file() || about.is_dir();
    name == "-" || !std::fs::metadata(name).map_or(true, is_file)
}

/// A file that is still being written.
pub fn growing(name: &str) -> io::Result<Input> {
    Ok(buffered(crate::follow::Growing::open(name)?))
}

/// A stream, to be read as it comes.
pub fn stream(name: &str) -> io::Result<Input> {
    Ok(match name {
        "-" => buffered(io::stdin()),
        _ => buffered(File::open(name)?),
    })
}

fn kept(mut input: impl Read) -> io::Result<Source> {
    let mut bytes = Vec::new();
    input.read_to_end(&mut bytes)?;
    Ok(Source::Memory(bytes.into()))
}

pub fn is_packed(name: &str) -> bool {
    name.ends_with(".gz")
}

/// What gzip makes of a file.
struct Unpacked {
    gzip: Child,
    out: ChildStdout,
    /// What it said at its end, if it was not content.
    failed: Option<String>,
}

impl Unpacked {
    fn start(name: &str) -> io::Result<Unpacked> {
        let mut gzip = Command::new("gzip");
        gzip.args(["-dc", "--", name]).stdin(Stdio::null());
        gzip.stdout(Stdio::piped()).stderr(Stdio::piped());
        let mut gzip = gzip.spawn().map_err(|error| match error.kind() {
            io::ErrorKind::NotFound => {
                io::Error::other("gzip is not on the PATH; install it, or unpack the log first")
            }
            _ => error,
        })?;
        let out = gzip.stdout.take();
        let out = out.ok_or_else(|| io::Error::other("gzip has no output"))?;
        Ok(Unpacked {
            gzip,
            out,
            failed: None,
        })
    }

    /// All was read: is gzip content with it? It is asked once, and the answer stays.
    fn end(&mut self) -> io::Result<()> {
        let mut said = String::new();
        if let Some(mut stderr) = self.gzip.stderr.take() {
            stderr.read_to_string(&mut said)?;
        }
        if !self.gzip.wait()?.success() {
            let line = said.lines().find(|line| !line.trim().is_empty());
            let line = line.unwrap_or("it failed").trim().to_string();
            self.failed.get_or_insert(line);
        }
        let error = |said| io::Error::new(io::ErrorKind::InvalidData, format!("gzip says: {said}"));
        self.failed.as_ref().map_or(Ok(()), |said| Err(error(said)))
    }
}

impl Read for Unpacked {
    fn read(&mut self, bytes: &mut [u8]) -> io::Result<usize> {
        let read = self.out.read(bytes)?;
        if read == 0 && !bytes.is_empty() {
            self.end()?;
        }
        Ok(read)
    }
}

impl Drop for Unpacked {
    /// A log that is not read to its end leaves no gzip behind.
    fn drop(&mut self) {
        let _ = self.gzip.kill();
        let _ = self.gzip.wait();
    }
}
