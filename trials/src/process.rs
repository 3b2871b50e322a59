//! The program under trial, as a process that is sent records.

use crate::record::{Record, CHUNK, RECORD};
use crate::words::{Reply, SENT};
use std::fs::{File, OpenOptions};
use std::io::{BufReader, Error, ErrorKind, Read, Result, Write};
use std::os::unix::fs::FileExt;
use std::os::unix::io::OwnedFd;
use std::os::unix::net::UnixStream;
use std::path::{Path, PathBuf};
use std::process::{Child, ChildStdin, Command, Stdio};
use std::sync::atomic::{AtomicU64, Ordering};
use std::time::Duration;

/// A program that does not reply for so long fails.
const LIMIT: Duration = Duration::from_secs(60);

static STARTED: AtomicU64 = AtomicU64::new(0);

/// The program, and what is loaded ahead of the C library, if anything is.
#[derive(Clone, Debug)]
pub struct Program {
    pub path: PathBuf,
    pub shim: Option<PathBuf>,
    /// The folder of the files in which requests are counted.
    pub folder: PathBuf,
}

/// The page that tools/refuse.c shares: requests that were made, blocks that are left, blocks in
/// all, and which of the next requests fails.
#[derive(Debug)]
pub struct Counts {
    file: File,
    path: PathBuf,
}

/// The places of words of the page.
const BLOCKS: u64 = 8;
const REFUSE: u64 = 24;

impl Counts {
    fn at(path: &Path) -> Result<Counts> {
        let file = OpenOptions::new().read(true).write(true).open(path)?;
        Ok(Counts {
            file,
            path: path.to_path_buf(),
        })
    }

    fn read(&self, place: u64) -> Result<u64> {
        let mut bytes = [0; 8];
        self.file.read_exact_at(&mut bytes, place)?;
        Ok(u64::from_le_bytes(bytes))
    }

    /// How many blocks the program has.
    pub fn blocks(&self) -> Result<u64> {
        self.read(BLOCKS)
    }

    /// Makes the request of this number, from 1, fail. Of 0 no request fails.
    pub fn refuse(&self, number: u64) -> Result<()> {
        self.file.write_all_at(&number.to_le_bytes(), REFUSE)
    }

    /// Whether the request failed that was to fail.
    pub fn was_refused(&self) -> Result<bool> {
        Ok(self.read(REFUSE)? == 0)
    }
}

impl Drop for Counts {
    fn drop(&mut self) {
        let _ = std::fs::remove_file(&self.path);
    }
}

/// The running program.
#[derive(Debug)]
pub struct Process {
    child: Child,
    to: Option<ChildStdin>,
    from: BufReader<UnixStream>,
    pub counts: Option<Counts>,
}

impl Process {
    /// Starts the program on a kind of subject.
    pub fn start(program: &Program, kind: u64) -> Result<Process> {
        let (ours, theirs) = UnixStream::pair()?;
        ours.set_read_timeout(Some(LIMIT))?;
        let mut command = Command::new(&program.path);
        command
            .stdin(Stdio::piped())
            .stdout(Stdio::from(OwnedFd::from(theirs)));
        let mut path = None;
        if let Some(shim) = &program.shim {
            let number = STARTED.fetch_add(1, Ordering::Relaxed);
            let file = program.folder.join(format!("count-{number}"));
            command.env("LD_PRELOAD", shim).env("REFUSE_COUNT", &file);
            path = Some(file);
        }
        let mut child = command.spawn()?;
        let to = child.stdin.take();
        let mut process = Process {
            child,
            to,
            from: BufReader::with_capacity(1 << 16, ours),
            counts: None,
        };
        // The first record says the kind. It has no reply.
        let first = Record {
            call: kind,
            a: 0,
            b: 0,
            c: 0,
            d: 0,
        };
        process.send(&[first])?;
        if let Some(path) = path {
            // The reply to a call shows that the page is there.
            process.ask(&[crate::record::call(15, 15, &[])])?;
            process.counts = Some(Counts::at(&path)?);
        }
        Ok(process)
    }

    fn send(&mut self, records: &[Record]) -> Result<()> {
        let mut bytes = Vec::with_capacity(records.len() * RECORD);
        for record in records {
            record.write(&mut bytes);
        }
        let closed = || Error::new(ErrorKind::BrokenPipe, "the input is closed");
        self.to.as_mut().ok_or_else(closed)?.write_all(&bytes)
    }

    fn read_word(&mut self) -> Result<u64> {
        let mut bytes = [0; 8];
        self.from.read_exact(&mut bytes)?;
        Ok(u64::from_le_bytes(bytes))
    }

    fn read_reply(&mut self) -> Result<Reply> {
        let (status, len, digest) = (self.read_word()?, self.read_word()?, self.read_word()?);
        let many = len.min(SENT as u64) as usize;
        let mut words = Vec::with_capacity(many);
        for _ in 0..many {
            words.push(self.read_word()?);
        }
        Ok(Reply {
            status,
            len,
            digest,
            words,
        })
    }

    /// Makes calls, and returns their replies.
    pub fn ask(&mut self, records: &[Record]) -> Result<Vec<Reply>> {
        let mut replies = Vec::with_capacity(records.len());
        for chunk in records.chunks(CHUNK / RECORD) {
            self.send(chunk)?;
            for _ in chunk {
                replies.push(self.read_reply()?);
            }
        }
        Ok(replies)
    }

    /// Makes one call.
    pub fn ask_one(&mut self, record: Record) -> Result<Reply> {
        self.send(&[record])?;
        self.read_reply()
    }

    /// Closes the input, and returns whether the program ends well: with status 0, no further
    /// output, and no block of memory left.
    pub fn end(mut self) -> Result<bool> {
        self.to = None;
        let mut rest = Vec::new();
        self.from.read_to_end(&mut rest)?;
        let status = self.child.wait()?;
        let left = match &self.counts {
            Some(counts) => counts.blocks()?,
            None => 0,
        };
        if !status.success() || left != 0 || !rest.is_empty() {
            eprintln!(
                "trials: {status}, {left} blocks left, {} bytes more",
                rest.len()
            );
        }
        Ok(status.success() && left == 0 && rest.is_empty())
    }
}

impl Drop for Process {
    fn drop(&mut self) {
        self.to = None;
        if !matches!(self.child.try_wait(), Ok(Some(_))) {
            let _ = self.child.kill();
            let _ = self.child.wait();
        }
    }
}
