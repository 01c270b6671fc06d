//! Runs of the program whose standard output fails, or is slow, or is interrupted.

use std::ffi::OsStr;
use std::fs::OpenOptions;
use std::io::{self, Read, Write};
use std::os::fd::OwnedFd;
use std::os::unix::net::UnixStream;
use std::process::{Command, Stdio};
use std::sync::mpsc::{self, Receiver};
use std::thread;
use std::time::Duration;

use super::running::{Ended, Running};
use super::troubled_input::{LONG, TIMES};

/// How many bytes a slow reader takes at once.
const SIP: usize = 4_000;

/// How long a slow reader rests before it takes some more.
const PAUSE: Duration = Duration::from_millis(1);

/// Starts the program with an input that is all there, and with an output that is read as told.
fn start(
    program: &OsStr,
    input: &[u8],
    stdout: impl Into<Stdio>,
    printed: impl Read + Send + 'static,
) -> io::Result<Running> {
    // A pipe takes an input of this size, even if nobody reads it yet.
    let (stdin, mut writer) = io::pipe()?;
    writer.write_all(input)?;
    drop(writer);
    let mut command = Command::new(program);
    command.stdin(stdin).stdout(stdout);
    Running::start(command, printed)
}

/// Its output has no room for a byte.
pub fn full(program: &OsStr, input: &[u8]) -> io::Result<Ended> {
    let stdout = OpenOptions::new().write(true).open("/dev/full")?;
    start(program, input, stdout, io::empty())?.finish()
}

/// Its output is a pipe that nobody reads any more.
///
/// The signal that comes of it is not ignored in a program that is started here: `Command` sees to
/// that, although this very program ignores it.
pub fn read_by_nobody(program: &OsStr, input: &[u8]) -> io::Result<Ended> {
    let (reader, stdout) = io::pipe()?;
    drop(reader);
    start(program, input, stdout, io::empty())?.finish()
}

/// Its output is a pipe that is read slowly.
pub fn read_slowly(program: &OsStr, input: &[u8]) -> io::Result<Ended> {
    let (source, stdout) = io::pipe()?;
    let (begin, begun) = mpsc::channel();
    drop(begin);
    start(program, input, stdout, Slowly { source, begun })?.finish()
}

/// Its output is a socket with a time, whose writes end early or fail with EINTR after stop and
/// continue, even where the program handles no signal.
pub fn interrupted_socket(program: &OsStr, input: &[u8]) -> io::Result<Ended> {
    let (source, stdout) = UnixStream::pair()?;
    stdout.set_write_timeout(Some(LONG))?;
    interrupted(program, input, OwnedFd::from(stdout), source)
}

/// Its output is a pipe, whose writes end early after stop and continue.
pub fn interrupted_pipe(program: &OsStr, input: &[u8]) -> io::Result<Ended> {
    let (source, stdout) = io::pipe()?;
    interrupted(program, input, stdout, source)
}

/// It is stopped and continued while nobody reads its output yet, and while it is read slowly.
fn interrupted(
    program: &OsStr,
    input: &[u8],
    stdout: impl Into<Stdio>,
    source: impl Read + Send + 'static,
) -> io::Result<Ended> {
    let (begin, begun) = mpsc::channel();
    let mut running = start(program, input, stdout, Slowly { source, begun })?;
    running.interrupt(TIMES)?;
    drop(begin);
    running.interrupt(TIMES)?;
    running.finish()
}

/// A reader that takes little at once, and rests in between.
struct Slowly<R> {
    source: R,
    /// Nothing is ever sent: it begins where the other side is dropped.
    begun: Receiver<()>,
}

impl<R: Read> Read for Slowly<R> {
    fn read(&mut self, buffer: &mut [u8]) -> io::Result<usize> {
        let _ = self.begun.recv();
        thread::sleep(PAUSE);
        let most = buffer.len().min(SIP);
        self.source.read(&mut buffer[..most])
    }
}
