//! Runs of the program whose standard input fails or is interrupted.
//!
//! What the program writes to its standard error counts as output here: where nothing may be
//! written, nothing may be written there either.

use std::ffi::OsStr;
use std::fs::{File, OpenOptions};
use std::io::{self, ErrorKind, Write};
use std::os::fd::OwnedFd;
use std::os::unix::net::UnixStream;
use std::process::{Command, Stdio};
use std::time::Duration;

use super::running::{Ended, Running};

/// How long a socket waits whose time runs out.
const SHORT: Duration = Duration::from_millis(50);

/// How long a socket waits whose time does not run out; longer than any patience.
pub const LONG: Duration = Duration::from_secs(60);

/// In how many pieces an interrupted input comes.
const PIECES: usize = 4;

/// How often a program is stopped and continued at each place.
pub const TIMES: usize = 2;

/// Starts a command on a standard input.
fn start(mut command: Command, stdin: impl Into<Stdio>) -> io::Result<Running> {
    let (printed, stdout) = io::pipe()?;
    let stderr = stdout.try_clone()?;
    command.stdin(stdin).stdout(stdout).stderr(stderr);
    Running::start(command, printed)
}

/// Its input is a directory.
pub fn directory(program: &OsStr) -> io::Result<Ended> {
    start(Command::new(program), File::open("/")?)?.finish()
}

/// Its input is open, but for writing alone.
pub fn not_for_reading(program: &OsStr) -> io::Result<Ended> {
    let stdin = OpenOptions::new().write(true).open("/dev/null")?;
    start(Command::new(program), stdin)?.finish()
}

/// Its input is closed: by a shell that then becomes the program.
pub fn closed(program: &OsStr) -> io::Result<Ended> {
    let mut shell = Command::new("sh");
    shell.args(["-c", r#"exec "$0" <&-"#]).arg(program);
    start(shell, Stdio::null())?.finish()
}

/// A socket to write to, and one that gives what is written and then, where the first is dropped,
/// fails: Linux resets a connection that is closed while there is something to be read.
pub fn failing_pair() -> io::Result<(UnixStream, UnixStream)> {
    let (writer, mut stdin) = UnixStream::pair()?;
    stdin.write_all(b"?")?;
    Ok((writer, stdin))
}

/// Its input gives some bytes and then fails, which has all happened before it starts.
pub fn failing(program: &OsStr, input: &[u8]) -> io::Result<Ended> {
    let (mut writer, stdin) = failing_pair()?;
    writer.write_all(input)?;
    drop(writer);
    start(Command::new(program), OwnedFd::from(stdin))?.finish()
}

/// Its input gives some bytes while it waits, and then fails while it waits again.
pub fn failing_later(program: &OsStr, input: &[u8]) -> io::Result<Ended> {
    let (mut writer, stdin) = failing_pair()?;
    let mut running = start(Command::new(program), OwnedFd::from(stdin))?;
    running.wait_for_sleep()?;
    feed(&mut writer, input)?;
    running.wait_for_sleep()?;
    drop(writer);
    running.finish()
}

/// Its input gives some bytes, and then there is none within the socket's time (EAGAIN).
pub fn out_of_time(program: &OsStr, input: &[u8]) -> io::Result<Ended> {
    let (writer, stdin) = UnixStream::pair()?;
    stdin.set_read_timeout(Some(SHORT))?;
    without_end(program, input, writer, stdin)
}

/// Its input gives some bytes, and then would have to be waited for but must not (EAGAIN).
pub fn not_ready(program: &OsStr, input: &[u8]) -> io::Result<Ended> {
    let (writer, stdin) = UnixStream::pair()?;
    stdin.set_nonblocking(true)?;
    without_end(program, input, writer, stdin)
}

/// Its input gives some bytes and does not end as long as the program runs.
fn without_end(
    program: &OsStr,
    input: &[u8],
    mut writer: UnixStream,
    stdin: UnixStream,
) -> io::Result<Ended> {
    writer.write_all(input)?;
    let ended = start(Command::new(program), OwnedFd::from(stdin))?.finish();
    drop(writer);
    ended
}

/// Its input is a socket with a time, whose reads fail with EINTR after stop and continue, even
/// where the program handles no signal; signal(7) names this, and a test of its own sees it.
pub fn interrupted_socket(program: &OsStr, input: &[u8]) -> io::Result<Ended> {
    let (writer, stdin) = UnixStream::pair()?;
    stdin.set_read_timeout(Some(LONG))?;
    interrupted(program, input, writer, OwnedFd::from(stdin))
}

/// Its input is a pipe, whose reads the kernel makes again by itself after stop and continue.
pub fn interrupted_pipe(program: &OsStr, input: &[u8]) -> io::Result<Ended> {
    let (stdin, writer) = io::pipe()?;
    interrupted(program, input, writer, stdin)
}

/// It is stopped and continued wherever it waits: before the input, between pieces, and at the end.
fn interrupted(
    program: &OsStr,
    input: &[u8],
    mut writer: impl Write,
    stdin: impl Into<Stdio>,
) -> io::Result<Ended> {
    let mut running = start(Command::new(program), stdin)?;
    running.interrupt(TIMES)?;
    for piece in input.chunks(input.len().div_ceil(PIECES)) {
        feed(&mut writer, piece)?;
        running.interrupt(TIMES)?;
    }
    drop(writer);
    running.finish()
}

/// Writes to an input; a program that no longer reads it is found by its output and its end.
fn feed(writer: &mut impl Write, bytes: &[u8]) -> io::Result<()> {
    match writer.write_all(bytes) {
        Err(error) if is_unread(error.kind()) => Ok(()),
        done => done,
    }
}

/// Whether a write failed because the other side is gone.
fn is_unread(kind: ErrorKind) -> bool {
    matches!(kind, ErrorKind::BrokenPipe | ErrorKind::ConnectionReset)
}
