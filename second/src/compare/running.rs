//! A program that has been started: its output and its end, within a time, and what can be done to
//! it meanwhile.

use std::fs;
use std::io::{self, ErrorKind, Read};
use std::process::{Child, Command, ExitStatus};
use std::sync::mpsc::{self, Receiver};
use std::thread;
use std::time::{Duration, Instant};

/// How long a program may take.
pub const PATIENCE: Duration = Duration::from_secs(10);

/// How long it is waited before something is looked at again.
pub const REST: Duration = Duration::from_micros(100);

/// More than any job's text has; what a program prints beyond is not read.
const MOST_OUTPUT: u64 = 400_000;

/// The states of a process, as the kernel writes them.
const ASLEEP: char = 'S';
const STOPPED: char = 'T';
const ENDED: char = 'Z';

/// What a program did.
pub struct Ended {
    pub output: Vec<u8>,
    pub status: ExitStatus,
}

/// A program that runs; it is ended where nobody has waited for its end.
pub struct Running {
    child: Child,
    /// When there is no more patience.
    end: Instant,
    output: Receiver<io::Result<Vec<u8>>>,
}

impl Running {
    /// Starts a program, whose output can be read here.
    pub fn start(mut command: Command, output: impl Read + Send + 'static) -> io::Result<Self> {
        let started = command.spawn().map_err(|error| {
            let message = format!("it could not be run: {error}");
            io::Error::new(error.kind(), message)
        });
        // The command still holds its ends of the program's input and output.
        drop(command);
        Ok(Running {
            child: started?,
            end: Instant::now() + PATIENCE,
            output: read_apart(output),
        })
    }

    /// Waits for the output and for the end.
    pub fn finish(mut self) -> io::Result<Ended> {
        let left = self.end.saturating_duration_since(Instant::now());
        let did_not_end = || io::Error::new(ErrorKind::TimedOut, "it did not end");
        let output = self.output.recv_timeout(left);
        let output = output.map_err(|_| did_not_end())??;
        let status = self.patiently(|child| child.try_wait().transpose());
        let status = status.ok_or_else(did_not_end)??;
        Ok(Ended { output, status })
    }

    /// Looks until there is something to see, or no patience is left.
    fn patiently<T>(&mut self, mut look: impl FnMut(&mut Child) -> Option<T>) -> Option<T> {
        loop {
            let seen = look(&mut self.child);
            if seen.is_some() || Instant::now() >= self.end {
                return seen;
            }
            thread::sleep(REST);
        }
    }

    /// Waits until the program sleeps, because it reads or writes, or until it has ended.
    pub fn wait_for_sleep(&mut self) -> io::Result<()> {
        self.wait_for(ASLEEP)
    }

    /// Waits until the program sleeps, stops it there and lets it go on; so many times.
    ///
    /// A program that ends earlier is left alone: its output and its end tell what is wrong.
    pub fn interrupt(&mut self, times: usize) -> io::Result<()> {
        for _ in 0..times {
            self.wait_for(ASLEEP)?;
            self.signal("STOP")?;
            self.wait_for(STOPPED)?;
            self.signal("CONT")?;
        }
        Ok(())
    }

    /// Waits until the program is in a state, or has ended.
    fn wait_for(&mut self, wanted: char) -> io::Result<()> {
        let is_reached = |&state: &char| state == wanted || state == ENDED;
        let reached = self.patiently(|child| state(child.id()).filter(is_reached));
        let never = || format!("it was never in the state {wanted}");
        reached
            .map(drop)
            .ok_or_else(|| io::Error::new(ErrorKind::TimedOut, never()))
    }

    /// Sends the program a signal; by the shell, because the standard library has no call for it.
    fn signal(&self, name: &str) -> io::Result<()> {
        let id = self.child.id().to_string();
        let mut shell = Command::new("sh");
        shell.args(["-c", r#"kill -s "$0" "$1""#, name, &id]);
        let sent = shell.status()?.success();
        sent.then_some(())
            .ok_or_else(|| io::Error::other(format!("no signal {name} could be sent to it")))
    }
}

impl Drop for Running {
    fn drop(&mut self) {
        // A program that has ended is not harmed, and nothing else can be done where this fails.
        let _ = self.child.kill();
        let _ = self.child.wait();
    }
}

/// Reads what a program prints.
///
/// Nobody waits for this thread: whatever the program has started may keep its output open.
fn read_apart(output: impl Read + Send + 'static) -> Receiver<io::Result<Vec<u8>>> {
    let (sender, received) = mpsc::channel();
    thread::spawn(move || {
        let mut read = Vec::new();
        let done = output.take(MOST_OUTPUT).read_to_end(&mut read);
        sender.send(done.map(|_| read))
    });
    received
}

/// The state of a process; none if the kernel does not tell it.
fn state(id: u32) -> Option<char> {
    let line = fs::read(format!("/proc/{id}/stat")).ok()?;
    let line = String::from_utf8_lossy(&line);
    // In front of it stands the program's name in parentheses, which may have some of its own.
    let (_, behind_name) = line.rsplit_once(") ")?;
    behind_name.chars().next()
}
