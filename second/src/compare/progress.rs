//! Progress on standard error, every few seconds while something runs.

use std::sync::mpsc::{self, RecvTimeoutError, Sender};
use std::sync::{Arc, Mutex, PoisonError};
use std::thread;
use std::time::Duration;

/// How long it is quiet.
const INTERVAL: Duration = Duration::from_secs(5);

/// Prints what is being done as long as it lives.
pub struct Progress {
    doing: Arc<Mutex<String>>,
    /// Never used but to be dropped, which ends the printing.
    _alive: Sender<()>,
}

impl Progress {
    /// Begins to print, in a thread of its own, so that a call that hangs is seen too.
    pub fn start() -> Self {
        let doing = Arc::new(Mutex::new(String::from("starting")));
        let (alive, ended) = mpsc::channel();
        let shared = Arc::clone(&doing);
        thread::spawn(move || {
            while ended.recv_timeout(INTERVAL) == Err(RecvTimeoutError::Timeout) {
                let doing = shared.lock().unwrap_or_else(PoisonError::into_inner);
                eprintln!("compare: {doing}");
            }
        });
        Progress {
            doing,
            _alive: alive,
        }
    }

    /// Says what is being done from now on.
    pub fn doing(&self, what: String) {
        *self.doing.lock().unwrap_or_else(PoisonError::into_inner) = what;
    }
}
