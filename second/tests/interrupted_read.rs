//! That Linux interrupts a read as the comparison needs it, by stopping this very process; so no
//! other test may be in it.

use std::io::{ErrorKind, Read};
use std::os::unix::net::UnixStream;
use std::process::Command;
use std::time::Duration;

/// Stops and continues the process that started the shell, often enough for one to be in the read.
const STOPS: &str = "for time in 1 2 3 4 5 6 7 8; do
    sleep 0.1; kill -s STOP $PPID
    sleep 0.05; kill -s CONT $PPID
done";

#[test]
fn a_read_from_a_socket_with_a_time_fails_after_stop_and_continue() {
    let (mut input, _writer) = UnixStream::pair().unwrap();
    input
        .set_read_timeout(Some(Duration::from_secs(60)))
        .unwrap();
    let mut shell = Command::new("sh").args(["-c", STOPS]).spawn().unwrap();
    let failure = input.read(&mut [0]).unwrap_err();
    // The shell must not be left alone while this process may still be stopped.
    assert!(shell.wait().unwrap().success());
    assert_eq!(failure.kind(), ErrorKind::Interrupted);
}
