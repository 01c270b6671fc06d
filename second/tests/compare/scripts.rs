//! Programs that are shell scripts around the second program.

use std::ffi::OsString;
use std::path::Path;
use std::process::Command;

/// The second program, which is a program of document 01 too.
pub const SECOND: &str = env!("CARGO_BIN_EXE_second");

/// A program that keeps all promises. The second program cannot keep one of them: Rust's runtime
/// opens something else where the input is closed.
pub const RIGHT: &str = "test -h /proc/$$/fd/0 || exit 0
SECOND | cat 2> /dev/null
exit 0";

/// A program that does these commands, in which SECOND stands for the second program; no other test
/// may use the name.
pub fn script(name: &str, commands: &str) -> OsString {
    let path = Path::new(env!("CARGO_TARGET_TMPDIR")).join(name);
    let commands = commands.replace("SECOND", SECOND);
    // A shell writes it: a program that this process had open for writing could not be run while
    // another test starts a program, which has all that is open for a moment.
    let mut shell = Command::new("sh");
    shell.args([
        "-c",
        r#"printf '#!/bin/sh\n%s\n' "$1" > "$0" && chmod +x "$0""#,
    ]);
    let written = shell.arg(&path).arg(commands).status().unwrap();
    assert!(written.success());
    path.into_os_string()
}
