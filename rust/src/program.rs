//! The built programs `sheet` and `wall`, which prints pages, and others, run as
//! processes. The gate proves and builds them before the tests; where one is missing a run fails.

use std::io::Write;
use std::path::{Path, PathBuf};
use std::process::{Child, Command, Output, Stdio};

/// The folder of the tree.
pub fn root() -> PathBuf {
    Path::new(env!("CARGO_MANIFEST_DIR")).parent().expect("the tree's folder").to_path_buf()
}

/// The built program of this name.
pub fn built(name: &str) -> PathBuf {
    let path = root().join("crates").join(name).join("out").join(name);
    assert!(path.is_file(), "there is no program {}", path.display());
    path
}

pub fn path() -> PathBuf {
    built("sheet")
}

/// The program started by a shell after some commands, such as a limit, and with
/// some redirections; it is stopped after 20 seconds.
pub fn command(before: &str, redirections: &str) -> Command {
    command_of(&path(), before, redirections)
}

/// The same of any program.
pub fn command_of(program: &Path, before: &str, redirections: &str) -> Command {
    let mut command = Command::new("sh");
    let script = format!("{before} exec timeout 20 \"$0\" {redirections}");
    command.arg("-c").arg(script).arg(program);
    command
}

/// A program with a terminal as its input (tests/terminal.py says how).
pub fn at_terminal(how: &str, program: &Path) -> Command {
    let mut command = Command::new("python3");
    command.arg(root().join("tests/terminal.py")).arg(how).arg(program);
    command
}

pub fn start(mut command: Command) -> Child {
    let piped = command.stdin(Stdio::piped()).stdout(Stdio::piped()).stderr(Stdio::piped());
    piped.spawn().expect("a shell")
}

/// The program's output for these bytes, given in one piece.
pub fn run(command: Command, text: &[u8]) -> Output {
    feed(command, [text].into_iter())
}

/// The same for bytes given piece by piece. The program need not read them all.
pub fn feed<'a>(command: Command, pieces: impl Iterator<Item = &'a [u8]>) -> Output {
    let mut child = start(command);
    let mut input = child.stdin.take().expect("a pipe");
    for piece in pieces {
        if input.write_all(piece).is_err() {
            break;
        }
    }
    drop(input);
    child.wait_with_output().expect("the program ends")
}

/// What was printed, by a run that ended well and reported nothing.
pub fn printed(output: Output) -> String {
    let reported = String::from_utf8_lossy(&output.stderr).into_owned();
    assert!(output.status.success() && reported.is_empty(), "{}: {reported}", output.status);
    String::from_utf8(output.stdout).expect("bytes of a sheet")
}

/// What was reported, by a run that ended well and printed nothing.
pub fn reported(output: Output) -> String {
    let printed = String::from_utf8_lossy(&output.stdout).into_owned();
    assert!(output.status.success() && printed.is_empty(), "{}: {printed}", output.status);
    String::from_utf8(output.stderr).expect("a report")
}
