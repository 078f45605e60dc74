//! The command ./plan run as a process: that of the tree, and that of a small tree of
//! its own, with a stand-in for `rt`, and with the built programs.

use crate::program::{built, root, run};
use std::env;
use std::fs;
use std::os::unix::fs::PermissionsExt;
use std::path::{Path, PathBuf};
use std::process::{id, Command, Output};
use std::sync::atomic::{AtomicU64, Ordering};
use std::sync::Once;

pub const CASE_1: &[u8] = b"K\t2\t1\t10\nA\t1\t100\t2\t60\nA\t1\t90\n";
pub const PLAN_1: &str = "P\t1\t2\t0\nP\t2\t1\t0\nY\t1\t990\nY\t2\t660\nT\t150\t1650\t3\nE\t150\n";
/// A stand-in for `rt` that finds everything proved, and runs the program in whose crate it is called.
pub const UNCHANGED: &str =
    "echo 'rt: nothing has changed' >&2; name=${PWD##*/}; echo \"rt: running out/$name\" >&2; exec out/$name";

/// A folder that is removed at the end.
pub struct Folder(pub PathBuf);

impl Folder {
    pub fn new() -> Folder {
        static MADE: AtomicU64 = AtomicU64::new(0);
        let name = format!("plan-{}-{}", id(), MADE.fetch_add(1, Ordering::Relaxed));
        let folder = env::temp_dir().join(name);
        fs::create_dir(&folder).expect("a folder");
        Folder(folder)
    }

    pub fn join(&self, name: &str) -> PathBuf {
        self.0.join(name)
    }

    pub fn is_empty(&self) -> bool {
        fs::read_dir(&self.0).expect("the folder").next().is_none()
    }
}

impl Drop for Folder {
    fn drop(&mut self) {
        let _ = fs::remove_dir_all(&self.0);
    }
}

pub fn script(file: &Path, lines: &str) {
    fs::write(file, format!("#!/usr/bin/env bash\n{lines}\n")).expect("a script");
    fs::set_permissions(file, fs::Permissions::from_mode(0o755)).expect("a script");
}

/// A tree with ./plan, the built programs, and a stand-in for `rt`.
pub fn tree(rt: &str) -> Folder {
    build();
    let tree = Folder::new();
    fs::create_dir(tree.join("tools")).expect("a folder");
    fs::copy(root().join("plan"), tree.join("plan")).expect("the command");
    for name in ["sheet", "wall"] {
        let program = program(&tree, name);
        fs::create_dir_all(program.parent().expect("a folder")).expect("a folder");
        fs::write(program.with_extension("stamp"), "").expect("a stamp");
        fs::copy(built(name), program).expect("the program");
    }
    script(&tree.join("tools/rt"), rt);
    tree
}

/// A program of such a tree.
pub fn program(tree: &Folder, name: &str) -> PathBuf {
    tree.join("crates").join(name).join("out").join(name)
}

/// ./plan of such a tree.
pub fn command(tree: &Folder) -> Command {
    let mut paths = vec![tree.join("tools")];
    paths.extend(env::split_paths(&env::var_os("PATH").expect("PATH")));
    let mut command = Command::new(tree.join("plan"));
    command.env("PATH", env::join_paths(paths).expect("folders"));
    command
}

/// ./plan of such a tree, with no signal ignored: a shell cannot trap one that was
/// ignored when it started, as where the tests are run in the background.
pub fn stoppable(tree: &Folder) -> Command {
    let plan = command(tree);
    let mut command = Command::new("env");
    command.arg("--default-signal=HUP,INT,TERM").arg(plan.get_program());
    command.envs(plan.get_envs().filter_map(|(name, value)| Some((name, value?))));
    command
}

/// What came of a run: status, standard output, standard error.
pub type Came = (i32, String, String);

pub fn came(output: Output) -> Came {
    let text = |bytes| String::from_utf8(bytes).expect("text");
    (output.status.code().unwrap_or(-1), text(output.stdout), text(output.stderr))
}

/// Runs a command on a text; it must leave no temporary file.
pub fn given(mut command: Command, text: &[u8]) -> Came {
    let left = Folder::new();
    command.env("TMPDIR", &left.0);
    let came = came(run(command, text));
    assert!(left.is_empty(), "a temporary file is left");
    came
}

/// Builds both programs by ./plan, once: from then on they stay as they are.
fn build() {
    static BUILT: Once = Once::new();
    BUILT.call_once(|| {
        for arguments in [&[][..], &["--page"]] {
            let mut plan = Command::new(root().join("plan"));
            plan.args(arguments);
            assert_eq!(came(run(plan, CASE_1)).0, 0, "{arguments:?}");
        }
    });
}

/// The tree's own ./plan, with its programs built.
pub fn own() -> Command {
    build();
    Command::new(root().join("plan"))
}

pub fn own_with(arguments: &[&str], text: &[u8]) -> Came {
    let mut command = own();
    command.args(arguments);
    given(command, text)
}

/// Nothing on standard output, these words on standard error, status 2.
pub fn nothing_planned(came: Came, words: &str) {
    assert_eq!((came.0, came.1.as_str(), came.2.as_str()), (2, "", words));
}

/// What comes of case 1.
pub fn served() -> Came {
    (0, PLAN_1.into(), String::new())
}

/// The tree's own ./plan started by a shell, with arguments and redirections.
pub fn by_shell(redirection: &str) -> Command {
    let mut command = Command::new("sh");
    command.arg("-c").arg(format!("exec \"$0\" {redirection}")).arg(own().get_program());
    command
}
