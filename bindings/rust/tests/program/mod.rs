//! Running the command `arrow-types` and others, for the tests of it.

#![allow(dead_code, reason = "each test uses its own part")]

use std::ffi::OsStr;
use std::fs::{self, File, Permissions};
use std::io::Write;
use std::os::unix::fs::{MetadataExt, PermissionsExt, chown, symlink};
use std::os::unix::process::CommandExt;
use std::path::{Path, PathBuf};
use std::process::{Command, Output, Stdio};
use std::thread::sleep;
use std::time::Duration;

/// What a program does: status, standard output and standard error.
pub type Outcome = (Option<i32>, String, String);

/// The command, with these arguments.
pub fn arrow_types(arguments: &[impl AsRef<OsStr>]) -> Command {
    let mut command = Command::new(env!("CARGO_BIN_EXE_arrow-types"));
    command.args(arguments).stdin(Stdio::null());
    command
}

/// A program and arguments in a shell that first does this.
pub fn in_shell(first: &str, command: &Command) -> Command {
    let mut shell = Command::new("sh");
    shell.args(["-c", &format!("{first}; exec \"$0\" \"$@\"")]);
    shell.arg(command.get_program()).args(command.get_args());
    shell.stdin(Stdio::null());
    shell
}

/// What a program does.
pub fn outcome(command: &mut Command) -> Outcome {
    ended(command.output().expect("the program runs"))
}

fn ended(output: Output) -> Outcome {
    let Output {
        status,
        stdout,
        stderr,
    } = output;
    let text = |bytes| String::from_utf8(bytes).expect("UTF-8");
    (status.code(), text(stdout), text(stderr))
}

/// What a program does whose standard output nobody reads: status and standard error.
pub fn unread(command: &mut Command) -> (Option<i32>, String) {
    let (status, _, errors) = outcome(command.stdout(unread_pipe()));
    (status, errors)
}

/// A pipe whose reader has ended.
fn unread_pipe() -> Stdio {
    let mut reader = Command::new("true");
    let mut reader = reader.stdin(Stdio::piped()).spawn().expect("true");
    let mut pipe = reader.stdin.take().expect("a pipe");
    reader.wait().expect("its end");
    // A program that another test begins just now may hold the reader's end until it runs.
    while pipe.write(b".").is_ok() {
        sleep(Duration::from_millis(1));
    }
    pipe.into()
}

/// A device that takes no byte.
pub fn full() -> File {
    File::options()
        .write(true)
        .open("/dev/full")
        .expect("/dev/full")
}

/// An empty folder of this name for a test, in one for the file of tests.
pub fn folder(name: &str) -> PathBuf {
    let all = Path::new(env!("CARGO_TARGET_TMPDIR")).join(env!("CARGO_CRATE_NAME"));
    let folder = all.join(name);
    let _ = fs::remove_dir_all(&folder);
    fs::create_dir_all(&folder).expect("a folder");
    folder
}

/// A file with these contents in an empty folder.
pub fn file(name: &str, contents: impl AsRef<[u8]>) -> PathBuf {
    let path = folder(name).join("head");
    fs::write(&path, contents).expect("a file");
    path
}

/// A link, removed when this is dropped, also where the test fails: `rt ci` takes no repository with a link in it.
pub struct Link(pub PathBuf);

impl Link {
    pub fn to(target: impl AsRef<Path>, path: PathBuf) -> Link {
        symlink(target, &path).expect("a link");
        Link(path)
    }
}

impl Drop for Link {
    fn drop(&mut self) {
        let _ = fs::remove_file(&self.0);
    }
}

/// The names of all files beside a file, and its own.
pub fn files_beside(path: &Path) -> Vec<String> {
    let folder = path.parent().expect("a folder");
    let entries = fs::read_dir(folder).expect("its entries");
    let mut names: Vec<String> = entries
        .map(|entry| entry.unwrap().file_name().into_string().unwrap())
        .collect();
    names.sort();
    names
}

/// A user whom modes bind, and a group.
pub const SOMEBODY: u32 = 12_345;

/// Whether the tests are root's, whom modes do not bind.
pub fn is_root() -> bool {
    fs::metadata("/proc/self").expect("this process").uid() == 0
}

/// A folder with a program that is run there by a user whom modes bind: where the tests are root's by another user, who owns
/// the folder, from where every user sees it. It is removed when this is dropped.
pub struct Abroad(pub PathBuf);

impl Abroad {
    pub fn with(program: &Path, name: &str) -> Abroad {
        let (crate_name, id) = (env!("CARGO_CRATE_NAME"), std::process::id());
        let mut folder = folder(&format!("abroad_{name}"));
        if is_root() {
            folder = std::env::temp_dir().join(format!("arrow-types-{crate_name}-{name}-{id}"));
            fs::create_dir(&folder).expect("a folder");
        }
        let abroad = Abroad(folder);
        // Not by this process: what one of its threads writes while another starts a program can't be run.
        let copy = abroad.0.join("program");
        let copied = Command::new("cp").args([program, &copy]).status();
        assert!(copied.expect("cp").success());
        abroad.set_mode("program", 0o755);
        abroad.give("");
        abroad
    }

    /// A file of the user's, with these contents and this mode.
    pub fn file(&self, name: &str, contents: &str, mode: u32) -> PathBuf {
        fs::write(self.0.join(name), contents).expect("a file");
        self.set_mode(name, mode);
        self.give(name);
        self.0.join(name)
    }

    pub fn set_mode(&self, name: &str, mode: u32) {
        let mode = Permissions::from_mode(mode);
        fs::set_permissions(self.0.join(name), mode).expect("a mode");
    }

    fn give(&self, name: &str) {
        if is_root() {
            chown(self.0.join(name), Some(SOMEBODY), Some(SOMEBODY)).expect("an owner");
        }
    }

    /// What the program does there.
    pub fn run(&self, arguments: &[&str]) -> Outcome {
        let mut command = Command::new(self.0.join("program"));
        command.args(arguments).current_dir(&self.0);
        if is_root() {
            command.uid(SOMEBODY).gid(SOMEBODY);
        }
        outcome(command.stdin(Stdio::null()))
    }
}

impl Drop for Abroad {
    fn drop(&mut self) {
        let _ = fs::set_permissions(&self.0, Permissions::from_mode(0o755));
        let _ = fs::remove_dir_all(&self.0);
    }
}

/// What a program does in a folder that nobody may write to, with a file `head` that everybody may; and what that holds
/// then.
pub fn in_read_only_folder(program: &Path, arguments: &[&str], head: &str) -> (Outcome, String) {
    let abroad = Abroad::with(program, "read_only");
    let path = abroad.file("head", head, 0o666);
    abroad.set_mode("", 0o555);
    let outcome = abroad.run(arguments);
    (outcome, fs::read_to_string(path).expect("the file"))
}

/// What another program writes.
pub const APPENDED: &str = "Timestamp(s, \"Africa/Cairo\")\n";

/// Does what another program does: writes a line behind a file's last.
pub fn append(path: &Path) {
    let mut file = File::options().append(true).open(path).expect("a file");
    file.write_all(APPENDED.as_bytes()).expect("a line more");
}

/// What a program does that is stopped when it has begun to read what is long, until something else is done.
pub fn interrupted(command: &mut Command, meanwhile: impl FnOnce()) -> Outcome {
    command.stdout(Stdio::piped()).stderr(Stdio::piped());
    let mut child = command.spawn().expect("the program runs");
    while bytes_read(child.id()) < 100_000 {
        let ended = child.try_wait().expect("a child");
        assert_eq!(ended, None, "it ended before it was seen to read");
        sleep(Duration::from_millis(1));
    }
    signal("STOP", child.id());
    while !proc_line(child.id(), "status", "State:").contains('T') {
        sleep(Duration::from_millis(1));
    }
    meanwhile();
    signal("CONT", child.id());
    ended(child.wait_with_output().expect("the program ends"))
}

/// How many bytes a process has read by now.
fn bytes_read(process: u32) -> u64 {
    proc_line(process, "io", "rchar:").parse().unwrap_or(0)
}

pub fn signal(name: &str, process: u32) {
    let script = format!("kill -{name} {process}");
    let sent = Command::new("sh").args(["-c", &script]).status();
    assert!(sent.expect("sh").success());
}

/// What the kernel says of a process in one of its files, behind a word; nothing once it has ended.
fn proc_line(process: u32, file: &str, word: &str) -> String {
    let text = fs::read_to_string(format!("/proc/{process}/{file}")).unwrap_or_default();
    let line = text.lines().find_map(|line| line.strip_prefix(word));
    line.unwrap_or_default().trim().to_owned()
}

/// What a program does whose standard output nobody needs, and the most memory that it takes, in kB: VmHWM, as it is last
/// seen.
pub fn memory(command: &mut Command) -> (Outcome, u64) {
    command.stdout(Stdio::null()).stderr(Stdio::piped());
    let mut child = command.spawn().expect("the program runs");
    let mut most = 0;
    while child.try_wait().expect("a child").is_none() {
        let line = proc_line(child.id(), "status", "VmHWM:");
        let number = line.strip_suffix(" kB").map(str::parse);
        most = number.map_or(most, |number| number.expect("a number"));
        sleep(Duration::from_millis(2));
    }
    let output = child.wait_with_output().expect("the program ends");
    assert!(most > 0, "it ended before it was seen");
    (ended(output), most)
}
