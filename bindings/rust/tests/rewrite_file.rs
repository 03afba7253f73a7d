//! `arrow-types rewrite`: a file rewritten in place, or left as it was.

mod program;
#[allow(dead_code, reason = "it calls more")]
#[path = "../examples/replace_file/system.rs"]
mod system;

use program::{
    APPENDED, Abroad, Link, Outcome, append, arrow_types, file, files_beside, folder, full,
    in_read_only_folder, in_shell, interrupted, is_root, memory, outcome, unread,
};
use std::fs::{self, File, Permissions};
use std::io::{Read, Write, stderr};
use std::os::unix::fs::{FileTypeExt, MetadataExt, OpenOptionsExt, PermissionsExt, chown};
use std::os::unix::net::UnixListener;
use std::os::unix::process::ExitStatusExt;
use std::path::{Path, PathBuf};
use std::process::Command;

fn rewrite(path: &Path) -> Command {
    arrow_types(&["rewrite".as_ref(), path.as_os_str()])
}

fn rewrite_micro(path: &Path) -> Command {
    arrow_types(&["rewrite".as_ref(), "--micro".as_ref(), path.as_os_str()])
}

fn example(name: &str) -> String {
    let examples = Path::new(env!("CARGO_MANIFEST_DIR")).join("examples");
    fs::read_to_string(examples.join(name)).unwrap()
}

/// In either spelling: that of arrow-schema is what the example writes.
#[test]
fn the_sample() {
    let micro = example("slot_file.rewritten");
    let plain = micro.replace("µs", "us");
    assert_ne!(micro, plain);
    for (name, command, expected, changed) in [
        ("plain", rewrite as fn(&Path) -> Command, &plain, 10),
        ("micro", rewrite_micro, &micro, 11),
    ] {
        let path = file(name, example("slot_file.txt"));
        let (status, said, errors) = outcome(&mut command(&path));
        assert_eq!((status, errors.as_str()), (Some(0), ""));
        let done = format!("{}: {changed} of 11 lines rewritten\n", path.display());
        assert_eq!(said, done);
        assert_eq!(&fs::read_to_string(&path).unwrap(), expected);
        assert_eq!(files_beside(&path), ["head"]);
    }
}

/// What is rewritten already is not written again.
#[test]
fn what_stays_is_not_touched() {
    let path = file("again", example("slot_file.rewritten"));
    let before = fs::metadata(&path).unwrap();
    let (status, said, _) = outcome(&mut rewrite_micro(&path));
    assert_eq!(status, Some(0));
    assert!(said.ends_with(": 0 of 11 lines rewritten\n"), "{said}");
    let after = fs::metadata(&path).unwrap();
    assert_eq!(after.ino(), before.ino());
    assert_eq!(after.modified().unwrap(), before.modified().unwrap());
}

#[test]
fn line_ends_stay() {
    for (name, before, after) in [
        ("end", "Timestamp(Second)\nInt8\n", "Timestamp(s)\nInt8\n"),
        ("no_end", "Int8\nTimestamp(Second)", "Int8\nTimestamp(s)"),
        ("empty", "", ""),
    ] {
        let path = file(name, before);
        assert_eq!(outcome(&mut rewrite(&path)).0, Some(0));
        assert_eq!(fs::read_to_string(&path).unwrap(), after);
    }
}

#[test]
fn mode_owner_and_links_stay() {
    let path = file("link", "Timestamp(Second)\n");
    fs::set_permissions(&path, fs::Permissions::from_mode(0o640)).unwrap();
    // Another owner, where the tests may give the file one.
    let _ = chown(&path, Some(12_345), Some(12_346));
    let before = fs::metadata(&path).unwrap();
    let link = Link::to(&path, folder("link_from").join("link"));
    assert_eq!(outcome(&mut rewrite(&link.0)).0, Some(0));
    assert!(fs::symlink_metadata(&link.0).unwrap().is_symlink());
    let after = fs::metadata(&path).unwrap();
    assert_eq!(fs::read_to_string(&path).unwrap(), "Timestamp(s)\n");
    assert_eq!(after.mode(), before.mode());
    assert_eq!((after.uid(), after.gid()), (before.uid(), before.gid()));
    assert_ne!(after.ino(), before.ino());
}

/// A file by its name alone, in the folder where the command runs.
#[test]
fn a_file_here() {
    let path = file("here", "Timestamp(Second)\n");
    let mut command = arrow_types(&["rewrite", "head"]);
    let (status, said, _) = outcome(command.current_dir(path.parent().unwrap()));
    assert_eq!(
        (status, said.as_str()),
        (Some(0), "head: 1 of 1 lines rewritten\n")
    );
    assert_eq!(fs::read_to_string(&path).unwrap(), "Timestamp(s)\n");
}

/// Rewrites a file of which one line can't be: what is said. The file is the same one, and alone.
fn refusal(name: &str, contents: &str) -> String {
    let path = file(name, contents);
    let before = fs::metadata(&path).unwrap();
    let (status, said, errors) = outcome(&mut rewrite(&path));
    assert_eq!((status, said.as_str()), (Some(1), ""));
    assert_eq!(fs::read_to_string(&path).unwrap(), contents);
    assert_eq!(fs::metadata(&path).unwrap().ino(), before.ino());
    assert_eq!(files_beside(&path), ["head"]);
    let start = format!("arrow-types: {}: nothing is written: ", path.display());
    errors.strip_prefix(&start).expect("the start").to_owned()
}

#[test]
fn texts_that_are_refused() {
    assert_eq!(
        refusal("refused", "Timestamp(Second)\nTime32(us)\n"),
        concat!(
            "line 2: Time32 takes s or ms, and Time64 takes us or ns, at byte 7\n",
            " | Time32(us)\n",
            " |        ^\n",
        )
    );
    assert_eq!(
        refusal("18", "Timestamp(s, \"北京\")\n"),
        "line 1: the type is not printed: a name or zone to print in double quotes has a character above U+017F\n"
    );
    assert_eq!(
        refusal("empty_line", "Int8\n\n"),
        "line 2: the text ends where more is needed, at byte 0\n | \n | ^\n"
    );
}

#[test]
fn what_files_from_elsewhere_bring_along() {
    let crlf = refusal("crlf", "Int8\r\n");
    assert!(crlf.contains("\n | Int8<U+000D>\n | ^\n"), "{crlf}");
    assert!(crlf.ends_with("`tr -d '\\r'` removes it.\n"), "{crlf}");
    let mark = refusal("mark", "\u{feff}Int8\n");
    assert!(mark.contains("begins with a byte order mark"), "{mark}");
}

#[test]
fn zones_that_would_be_lost() {
    assert_eq!(
        refusal("zone", "Timestamp(Second)\nTimestamp(s, \"C\\\"ET\")\n"),
        "line 2: the zone \"C\\\\\\\"ET\" would be lost: what is printed reads back as another type\n"
    );
    // The second zone of two.
    let both = refusal(
        "both",
        "Struct(\"a\": Timestamp(s, \"EET\"), \"b\": Timestamp(s, \"C\\\"ET\"))\n",
    );
    assert!(
        both.starts_with("line 1: the zone \"C\\\\\\\"ET\" would be lost: "),
        "{both}"
    );
    assert_eq!(
        refusal("zone_with_tab", "Timestamp(s, \"C\tET\")\n"),
        concat!(
            "line 1: the zone \"C\\tET\" would be lost: ",
            "what is printed does not read back: a quoted string never ends, at byte 13\n",
            " | Timestamp(s, \"C\\tET\")\n",
            " |              ^\n",
        )
    );
}

#[test]
fn names_that_would_be_lost() {
    assert_eq!(
        refusal("name", "Struct(\"a\\\"b\": Timestamp(s, \"CET\"))\n"),
        "line 1: what is printed reads back as another type\n"
    );
    assert_eq!(
        refusal("tab", "Struct(\"a\tb\": Int8)\n"),
        concat!(
            "line 1: what is printed does not read back: a quoted string never ends, at byte 7\n",
            " | Struct(\"a\\tb\": Int8)\n",
            " |        ^\n",
        )
    );
}

#[test]
fn no_file_to_rewrite() {
    let folder = folder("none");
    let (status, said, errors) = outcome(&mut rewrite(&folder.join("head")));
    assert_eq!((status, said.as_str()), (Some(2), ""));
    assert!(errors.contains("No such file"), "{errors}");
    let (status, _, errors) = outcome(&mut rewrite(&folder));
    assert_eq!(status, Some(2));
    assert!(errors.contains("it is a folder"), "{errors}");
}

/// A head of more than 1,024 bytes, which is as much as the next tests let be written.
fn long_head() -> String {
    "Timestamp(Second, Some(\"Europe/Berlin\"))\n".repeat(100)
}

#[test]
fn the_disk_is_full() {
    let head = long_head();
    let path = file("full", &head);
    let (status, said, errors) =
        outcome(&mut in_shell("ulimit -f 1; trap '' XFSZ", &rewrite(&path)));
    assert_eq!((status, said.as_str()), (Some(2), ""));
    assert!(
        errors.contains("writing the new file: File too large (os error 27); nothing is written"),
        "{errors}"
    );
    assert_eq!(fs::read_to_string(&path).unwrap(), head);
    assert_eq!(files_beside(&path), ["head"]);
}

/// The file is as it was even where the program is ended while it writes; what it wrote by then stays beside it. Whoever
/// starts the tests may have the signal ignored: then it is the test above once more.
#[test]
fn the_program_is_ended() {
    let head = long_head();
    let path = file("ended", &head);
    let output = in_shell("ulimit -c 0; ulimit -f 1", &rewrite(&path)).output();
    let status = output.unwrap().status;
    let is_ended = status.signal().is_some();
    assert!(is_ended || status.code() == Some(2));
    assert_eq!(fs::read_to_string(&path).unwrap(), head);
    assert_eq!(files_beside(&path).len(), 1 + usize::from(is_ended));
}

#[test]
fn a_folder_that_takes_no_file() {
    let program = Path::new(env!("CARGO_BIN_EXE_arrow-types"));
    let head = "Timestamp(Second)\n";
    let ((status, said, errors), left) = in_read_only_folder(program, &["rewrite", "head"], head);
    assert_eq!((status, said.as_str()), (Some(2), ""));
    assert!(
        errors.contains("head: writing the new file: Permission denied"),
        "{errors}"
    );
    assert_eq!(left, head);
}

/// The file is rewritten by then, and the status says that the report was not.
#[test]
fn nowhere_to_report() {
    let path = file("report", "Timestamp(Second)\n");
    let (status, _, errors) = outcome(rewrite(&path).stdout(full()));
    assert_eq!(status, Some(2));
    assert!(
        errors.contains("done, but writing standard output: No space left"),
        "{errors}"
    );
    assert_eq!(fs::read_to_string(&path).unwrap(), "Timestamp(s)\n");

    let path = file("unread", "Timestamp(Second)\n");
    let (status, errors) = unread(&mut rewrite(&path));
    assert_eq!(status, Some(2));
    assert!(
        errors.contains("done, but writing standard output: Broken pipe"),
        "{errors}"
    );
}

/// Why a line is refused goes to standard error: where that is full, the status is left.
#[test]
fn nowhere_to_complain() {
    let path = file("complain", "Int9\n");
    let status = rewrite(&path).stdout(full()).stderr(full()).status();
    assert_eq!(status.unwrap().code(), Some(1));
    assert_eq!(fs::read_to_string(&path).unwrap(), "Int9\n");
}

const CHANGED: &str = "replacing it: the file changed while it was read; nothing is written";

/// A file that takes long enough to be written to while it is read. Most of its lines stay as they are.
fn long_file(name: &str) -> PathBuf {
    let line = "Timestamp(s, \"Europe/Berlin\")\n";
    file(
        name,
        format!("Timestamp(Second)\n{}", line.repeat(1_000_000)),
    )
}

/// Holds that a file was not rewritten, and why: that is all that is said, and nothing stands beside the file.
fn assert_refused(path: &Path, outcome: Outcome, why: &str) {
    let expected = format!("arrow-types: {}: {why}\n", path.display());
    assert_eq!(outcome, (Some(2), String::new(), expected));
    assert_eq!(files_beside(path), ["head"]);
}

#[test]
fn what_another_program_writes_meanwhile() {
    let path = long_file("append");
    let length = fs::metadata(&path).unwrap().len();
    let refused = interrupted(&mut rewrite(&path), || append(&path));
    assert_refused(&path, refused, CHANGED);
    let left = fs::read_to_string(&path).unwrap();
    assert_eq!(left.len() as u64, length + APPENDED.len() as u64);
    assert!(left.starts_with("Timestamp(Second)\n") && left.ends_with(APPENDED));
}

#[test]
fn what_another_program_puts_in_its_place_meanwhile() {
    let path = long_file("renamed");
    let put = || {
        let other = path.with_file_name("other");
        fs::write(&other, APPENDED).unwrap();
        fs::rename(other, &path).unwrap();
    };
    let refused = interrupted(&mut rewrite(&path), put);
    assert_refused(&path, refused, CHANGED);
    assert_eq!(fs::read_to_string(&path).unwrap(), APPENDED);
}

/// The second is refused, and what it was to do can be done once the first has ended.
#[test]
fn two_rewrites_at_once() {
    let path = long_file("two");
    let mut second = (None, String::new(), String::new());
    let first = interrupted(&mut rewrite(&path), || {
        second = outcome(&mut rewrite_micro(&path));
    });
    let said = format!("{}: 1 of 1000001 lines rewritten\n", path.display());
    assert_eq!(first, (Some(0), said, String::new()));
    let locked = "locking it: another program has locked it; nothing is written";
    assert_refused(&path, second, locked);
    assert_eq!(outcome(&mut rewrite_micro(&path)).0, Some(0));
}

/// The command, to be run by a user whom modes bind.
fn abroad(name: &str) -> Abroad {
    Abroad::with(Path::new(env!("CARGO_BIN_EXE_arrow-types")), name)
}

/// What a program makes known of a file.
fn said_by(program: &str, arguments: &[&str], path: &Path) -> String {
    let (status, said, errors) = outcome(Command::new(program).args(arguments).arg(path));
    assert_eq!((status, errors.as_str()), (Some(0), ""), "{program}");
    said
}

/// Gives files an access list: whether there is what does that. Who runs the tests is told where not.
fn are_listed(paths: &[&Path], arguments: &[&str]) -> bool {
    let set = Command::new("setfacl").args(arguments).args(paths).output();
    let said = match set {
        Ok(output) if output.status.success() => return true,
        Ok(output) => String::from_utf8_lossy(&output.stderr).into_owned(),
        Err(error) => error.to_string(),
    };
    let _ = writeln!(
        stderr(),
        "a test of access lists is left out: setfacl: {said}"
    );
    false
}

fn access(path: &Path) -> String {
    said_by(
        "getfacl",
        &["--numeric", "--omit-header", "--absolute-names"],
        path,
    )
}

/// The file's mode shows the list's mask in the group's place: the group has no rights all the same. As root, and as another
/// user.
#[test]
fn an_access_list_stays() {
    let path = file("access_list", "Timestamp(Second)\n");
    let abroad = abroad("access_list");
    let of_somebody = abroad.file("head", "Timestamp(Second)\n", 0o640);
    if !are_listed(&[&path, &of_somebody], &["--modify", "u:12346:rw,g::---"]) {
        return;
    }
    let before = [&path, &of_somebody].map(|path| access(path));
    assert!(
        before[0].contains("user:12346:rw-\ngroup::---\nmask::rw-\n"),
        "{}",
        before[0]
    );
    assert_eq!(outcome(&mut rewrite(&path)).0, Some(0));
    assert_eq!(abroad.run(&["rewrite", "head"]).0, Some(0));
    for (path, before) in [&path, &of_somebody].into_iter().zip(before) {
        assert_eq!(fs::read_to_string(path).unwrap(), "Timestamp(s)\n");
        assert_eq!(access(path), before);
    }
}

/// A list that a folder gives to new files is none of the file's.
#[test]
fn a_default_list_gives_no_rights() {
    let path = file("default_list", "Timestamp(Second)\n");
    let abroad = abroad("default_list");
    let of_somebody = abroad.file("head", "Timestamp(Second)\n", 0o640);
    fs::set_permissions(&path, Permissions::from_mode(0o640)).unwrap();
    let folders = [&path, &of_somebody].map(|path| path.parent().unwrap());
    if !are_listed(&folders, &["--default", "--modify", "u:12346:rwx,g::rwx"]) {
        return;
    }
    assert_eq!(outcome(&mut rewrite(&path)).0, Some(0));
    assert_eq!(abroad.run(&["rewrite", "head"]).0, Some(0));
    for path in [&path, &of_somebody] {
        assert_eq!(fs::read_to_string(path).unwrap(), "Timestamp(s)\n");
        assert_eq!(access(path), "user::rw-\ngroup::r--\nother::---\n\n");
    }
}

/// Another group than the user's own, which he may not give the file: it is refused, and has no other group.
#[test]
fn an_owner_that_can_not_be_kept() {
    if !is_root() {
        return;
    }
    let abroad = abroad("owner");
    let path = abroad.file("head", "Timestamp(Second)\n", 0o666);
    chown(&path, Some(0), Some(0)).unwrap();
    let (status, said, errors) = abroad.run(&["rewrite", "--force", "head"]);
    assert_eq!((status, said.as_str()), (Some(2), ""));
    let why = "keeping its owner: Operation not permitted (os error 1); nothing is written";
    assert_eq!(errors, format!("arrow-types: head: {why}\n"));
    assert_eq!(fs::read_to_string(&path).unwrap(), "Timestamp(Second)\n");
    assert_eq!(files_beside(&path), ["head", "program"]);
}

/// What the kernel keeps beside a file stays, a word of the user's here.
#[test]
fn attributes_stay() {
    let path = file("attributes", "Timestamp(Second)\n");
    let name = c"user.column";
    if let Err(error) = system::set_attribute(&File::open(&path).unwrap(), name, b"slot") {
        let _ = writeln!(stderr(), "a test of attributes is left out: {error}");
        return;
    }
    assert_eq!(outcome(&mut rewrite(&path)).0, Some(0));
    assert_eq!(fs::read_to_string(&path).unwrap(), "Timestamp(s)\n");
    let attributes = system::attributes(&File::open(&path).unwrap()).unwrap();
    assert_eq!(attributes.get(name).map(Vec::as_slice), Some(&b"slot"[..]));
}

/// With more memory and time than a refusal takes, and not with all that there is, in case that it is not refused.
fn bounded(command: &Command) -> Command {
    let mut bounded = Command::new("timeout");
    bounded.arg("20").arg("sh");
    bounded.args(in_shell("ulimit -v 100000", command).get_args());
    bounded
}

/// A pipe is not read: who it is meant for finds all of its line.
#[test]
fn a_pipe() {
    let path = folder("pipe").join("head");
    assert!(
        Command::new("mkfifo")
            .arg(&path)
            .status()
            .unwrap()
            .success()
    );
    let mut pipe = File::options();
    let mut pipe = pipe
        .read(true)
        .write(true)
        .custom_flags(system::O_NONBLOCK)
        .open(&path)
        .unwrap();
    pipe.write_all(b"Timestamp(Second)\n").unwrap();
    let refused = outcome(&mut bounded(&rewrite(&path)));
    assert_refused(
        &path,
        refused,
        "opening it: it is a pipe and no plain file; nothing is written",
    );
    let mut line = [0; 18];
    pipe.read_exact(&mut line).unwrap();
    assert_eq!(&line, b"Timestamp(Second)\n");

    // By the name that standard input has.
    let mut command = Command::new("sh");
    let script = "printf 'Int8\n' | { \"$0\" rewrite /dev/stdin; echo $?; cat; }";
    command.args(["-c", script, env!("CARGO_BIN_EXE_arrow-types")]);
    assert_eq!(outcome(&mut command).1, "2\nInt8\n");
}

#[test]
fn devices_and_sockets() {
    let refused = outcome(&mut bounded(&rewrite(Path::new("/dev/zero"))));
    let expected = "arrow-types: /dev/zero: opening it: it is a device and no plain file; nothing is written\n";
    assert_eq!(refused, (Some(2), String::new(), expected.to_owned()));

    let path = folder("socket").join("head");
    let _socket = UnixListener::bind(&path).unwrap();
    let refused = outcome(&mut rewrite(&path));
    assert_refused(
        &path,
        refused,
        "opening it: it is a socket and no plain file; nothing is written",
    );
    assert!(fs::metadata(&path).unwrap().file_type().is_socket());
}

fn rewrite_by_force(path: &Path) -> Command {
    arrow_types(&["rewrite".as_ref(), "--force".as_ref(), path.as_os_str()])
}

/// Other names of a file keep the old contents, if it is to be so.
#[test]
fn hard_links() {
    let path = file("hard_links", "Timestamp(Second)\n");
    let other = folder("hard_links_other").join("other");
    fs::hard_link(&path, &other).unwrap();
    let why = "replacing it: it has 2 names (hard links), which would keep the old contents; nothing is written without --force";
    assert_refused(&path, outcome(&mut rewrite(&path)), why);
    assert_eq!(fs::metadata(&path).unwrap().nlink(), 2);
    assert_eq!(fs::read_to_string(&path).unwrap(), "Timestamp(Second)\n");

    assert_eq!(outcome(&mut rewrite_by_force(&path)).0, Some(0));
    assert_eq!(fs::read_to_string(&path).unwrap(), "Timestamp(s)\n");
    assert_eq!(fs::read_to_string(&other).unwrap(), "Timestamp(Second)\n");
}

/// As root, who may write to it, and as another user, who may not.
#[test]
fn a_read_only_file() {
    let why = "replacing it: it is read-only; nothing is written without --force";
    let path = file("read_only", "Timestamp(Second)\n");
    fs::set_permissions(&path, Permissions::from_mode(0o444)).unwrap();
    assert_refused(&path, outcome(&mut rewrite(&path)), why);
    assert_eq!(fs::read_to_string(&path).unwrap(), "Timestamp(Second)\n");
    assert_eq!(outcome(&mut rewrite_by_force(&path)).0, Some(0));

    let abroad = abroad("read_only_file");
    let of_somebody = abroad.file("head", "Timestamp(Second)\n", 0o444);
    let expected = format!("arrow-types: head: {why}\n");
    assert_eq!(
        abroad.run(&["rewrite", "head"]),
        (Some(2), String::new(), expected)
    );
    assert_eq!(
        fs::read_to_string(&of_somebody).unwrap(),
        "Timestamp(Second)\n"
    );
    assert_eq!(abroad.run(&["rewrite", "--force", "head"]).0, Some(0));

    for path in [path, of_somebody] {
        assert_eq!(fs::read_to_string(&path).unwrap(), "Timestamp(s)\n");
        assert_eq!(fs::metadata(&path).unwrap().mode() & 0o777, 0o444);
    }
}

#[test]
fn options_in_any_order() {
    for (name, options) in [
        ("micro_force", ["--micro", "--force"]),
        ("force_micro", ["--force", "--micro"]),
    ] {
        let path = file(name, "Duration(us)\n");
        fs::set_permissions(&path, Permissions::from_mode(0o444)).unwrap();
        let mut command = arrow_types(&["rewrite"]);
        assert_eq!(outcome(command.args(options).arg(&path)).0, Some(0));
        assert_eq!(fs::read_to_string(&path).unwrap(), "Duration(µs)\n");
    }
}

/// Others may write to it, and the user of the command may not.
#[test]
fn a_file_that_others_write() {
    let abroad = abroad("others");
    let path = abroad.file("head", "Timestamp(Second)\n", 0o466);
    let (status, said, errors) = abroad.run(&["rewrite", "head"]);
    assert_eq!((status, said.as_str()), (Some(2), ""));
    let why = "replacing it: it may not be written to: Permission denied (os error 13)";
    assert_eq!(
        errors,
        format!("arrow-types: head: {why}; nothing is written without --force\n")
    );
    assert_eq!(fs::read_to_string(&path).unwrap(), "Timestamp(Second)\n");
    assert_eq!(files_beside(&path), ["head", "program"]);
}

/// A file that needs no change is not written to, so it may be read-only, locked and have other names.
#[test]
fn what_stays_may_not_be_replaceable() {
    let path = file("stays", "Timestamp(s)\n");
    let locked = File::open(&path).unwrap();
    system::lock(&locked).unwrap();
    fs::hard_link(&path, folder("stays_other").join("other")).unwrap();
    fs::set_permissions(&path, Permissions::from_mode(0o444)).unwrap();
    let said = format!("{}: 0 of 1 lines rewritten\n", path.display());
    assert_eq!(outcome(&mut rewrite(&path)), (Some(0), said, String::new()));
}

/// So is a line that is refused named where the file could not be replaced.
#[test]
fn a_line_that_is_refused_comes_first() {
    let path = file("both", "Timestamp(Second)\nInt9\n");
    fs::set_permissions(&path, Permissions::from_mode(0o444)).unwrap();
    let (status, _, errors) = outcome(&mut rewrite(&path));
    assert_eq!(status, Some(1));
    assert!(errors.contains("nothing is written: line 2: "), "{errors}");
}

/// What a run that was ended by force left beside the file, the next one removes, whether it writes or not.
#[test]
fn the_next_run_tidies_up() {
    for (name, head) in [
        ("written", "Timestamp(Second)\n"),
        ("not_written", "Int8\n"),
    ] {
        let path = file(&format!("tidy_{name}"), long_head());
        let output = in_shell("ulimit -c 0; ulimit -f 1", &rewrite(&path)).output();
        let is_ended = output.unwrap().status.signal().is_some();
        assert_eq!(files_beside(&path).len(), 1 + usize::from(is_ended));
        fs::write(&path, head).unwrap();
        let (status, _, errors) = outcome(&mut rewrite(&path));
        assert_eq!((status, errors.as_str()), (Some(0), ""));
        assert_eq!(files_beside(&path), ["head"]);
    }
}

/// One whose process still runs is named, and stays.
#[test]
fn what_another_run_may_need_is_named() {
    let path = file("named", "Timestamp(Second)\n");
    let mut child = Command::new("sleep").arg("60").spawn().unwrap();
    let name = format!(".arrow-types.{}.0", child.id());
    let left = path.with_file_name(&name);
    fs::write(&left, "").unwrap();
    let (status, _, errors) = outcome(&mut rewrite(&path));
    child.kill().unwrap();
    child.wait().unwrap();
    let expected = format!(
        "arrow-types: {}: an earlier run left it, and it stays\n",
        left.display()
    );
    assert_eq!((status, errors), (Some(0), expected));
    assert_eq!(fs::read_to_string(&path).unwrap(), "Timestamp(s)\n");
    assert_eq!(files_beside(&path), [name.as_str(), "head"]);
}

/// More memory than a rewrite takes, in kB, of a file of any size.
const MEMORY: u64 = 16_384;

/// A file of 100 MB, of which nothing changes, or some, from the start on or from the end on.
#[test]
fn memory_is_bounded() {
    let lines =
        "Struct(\"slot\": non-null Timestamp(s, \"CET\"), \"kwh\": Int64)\n".repeat(1_700_000);
    for (name, head, foot) in [
        ("none", "", ""),
        ("first", "Timestamp(Second)\n", ""),
        ("last", "", "Timestamp(Second)\n"),
    ] {
        let path = file(&format!("memory_{name}"), format!("{head}{lines}{foot}"));
        assert!(fs::metadata(&path).unwrap().len() > 100_000_000);
        let ((status, ..), most) = memory(&mut rewrite(&path));
        assert_eq!(status, Some(0));
        assert!(most < MEMORY, "{most} kB");
        let now = fs::read_to_string(&path).unwrap();
        let expected = [head, foot].map(|line| line.replace("Second", "s"));
        assert!(
            now == format!("{}{lines}{}", expected[0], expected[1]),
            "{name}"
        );
        fs::remove_file(path).unwrap();
    }
}

/// A line that never ends is refused for its length, without being read to its end, or held.
#[test]
fn memory_of_a_long_line_is_bounded() {
    let path = file("long_line", " ".repeat(200_000_000));
    let (status, _, errors) = outcome(&mut bounded(&rewrite(&path)));
    assert_eq!(status, Some(1), "{errors}");
    assert!(errors.contains("nothing is written: line 1: "), "{errors}");
    assert!(errors.contains(", at byte 16384\n"), "{errors}");
    fs::remove_file(path).unwrap();
}
