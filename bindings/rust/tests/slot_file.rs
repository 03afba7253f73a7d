//! Runs the example `slot_file` and holds what it prints and writes to the stored files beside it.

mod program;

use program::{
    APPENDED, Link, append, file, files_beside, folder, in_read_only_folder, interrupted,
};
use std::fs;
use std::os::unix::fs::{MetadataExt, PermissionsExt};
use std::path::{Path, PathBuf};
use std::process::{Command, Output};

fn examples() -> PathBuf {
    Path::new(env!("CARGO_MANIFEST_DIR")).join("examples")
}

fn stored(name: &str) -> String {
    fs::read_to_string(examples().join(name)).expect("a stored file")
}

/// The example, which `cargo test` builds beside this test.
fn example() -> PathBuf {
    let test = std::env::current_exe().expect("this test's file");
    let built = test.ancestors().nth(2).expect("the folder of the profile");
    let program = built.join("examples/slot_file");
    assert!(program.is_file(), "run `cargo test`, which builds examples");
    program
}

/// Runs the example. What it writes goes to a file that is not there yet.
fn run(input: &Path, output: &Path) -> Output {
    let _ = fs::remove_file(output);
    let run = Command::new(example()).args([input, output]).output();
    run.expect("the example runs")
}

fn temporary(name: &str) -> PathBuf {
    Path::new(env!("CARGO_TARGET_TMPDIR")).join(name)
}

/// Runs it on a head of this test's: its last line, and the picture below it. Nothing may be written.
fn refusal(name: &str, head: &[u8]) -> String {
    let (input, output) = (temporary(&format!("{name}.in")), temporary(name));
    fs::write(&input, head).expect("a file to write");
    let run = run(&input, &output);
    assert_eq!(run.status.code(), Some(1));
    assert!(!output.exists());
    let printed = String::from_utf8(run.stdout).expect("UTF-8");
    let last = printed
        .find("nothing is written: ")
        .expect("that it says so");
    printed[last..].trim_end().to_owned()
}

#[test]
fn rewrites_the_sample() {
    let output = temporary("rewritten");
    let run = run(&examples().join("slot_file.txt"), &output);
    assert_eq!(
        String::from_utf8_lossy(&run.stdout),
        stored("slot_file.report")
    );
    assert_eq!(run.status.code(), Some(0));
    let rewritten = fs::read_to_string(output).expect("what it writes");
    assert_eq!(rewritten, stored("slot_file.rewritten"));
    assert_eq!(rewritten.lines().count(), 11);
}

#[test]
fn what_is_rewritten_stays() {
    let output = temporary("again");
    let run = run(&examples().join("slot_file.rewritten"), &output);
    assert_eq!(run.status.code(), Some(0));
    let again = fs::read_to_string(output).expect("what it writes");
    assert_eq!(again, stored("slot_file.rewritten"));
}

#[test]
fn a_zone_that_would_be_lost() {
    // The reader keeps the backslash as a byte of the zone, and the printer writes it as two.
    let message = refusal("lost", b"Int8\nTimestamp(s, \"C\\\"ET\")\nInt8\n");
    assert_eq!(
        message,
        "nothing is written: column 2: what is printed reads back as another type"
    );
}

#[test]
fn names_that_would_not_stay() {
    let message = refusal("another", b"Struct(\"a\\\"b\": Int8)\n");
    assert_eq!(
        message,
        "nothing is written: column 1: what is printed reads back as another type"
    );
    // A tab prints as `\t`, and that backslash keeps the closing mark.
    let message = refusal("unread", b"Struct(\"a\tb\": Int8)\n");
    assert_eq!(
        message,
        "nothing is written: column 1: what is printed does not read back: a quoted string never ends, at byte 7"
    );
}

#[test]
fn texts_that_are_refused() {
    let message = refusal("refused", b"Int8\nTime32(us)\n");
    let expected = [
        "nothing is written: column 2: Time32 takes s or ms, and Time64 takes us or ns, at byte 7",
        " | Time32(us)",
        " |        ^",
    ];
    assert_eq!(message, expected.join("\n"));
    let message = refusal("not_utf8", b"\xff\n");
    assert_eq!(
        message,
        "nothing is written: column 1: the text is not UTF-8, at byte 0\n | <FF>\n | ^"
    );
    let message = refusal("not_latin", "Timestamp(s, \"дом\")\n".as_bytes());
    assert!(message.ends_with("to print in double quotes has a character above U+017F"));
}

/// The example on a head, with an OUTPUT that is there, in a shell that first does this: its status, and the last line of
/// what it says.
fn replace(first: &str, input: &Path, output: &Path) -> (Option<i32>, String) {
    let run = Command::new("sh")
        .args(["-c", &format!("{first}; exec \"$0\" \"$@\"")])
        .args([example().as_path(), input, output])
        .output()
        .expect("the example runs");
    let printed = String::from_utf8(run.stdout).expect("UTF-8");
    let last = printed.lines().last().unwrap_or_default().to_owned();
    (run.status.code(), last)
}

/// A head of more than 1,024 bytes.
fn long_head() -> String {
    "Timestamp(s, \"Europe/Berlin\")\n".repeat(100)
}

/// Where writing fails, OUTPUT is what it was, alone in its folder, and the last line says so.
#[test]
fn output_that_has_no_room() {
    let output = file("no_room", "the old head");
    let input = file("no_room_input", long_head());
    let (status, last) = replace("ulimit -f 1; trap '' XFSZ", &input, &output);
    assert_eq!(status, Some(1));
    assert!(
        last.contains(": writing the new file: File too large"),
        "{last}"
    );
    assert_eq!(fs::read_to_string(&output).unwrap(), "the old head");
    assert_eq!(files_beside(&output), ["head"]);
}

/// OUTPUT is what it was even where the program is ended while it writes. Whoever starts the tests may have the signal
/// ignored: then it is the test above once more.
#[test]
fn the_program_is_ended() {
    let path = file("ended", long_head());
    let (status, _) = replace("ulimit -c 0; ulimit -f 1", &path, &path);
    assert_ne!(status, Some(0));
    assert_eq!(fs::read_to_string(&path).unwrap(), long_head());
}

/// OUTPUT may be INPUT, and a link to it. Mode and link stay; the file is another one.
#[test]
fn mode_and_link_stay() {
    let path = file("link", "Timestamp(Second)\n");
    fs::set_permissions(&path, fs::Permissions::from_mode(0o640)).unwrap();
    let before = fs::metadata(&path).unwrap();
    let link = Link::to(&path, folder("link_from").join("link"));
    assert_eq!(replace(":", &link.0, &link.0).0, Some(0));
    assert!(fs::symlink_metadata(&link.0).unwrap().is_symlink());
    let after = fs::metadata(&path).unwrap();
    assert_eq!(fs::read_to_string(&path).unwrap(), "Timestamp(s)\n");
    assert_eq!(after.mode(), before.mode());
    assert_ne!(after.ino(), before.ino());
    assert_eq!(files_beside(&path), ["head"]);
}

/// OUTPUT may be INPUT. What another program writes to it while it is read is not lost.
#[test]
fn what_another_program_writes_meanwhile() {
    let head = "Timestamp(Second, Some(\"Europe/Berlin\"))\n".repeat(500_000);
    let path = file("meanwhile", &head);
    let mut command = Command::new(example());
    command.args([&path, &path]);
    let (status, said, _) = interrupted(&mut command, || append(&path));
    assert_eq!(status, Some(1));
    let refusal = "replacing it: the file changed while it was read; nothing is written";
    let last = said.lines().last().unwrap_or_default();
    assert_eq!(last, format!("{}: {refusal}", path.display()));
    assert!(fs::read_to_string(&path).unwrap().ends_with(APPENDED));
    assert_eq!(files_beside(&path), ["head"]);
}

/// A folder is not replaced.
#[test]
fn no_plain_file() {
    let input = file("folder", "Int8\n");
    let output = folder("no_file");
    let (status, last) = replace(":", &input, &output);
    assert_eq!(status, Some(1));
    assert!(
        last.ends_with(": opening it: it is a folder and no plain file; nothing is written"),
        "{last}"
    );
    assert_eq!(files_beside(&output.join("head")), [""; 0]);
}

/// Where there is no file to take mode and owner from, the new one has those of any new file.
#[test]
fn a_new_file() {
    let path = file("new", "Timestamp(Second)\n");
    let output = path.with_file_name("new_head");
    assert_eq!(replace("umask 027", &path, &output).0, Some(0));
    assert_eq!(fs::read_to_string(&output).unwrap(), "Timestamp(s)\n");
    assert_eq!(fs::metadata(&output).unwrap().mode() & 0o777, 0o640);
    assert_eq!(files_beside(&path), ["head", "new_head"]);
}

#[test]
fn a_link_that_leads_nowhere() {
    let path = file("nowhere", "Int8\n");
    let link = Link::to("no_file", path.with_file_name("link"));
    let (status, last) = replace(":", &path, &link.0);
    assert_eq!(status, Some(1));
    assert!(last.contains(": opening it: No such file"), "{last}");
    assert_eq!(files_beside(&path), ["head", "link"]);
}

#[test]
fn a_folder_that_takes_no_file() {
    let head = "Timestamp(Second)\n";
    let ((status, printed, _), left) = in_read_only_folder(&example(), &["head", "head"], head);
    assert_eq!(status, Some(1));
    assert!(
        printed.contains("\nhead: writing the new file: Permission denied"),
        "{printed}"
    );
    assert_eq!(left, head);
}
