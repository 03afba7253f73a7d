//! A file replaced at one stroke: what happens between the last byte that is written and the renaming, rights, and files
//! that were left behind.

mod program;
#[path = "../examples/replace_file/mod.rs"]
mod replace_file;

use program::{file, files_beside, folder};
use replace_file::{Replacement, Target, system};
use std::ffi::CStr;
use std::fs::{self, File, Permissions};
use std::io::{Read, Seek, SeekFrom, Write};
use std::os::unix::fs::{MetadataExt, PermissionsExt};
use std::path::Path;
use std::process::Command;
use std::thread::sleep;
use std::time::Duration;

const CHANGED: &str = "replacing it: the file changed while it was read; nothing is written";

/// Replaces a file, while something else is done: what is refused.
fn replace(path: &Path, contents: &str, meanwhile: impl FnOnce()) -> Result<(), String> {
    let target = Target::open_or_new(path, false).expect("a file to replace");
    put(&target, contents, meanwhile)
}

/// Puts contents in a file's place, while something else is done.
fn put(target: &Target, contents: &str, meanwhile: impl FnOnce()) -> Result<(), String> {
    let mut replacement = Replacement::of(target);
    let written = replacement.write(contents.as_bytes());
    let placed = written.and_then(|()| replacement.put_in_place_after(meanwhile));
    placed.map_err(|refusal| refusal.to_string())
}

#[test]
fn nothing_happens_meanwhile() {
    let path = file("nothing", "old");
    assert_eq!(replace(&path, "new", || ()), Ok(()));
    assert_eq!(fs::read_to_string(&path).unwrap(), "new");
    assert_eq!(files_beside(&path), ["head"]);
}

/// Holds that a file is not replaced if this is done meanwhile, and what it is then.
fn assert_seen(name: &str, meanwhile: impl FnOnce(&Path), left: &str) {
    let path = file(name, "old");
    let refused = replace(&path, "new", || meanwhile(&path));
    assert_eq!(refused, Err(CHANGED.to_owned()), "{name}");
    assert_eq!(fs::read_to_string(&path).unwrap(), left);
    assert_eq!(files_beside(&path), ["head"]);
}

#[test]
fn more_that_is_written_meanwhile() {
    let append = |path: &Path| {
        let mut file = File::options().append(true).open(path).unwrap();
        file.write_all(b", and more").unwrap();
    };
    assert_seen("append", append, "old, and more");
}

/// So many bytes as were read.
#[test]
fn what_is_written_over_it_meanwhile() {
    let overwrite = |path: &Path| {
        // So long that the clock of the file's times goes on.
        sleep(Duration::from_millis(20));
        let mut file = File::options().write(true).open(path).unwrap();
        file.seek(SeekFrom::Start(0)).unwrap();
        file.write_all(b"OLD").unwrap();
    };
    assert_seen("overwrite", overwrite, "OLD");
}

/// Another file, of the same length and of the same time.
#[test]
fn what_takes_its_place_meanwhile() {
    let rename = |path: &Path| {
        let new = path.with_file_name("another");
        fs::write(&new, "OLD").unwrap();
        let time = fs::metadata(path).unwrap().modified().unwrap();
        File::options()
            .write(true)
            .open(&new)
            .and_then(|file| file.set_modified(time))
            .unwrap();
        fs::rename(new, path).unwrap();
    };
    assert_seen("rename", rename, "OLD");
}

/// Rights that are taken away are not given again.
#[test]
fn a_mode_that_changes_meanwhile() {
    let path = file("mode", "old");
    let take = || fs::set_permissions(&path, Permissions::from_mode(0o600)).unwrap();
    assert_eq!(replace(&path, "new", take), Err(CHANGED.to_owned()));
    assert_eq!(fs::metadata(&path).unwrap().mode() & 0o777, 0o600);
    assert_eq!(fs::read_to_string(&path).unwrap(), "old");
}

#[test]
fn a_file_that_goes_meanwhile() {
    let path = file("gone", "old");
    let remove = || fs::remove_file(&path).unwrap();
    assert_eq!(replace(&path, "new", remove), Err(CHANGED.to_owned()));
    assert_eq!(files_beside(&path), [""; 0]);
}

#[test]
fn a_file_that_comes_meanwhile() {
    let path = folder("comes").join("head");
    let refused = replace(&path, "new", || fs::write(&path, "another").unwrap());
    let expected = "replacing it: another program has made it meanwhile; nothing is written";
    assert_eq!(refused, Err(expected.to_owned()));
    assert_eq!(fs::read_to_string(&path).unwrap(), "another");
    assert_eq!(files_beside(&path), ["head"]);
}

#[test]
fn a_lock() {
    let path = file("lock", "old");
    let locked = File::open(&path).unwrap();
    system::lock(&locked).unwrap();
    let expected = "locking it: another program has locked it; nothing is written";
    assert_eq!(replace(&path, "new", || ()), Err(expected.to_owned()));
    assert_eq!(fs::read_to_string(&path).unwrap(), "old");
    assert_eq!(files_beside(&path), ["head"]);
    drop(locked);
    assert_eq!(replace(&path, "new", || ()), Ok(()));
}

/// Two at once: the second is refused while the first is at work, and if it goes on after the first has ended.
#[test]
fn two_at_once() {
    let path = file("two", "old");
    let first = Target::open(&path, false).unwrap();
    let second = Target::open(&path, false).unwrap();
    let locked = "locking it: another program has locked it; nothing is written";
    assert_eq!(put(&second, "second", || ()), Err(locked.to_owned()));
    assert_eq!(put(&first, "first", || ()), Ok(()));
    // It holds the lock of a file that is no longer there.
    drop(second);
    assert_eq!(put(&first, "once more", || ()), Err(CHANGED.to_owned()));
    assert_eq!(fs::read_to_string(&path).unwrap(), "first");
    assert_eq!(files_beside(&path), ["head"]);
}

/// More than is held, or copied at a time.
#[test]
fn many_bytes() {
    let old: String = (0..500_000).map(|number| format!("{number}\n")).collect();
    let path = file("many", &old);
    let target = Target::open(&path, false).unwrap();
    let mut replacement = Replacement::of(&target);
    replacement.copy_start(2_000_003).unwrap();
    replacement.write(b"new").unwrap();
    assert_eq!(files_beside(&path).len(), 2);
    replacement.put_in_place().unwrap();
    let new = fs::read_to_string(&path).unwrap();
    assert_eq!(new, format!("{}new", &old[..2_000_003]));
    assert_eq!(files_beside(&path), ["head"]);
}

#[test]
fn a_file_that_gets_shorter_meanwhile() {
    let path = file("shorter", "a longer file");
    let target = Target::open(&path, false).unwrap();
    fs::write(&path, "short").unwrap();
    let refused = Replacement::of(&target).copy_start(6);
    let expected = "reading it: the file changed while it was read; nothing is written";
    assert_eq!(refused.unwrap_err().to_string(), expected);
    let mut text = String::new();
    (&target).read_to_string(&mut text).unwrap();
    assert_eq!(text, "short");
}

/// An access list by its bytes: version 2, then tag, rights and number of each entry. The owner and the user 12345 may read
/// and write, group and others nothing; the mask, which a mode shows in the group's place, is all of it.
const LIST: &[u8] = b"\
    \x02\0\0\0\
    \x01\0\x06\0\xff\xff\xff\xff\
    \x02\0\x06\0\x39\x30\0\0\
    \x04\0\0\0\xff\xff\xff\xff\
    \x10\0\x06\0\xff\xff\xff\xff\
    \x20\0\0\0\xff\xff\xff\xff";

const ACCESS: &CStr = c"system.posix_acl_access";
const DEFAULT: &CStr = c"system.posix_acl_default";
const ZONE: &CStr = c"user.zone";

/// Gives a file an attribute: whether its file system takes it. Who runs the tests is told where not.
fn has(path: &Path, name: &CStr, value: &[u8]) -> bool {
    let set = system::set_attribute(&File::open(path).unwrap(), name, value);
    if let Err(error) = &set {
        let mut stderr = std::io::stderr();
        let _ = writeln!(stderr, "a test of {name:?} is left out: {error}");
    }
    set.is_ok()
}

fn attributes(path: &Path) -> system::Attributes {
    system::attributes(&File::open(path).unwrap()).unwrap()
}

#[test]
fn access_list_and_attributes_stay() {
    let path = file("attributes", "old");
    fs::set_permissions(&path, Permissions::from_mode(0o600)).unwrap();
    let (has_list, has_zone) = (has(&path, ACCESS, LIST), has(&path, ZONE, b"CET"));
    let before = attributes(&path);
    assert_eq!(before.contains_key(ACCESS), has_list);
    assert_eq!(before.contains_key(ZONE), has_zone);
    let mode = fs::metadata(&path).unwrap().mode();
    assert_eq!(replace(&path, "new", || ()), Ok(()));
    assert_eq!(attributes(&path), before);
    assert_eq!(fs::metadata(&path).unwrap().mode(), mode);
    assert_eq!(fs::read_to_string(&path).unwrap(), "new");
}

/// The folder gives each new file in it an access list, which the old file has not: nor has the one in its place, at any
/// time.
#[test]
fn the_folder_gives_no_rights() {
    let path = file("default", "old");
    fs::set_permissions(&path, Permissions::from_mode(0o640)).unwrap();
    if !has(path.parent().unwrap(), DEFAULT, LIST) {
        return;
    }
    fs::write(path.with_file_name("new"), "").unwrap();
    assert!(attributes(&path.with_file_name("new")).contains_key(ACCESS));
    fs::remove_file(path.with_file_name("new")).unwrap();
    let look = || {
        let beside = path.with_file_name(temporary(std::process::id(), 0));
        assert!(!attributes(&beside).contains_key(ACCESS));
        assert_eq!(fs::metadata(beside).unwrap().mode() & 0o777, 0o640);
    };
    assert_eq!(replace(&path, "new", look), Ok(()));
    assert!(!attributes(&path).contains_key(ACCESS));
    assert_eq!(fs::metadata(&path).unwrap().mode() & 0o777, 0o640);
}

/// While it is written nobody but its owner may read it, whatever mode and list it gets or its folder gives it.
#[test]
fn nobody_reads_it_before() {
    let path = file("before", "old");
    fs::set_permissions(&path, Permissions::from_mode(0o666)).unwrap();
    has(path.parent().unwrap(), DEFAULT, LIST);
    let target = Target::open(&path, false).unwrap();
    let mut replacement = Replacement::of(&target);
    replacement.write(&[b' '; 2_000_000]).unwrap();
    let beside = path.with_file_name(temporary(std::process::id(), 0));
    // A list's mask stands where the group's rights do: with none it gives nobody anything.
    assert_eq!(fs::metadata(&beside).unwrap().mode() & 0o777, 0o600);
    drop(replacement);
    assert_eq!(files_beside(&path), ["head"]);
}

/// The name of a temporary file.
fn temporary(process: u32, number: u32) -> String {
    format!(".arrow-types.{process}.{number}")
}

/// The number of a process that has ended.
fn ended_process() -> u32 {
    let mut child = Command::new("true").spawn().unwrap();
    child.wait().unwrap();
    child.id()
}

/// The names of what stays of the files that earlier runs left beside a file.
fn leftovers(path: &Path) -> Vec<String> {
    let left = Target::open(path, false).unwrap().remove_leftovers();
    let names = left.iter().map(|path| path.file_name().unwrap());
    names
        .map(|name| name.to_str().unwrap().to_owned())
        .collect()
}

#[test]
fn what_was_left_behind_goes() {
    let path = file("left", "");
    for number in [0, 1, 999] {
        let left = temporary(ended_process(), number);
        fs::write(path.with_file_name(left), "").unwrap();
    }
    // This process has its number from an earlier one.
    let own = temporary(std::process::id(), 0);
    fs::write(path.with_file_name(own), "").unwrap();
    assert_eq!(leftovers(&path), [""; 0]);
    assert_eq!(files_beside(&path), ["head"]);
}

#[test]
fn what_another_may_need_stays() {
    let path = file("living", "");
    let mut child = Command::new("sleep").arg("60").spawn().unwrap();
    let living = temporary(child.id(), 0);
    fs::write(path.with_file_name(&living), "").unwrap();
    assert_eq!(leftovers(&path), [living.as_str()]);
    // One that is written now is not left behind, whatever its process is: another machine's, or another container's.
    let written = File::create(path.with_file_name(temporary(ended_process(), 0))).unwrap();
    system::lock(&written).unwrap();
    assert_eq!(leftovers(&path), [living]);
    assert_eq!(files_beside(&path).len(), 3);
    child.kill().unwrap();
    child.wait().unwrap();
    drop(written);
    assert_eq!(leftovers(&path), [""; 0]);
    assert_eq!(files_beside(&path), ["head"]);
}

/// Nor does a run take what is just written for left, be it by a process of its own number in another container.
#[test]
fn what_is_being_written_stays() {
    let path = file("writing", "old");
    let target = Target::open(&path, false).unwrap();
    let mut replacement = Replacement::of(&target);
    replacement.write(&[b' '; 2_000_000]).unwrap();
    assert_eq!(leftovers(&path), [""; 0]);
    assert_eq!(files_beside(&path).len(), 2);
    replacement.put_in_place().unwrap();
    assert_eq!(fs::metadata(&path).unwrap().len(), 2_000_000);
}

#[test]
fn files_of_other_names_stay() {
    let path = file("names", "");
    let process = ended_process();
    let names = [
        ".arrow-types.".to_owned(),
        ".arrow-types.x.0".to_owned(),
        format!(".arrow-types.{process}"),
        format!(".arrow-types.{process}."),
        format!(".arrow-types.{process}.0.txt"),
        format!(".arrow-types.0{process}.0"),
        format!(".arrow-types.+{process}.0"),
        format!("arrow-types.{process}.0"),
    ];
    for name in &names {
        fs::write(path.with_file_name(name), "").unwrap();
    }
    let folder = path.with_file_name(temporary(process, 7));
    fs::create_dir(folder).unwrap();
    assert_eq!(leftovers(&path), [""; 0]);
    assert_eq!(files_beside(&path).len(), names.len() + 2);
}
