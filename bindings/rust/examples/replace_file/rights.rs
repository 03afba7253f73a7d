//! Who may do what with the new file: just what he might with the old one.

use super::refusal::{Refusal, failing};
use super::system::{self, Attributes};
use super::target::Old;
use std::fs::{File, Metadata};
use std::io;
use std::os::unix::fs::{MetadataExt, fchown};

/// What the kernel keeps of a file's contents; those of the old contents would be wrong.
const OF_CONTENTS: [&[u8]; 2] = [b"security.ima", b"security.evm"];

/// Gives the new file, which its owner alone may open until then, the old one's owner, group, extended attributes (an access
/// list is one of them) and mode. What it got from its folder's default list goes. It is refused if anything is not the same
/// in the end.
pub fn take_over(new: &File, old: &Old) -> Result<(), Refusal> {
    take_owner(new, &old.state).map_err(failing("keeping its owner"))?;
    let wanted = attributes(&old.file).map_err(failing("reading its attributes"))?;
    take_attributes(new, &wanted)?;
    let mode = new.set_permissions(old.state.permissions());
    mode.map_err(failing("keeping its mode"))?;
    check_same(new, &old.state, &wanted)
}

fn take_owner(new: &File, old: &Metadata) -> io::Result<()> {
    let found = new.metadata()?;
    if (found.uid(), found.gid()) == (old.uid(), old.gid()) {
        return Ok(());
    }
    fchown(new, Some(old.uid()), Some(old.gid()))
}

fn attributes(file: &File) -> io::Result<Attributes> {
    let mut found = system::attributes(file)?;
    found.retain(|name, _| !OF_CONTENTS.contains(&name.to_bytes()));
    Ok(found)
}

fn take_attributes(new: &File, wanted: &Attributes) -> Result<(), Refusal> {
    let found = attributes(new).map_err(failing("reading the new file's attributes"))?;
    for name in found.keys().filter(|name| !wanted.contains_key(*name)) {
        let removed = system::remove_attribute(new, name);
        removed.map_err(|error| of_attribute("keeping it without", name, error))?;
    }
    for (name, value) in wanted {
        if found.get(name) != Some(value) {
            let set = system::set_attribute(new, name, value);
            set.map_err(|error| of_attribute("keeping", name, error))?;
        }
    }
    Ok(())
}

fn of_attribute(operation: &str, name: &std::ffi::CStr, error: io::Error) -> Refusal {
    let name = name.to_string_lossy();
    Refusal::new(format!("{operation} its attribute {name}"), error)
}

fn check_same(new: &File, old: &Metadata, wanted: &Attributes) -> Result<(), Refusal> {
    let operation = "keeping owner, mode and attributes";
    let found = new.metadata().map_err(failing(operation))?;
    let attributes = attributes(new).map_err(failing(operation))?;
    let rights = |of: &Metadata| (of.uid(), of.gid(), of.mode());
    if rights(&found) == rights(old) && attributes == *wanted {
        return Ok(());
    }
    Err(Refusal::new(operation, "the new file has others"))
}
