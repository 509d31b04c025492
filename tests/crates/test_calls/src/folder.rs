//! The schedules of a folder.

use std::{fs, io};

/// The names of the schedules in a folder and in the folders that it holds, without their ending, in
/// order. A text counts as one: so none stands there without a schedule.
pub(crate) fn names_in(rt: &HostRuntime, folder: &str) -> io::Result<Vec<String>> {
    let alloc = rt.alloc();
    let mut names = Vec::new(alloc);
    for inner in gather(rt, folder, "", &mut names)?.iter() {
        let path = format!(in alloc; "{folder}/{inner}")?;
        gather(rt, path.as_str(), inner.as_str(), &mut names)?;
    }
    names.sort()?;
    names.dedup();
    Ok(names)
}

/// Appends the names of a folder's schedules, each behind this front, and answers the folders that
/// it holds.
fn gather(
    rt: &HostRuntime,
    folder: &str,
    front: &str,
    names: &mut Vec<String>,
) -> io::Result<Vec<String>> {
    let alloc = rt.alloc();
    let mut folders = Vec::new(alloc);
    for entry in fs::read_dir(rt, folder)? {
        let entry = entry?;
        let name = entry.file_name();
        if entry.file_type()?.is_dir() {
            folders.push(format!(in alloc; "{name}/")?)?;
        } else if let Some(stem) = stem_of(name) {
            names.push(format!(in alloc; "{front}{stem}")?)?;
        }
    }
    Ok(folders)
}

/// A schedule's name, or a text's, without its ending.
fn stem_of(name: &str) -> Option<&str> {
    match name.strip_suffix(".json") {
        Some(stem) => Some(stem),
        None => name.strip_suffix(".txt"),
    }
}
