//! The files of tests/cases, made and compared.

use super::{groups, readme};
use std::collections::{BTreeMap, BTreeSet};
use std::fs;
use std::io;
use std::path::PathBuf;

/// No checkout may change line ends, for a stream may look like text.
const ATTRIBUTES: &str = "*.stream binary\n*.printed -text\nREADME.md -text\n";

/// Makes every file, and removes what is too many.
pub fn make() -> io::Result<usize> {
    let files = files();
    fs::create_dir_all(folder())?;
    for name in names_there()?.iter().filter(|name| !files.contains_key(*name)) {
        fs::remove_file(folder().join(name))?;
    }
    for (name, contents) in &files {
        fs::write(folder().join(name), contents)?;
    }
    Ok(files.len())
}

/// Each file that is missing, too many or not as it would be made.
pub fn differences() -> io::Result<Vec<String>> {
    let (files, there) = (files(), names_there()?);
    let mut differences = Vec::new();
    for name in there.iter().filter(|name| !files.contains_key(*name)) {
        differences.push(format!("{name} is too many"));
    }
    for (name, contents) in &files {
        if !there.contains(name) {
            differences.push(format!("{name} is missing"));
        } else if fs::read(folder().join(name))? != *contents {
            differences.push(format!("{name} differs"));
        }
    }
    Ok(differences)
}

/// All files by name.
pub fn files() -> BTreeMap<String, Vec<u8>> {
    let groups = groups();
    let mut files = BTreeMap::from([
        (".gitattributes".to_owned(), ATTRIBUTES.into()),
        ("README.md".to_owned(), readme::text(&groups).into_bytes()),
    ]);
    for case in groups.into_iter().flat_map(|group| group.cases) {
        let stream = files.insert(format!("{}.stream", case.name), case.bytes);
        assert!(stream.is_none(), "two cases are named {}", case.name);
        files.insert(format!("{}.printed", case.name), case.printed.into_bytes());
    }
    files
}

fn folder() -> PathBuf {
    PathBuf::from(env!("CARGO_MANIFEST_DIR")).join("../cases")
}

fn names_there() -> io::Result<BTreeSet<String>> {
    let name = |entry: io::Result<fs::DirEntry>| Ok(entry?.file_name().to_string_lossy().into_owned());
    fs::read_dir(folder())?.map(name).collect()
}
