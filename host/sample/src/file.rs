//! The list as a file that is whole at any time.

use std::fs::{self, File};
use std::io::{self, Write};
use std::path::{Path, PathBuf};

/// A list of fewer lines is not whole: each mode alone has more than a hundred.
const LEAST_LINES: usize = 3_000;

/// Puts the text at this place, by way of a file beside it: the place holds the old text or all of this one.
pub fn replace(place: &Path, text: &str) -> Result<(), String> {
    let lines = text.lines().count();
    if lines < LEAST_LINES {
        return Err(format!(
            "the list has {lines} lines, fewer than {LEAST_LINES}: {} stays as it is",
            place.display()
        ));
    }
    let beside = beside(place);
    let placed = write_whole(&beside, text).and_then(|()| fs::rename(&beside, place));
    placed.map_err(|error| {
        // what is left of it is of no use; where nothing is left, there is nothing to remove
        let _ = fs::remove_file(&beside);
        format!("{} cannot be written and stays as it is: {error}", place.display())
    })
}

fn write_whole(path: &Path, text: &str) -> io::Result<()> {
    let mut file = File::create(path)?;
    file.write_all(text.as_bytes())?;
    file.sync_all()
}

fn beside(place: &Path) -> PathBuf {
    place.with_extension("part")
}

#[cfg(test)]
mod tests {
    use super::*;

    /// A folder of this test's own.
    fn folder(name: &str) -> PathBuf {
        let folder = std::env::temp_dir().join(format!("rumchivoat-sample-{}-{name}", std::process::id()));
        fs::create_dir_all(&folder).expect("a folder can be made");
        folder
    }

    #[test]
    fn a_whole_list_replaces_the_old_one() {
        let folder = folder("whole");
        let (place, text) = (folder.join("stdin"), "line\n".repeat(LEAST_LINES));
        fs::write(&place, "old\n").expect("the file can be written");
        assert_eq!(replace(&place, &text), Ok(()));
        assert_eq!(fs::read_to_string(&place).expect("the file can be read"), text);
        assert!(!beside(&place).exists());
        fs::remove_dir_all(folder).expect("the folder can be removed");
    }

    #[test]
    fn a_short_list_leaves_the_old_one() {
        let folder = folder("short");
        let place = folder.join("stdin");
        fs::write(&place, "old\n").expect("the file can be written");
        for lines in [0, 1, LEAST_LINES - 1] {
            let told = replace(&place, &"line\n".repeat(lines)).expect_err("the list is too short");
            assert!(told.starts_with(&format!("the list has {lines} lines, fewer than 3000: ")), "{told}");
            assert_eq!(fs::read_to_string(&place).expect("the file can be read"), "old\n");
        }
        fs::remove_dir_all(folder).expect("the folder can be removed");
    }

    #[test]
    fn a_folder_that_is_not_there_is_told() {
        let folder = folder("gone");
        let told = replace(&folder.join("none/stdin"), &"line\n".repeat(LEAST_LINES)).expect_err("it is not there");
        assert!(told.contains("cannot be written and stays as it is"), "{told}");
        fs::remove_dir_all(folder).expect("the folder can be removed");
    }
}
