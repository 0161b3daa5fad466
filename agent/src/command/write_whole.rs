//! Writing a file whole or not at all.

use std::ffi::OsString;
use std::fs::{self, File, Metadata};
use std::io::{self, ErrorKind, Write};
use std::path::{Path, PathBuf};

/// So many names are tried for the file beside: another run can have left one.
const TRIES: u32 = 100;

/// Writes the bytes to a new file beside the place, and gives it the place's name. Where anything fails, what stood there
/// stands there still, and nothing beside it.
///
/// A link is followed. What is there and no plain file, as a directory or a device, is left alone: that is an error.
pub fn write_whole(path: &Path, bytes: &[u8]) -> io::Result<()> {
    let there = plain_file(path)?;
    let place = if there.is_some() { path.canonicalize()? } else { path.to_path_buf() };
    let (beside, file) = create_beside(&place)?;
    let done = fill(file, there, bytes).and_then(|()| fs::rename(&beside, &place));
    if done.is_err() {
        // The first failure is the one to tell.
        let _ = fs::remove_file(&beside);
    }
    done
}

/// The plain file that is there, if any.
fn plain_file(path: &Path) -> io::Result<Option<Metadata>> {
    match fs::metadata(path) {
        Ok(there) if there.is_file() => Ok(Some(there)),
        Ok(_) => Err(io::Error::new(ErrorKind::InvalidInput, "what is there is no plain file")),
        Err(why) if why.kind() == ErrorKind::NotFound => Ok(None),
        Err(why) => Err(why),
    }
}

/// A new file in the same directory, with a name of its own.
fn create_beside(place: &Path) -> io::Result<(PathBuf, File)> {
    let name = place.file_name().ok_or(ErrorKind::InvalidFilename)?;
    for number in 0..TRIES {
        let mut own = OsString::from(".");
        own.push(name);
        own.push(format!(".{}-{number}.part", std::process::id()));
        let beside = place.with_file_name(own);
        match File::create_new(&beside) {
            Err(why) if why.kind() == ErrorKind::AlreadyExists => {}
            made => return made.map(|file| (beside, file)),
        }
    }
    Err(ErrorKind::AlreadyExists.into())
}

/// It is on the disk when this returns, and whoever may read the file that was there may read it.
fn fill(mut file: File, there: Option<Metadata>, bytes: &[u8]) -> io::Result<()> {
    if let Some(there) = there {
        file.set_permissions(there.permissions())?;
    }
    file.write_all(bytes)?;
    file.sync_all()
}

#[cfg(test)]
mod tests {
    use super::*;
    use std::os::unix::fs::{PermissionsExt, symlink};

    /// A directory for the time of a test.
    struct Room(PathBuf);

    impl Room {
        fn new(name: &str) -> Self {
            let name = format!("tzb-{name}-{}", std::process::id());
            let path = std::env::temp_dir().join(name);
            fs::create_dir(&path).unwrap();
            Self(path)
        }

        /// The names of all that stands in it.
        fn names(&self) -> Vec<String> {
            let entries = fs::read_dir(&self.0).unwrap();
            let mut names: Vec<String> =
                entries.map(|entry| entry.unwrap().file_name().into_string().unwrap()).collect();
            names.sort();
            names
        }
    }

    impl Drop for Room {
        fn drop(&mut self) {
            let _ = fs::remove_dir_all(&self.0);
        }
    }

    #[test]
    fn a_new_file_and_one_that_was_there() {
        let room = Room::new("new");
        let path = room.0.join("a.geojson");
        for text in ["first", "second, which is longer", ""] {
            write_whole(&path, text.as_bytes()).unwrap();
            assert_eq!(fs::read_to_string(&path).unwrap(), text);
            assert_eq!(room.names(), ["a.geojson"]);
        }
    }

    #[test]
    fn a_link_is_followed_and_the_mode_is_kept() {
        let room = Room::new("link");
        let (path, link) = (room.0.join("a"), room.0.join("b"));
        fs::write(&path, "old").unwrap();
        fs::set_permissions(&path, fs::Permissions::from_mode(0o640)).unwrap();
        symlink("a", &link).unwrap();
        write_whole(&link, b"new").unwrap();
        assert_eq!(fs::read_to_string(&path).unwrap(), "new");
        assert_eq!(fs::metadata(&path).unwrap().permissions().mode() & 0o777, 0o640);
        assert!(fs::symlink_metadata(&link).unwrap().is_symlink());
        assert_eq!(room.names(), ["a", "b"]);
    }

    #[test]
    fn what_is_no_plain_file_is_left_alone() {
        let room = Room::new("other");
        fs::create_dir(room.0.join("a")).unwrap();
        let inside = room.0.join("no/such/place");
        for path in [room.0.join("a").as_path(), Path::new("/dev/null"), Path::new(""), &inside] {
            assert!(write_whole(path, b"text").is_err(), "{}", path.display());
        }
        assert_eq!(room.names(), ["a"]);
    }

    /// One that another run has left is not written over.
    #[test]
    fn a_name_that_is_taken() {
        let room = Room::new("taken");
        let own = format!(".a.{}-0.part", std::process::id());
        fs::write(room.0.join(&own), "left").unwrap();
        write_whole(&room.0.join("a"), b"text").unwrap();
        assert_eq!(room.names(), [own.as_str(), "a"]);
        assert_eq!(fs::read_to_string(room.0.join(own)).unwrap(), "left");
    }
}
