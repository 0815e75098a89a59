//! The commits of `folder_commit.rt` as one would write them in Rust without proofs, by the same system calls in the same
//! order. The peer that the speed of a commit is measured against.
use std::env;
use std::fs::{self, File, OpenOptions};
use std::io::{self, ErrorKind, Write};
use std::os::unix::fs::{MetadataExt, OpenOptionsExt};
use std::path::{Path, PathBuf};
use std::time::Instant;

const BYTES: &[u8] = b"; a line of a policy file, as long as most of them are;1;\n; and a second one, which is much like it;1;\n";

fn seen(path: &Path, options: &OpenOptions) -> io::Result<Option<File>> {
    match fs::symlink_metadata(path) {
        Ok(seen) if seen.is_file() => {
            let file = options.open(path)?;
            let opened = file.metadata()?;
            assert!(opened.dev() == seen.dev() && opened.ino() == seen.ino());
            Ok(Some(file))
        }
        Ok(_) => Err(io::Error::from(ErrorKind::InvalidInput)),
        Err(error) if error.kind() == ErrorKind::NotFound => Ok(None),
        Err(error) => Err(error),
    }
}

struct Folder {
    path: PathBuf,
    held: File,
}

impl Folder {
    fn write(&self, name: &str, bytes: &[u8]) -> io::Result<()> {
        let path = self.path.join(name);
        let mut file = match seen(&path, OpenOptions::new().write(true))? {
            Some(file) => file,
            None => OpenOptions::new().write(true).create_new(true).mode(0o600).open(&path)?,
        };
        file.write_all(bytes)?;
        file.set_len(bytes.len() as u64)?;
        file.sync_all()?;
        file.metadata().map(|_| ())
    }

    fn remove(&self, name: &str) -> io::Result<()> {
        fs::remove_file(self.path.join(name))
    }

    fn sync(&self) -> io::Result<()> {
        let (seen, opened) = (fs::metadata(&self.path)?, self.held.metadata()?);
        assert!(opened.dev() == seen.dev() && opened.ino() == seen.ino());
        self.held.sync_all()
    }

    // A backup of a file that does not change is a link to it.
    fn link(&self, name: &str, to: &str) -> io::Result<()> {
        let (path, to) = (self.path.join(name), self.path.join(to));
        assert!(fs::symlink_metadata(&to)?.is_file());
        match fs::hard_link(&to, &path) {
            Err(error) if error.kind() == ErrorKind::AlreadyExists => {
                assert!(fs::symlink_metadata(&path)?.is_file());
                fs::remove_file(&path)?;
                fs::hard_link(&to, &path)
            }
            linked => linked,
        }
    }

    fn commit(&self, primaries: &[String], backups: &[String], first: &[u8]) -> io::Result<()> {
        self.write(&backups[0], first)?;
        for (primary, backup) in primaries.iter().zip(backups).skip(1) {
            self.link(backup, primary)?;
        }
        self.sync()?;
        self.write("guard", b"")?;
        self.sync()?;
        self.link(&primaries[0], &backups[0])?;
        for primary in &primaries[1..] {
            assert!(fs::symlink_metadata(self.path.join(primary))?.is_file());
        }
        self.sync()?;
        self.remove("guard")?;
        self.sync()?;
        for name in backups {
            self.remove(name)?;
        }
        Ok(())
    }
}

fn main() -> io::Result<()> {
    let words: Vec<String> = env::args().collect();
    let count: u32 = words[2].parse().unwrap();
    let mut primaries: Vec<String> = (0..14).map(|number| format!("_{number}")).collect();
    primaries.push("list".to_string());
    let backups: Vec<String> = primaries.iter().map(|name| format!("{name}~")).collect();
    let _made = fs::create_dir(&words[1]);
    let held = File::open(&words[1])?;
    let folder = Folder { path: PathBuf::from(&words[1]), held };
    folder.sync()?;
    let start = Instant::now();
    for number in 0..count {
        if number == 0 {
            for name in &primaries {
                folder.write(name, BYTES)?;
            }
        }
        folder.commit(&primaries, &backups, [b"1\n", b"2\n"][number as usize % 2])?;
    }
    println!("{}", start.elapsed().as_micros());
    Ok(())
}
