//! The folder in which commands are run. The samples stand there by links, beside what is made for the test.

use std::env;
use std::ffi::OsString;
use std::fs;
use std::os::unix::fs::symlink;
use std::path::{Path, PathBuf};
use std::process::{self, Command};

/// The programs that print objects.
const PROGRAMS: [&str; 3] = ["tape", "daybook", "treasury"];
/// The folders of samples.
const SAMPLES: [&str; 2] = ["tapes", "daybook"];
/// With what a command may end: done, refused, or the disk failed.
const STATUSES: [Option<i32>; 3] = [Some(0), Some(1), Some(3)];

/// A folder of its own, and where programs are looked for. It goes with this.
pub struct Place {
    folder: PathBuf,
    path: OsString,
}

impl Place {
    /// Makes the folder of this name, for the programs of another.
    pub fn make(name: &str, programs: &str) -> Result<Place, String> {
        let missing = PROGRAMS.iter().find(|name| !Path::new(programs).join(name).is_file());
        if let Some(missing) = missing {
            return Err(format!(
                "there is no program {programs}/{missing}: make it by `cargo build --release`, or name \
                 the folder by --programs"
            ));
        }
        let programs = Path::new(programs).canonicalize().map_err(|error| error.to_string())?;
        let usual = env::var_os("PATH").unwrap_or_default();
        let all = [programs].into_iter().chain(env::split_paths(&usual));
        let path = env::join_paths(all).map_err(|error| error.to_string())?;
        let folder = env::temp_dir().join(format!("schema-{}-{name}", process::id()));
        let place = Place { folder, path };
        place.fill().map_err(|error| format!("{}: {error}", place.folder.display()))?;
        Ok(place)
    }

    /// Makes the folder and the links.
    fn fill(&self) -> std::io::Result<()> {
        fs::create_dir(&self.folder)?;
        let here = env::current_dir()?;
        SAMPLES.iter().try_for_each(|name| symlink(here.join(name), self.folder.join(name)))
    }

    /// Puts a file there.
    pub fn put(&self, name: &str, content: impl AsRef<[u8]>) -> Result<(), String> {
        fs::write(self.folder.join(name), content).map_err(|error| format!("{name}: {error}"))
    }

    /// What a command of the shell prints there; an error is that it did not end as it must.
    pub fn run(&self, command: &str) -> Result<String, String> {
        let output = Command::new("sh")
            .args(["-c", command])
            .current_dir(&self.folder)
            .env("PATH", &self.path)
            .output()
            .map_err(|error| format!("{command}: {error}"))?;
        let said = String::from_utf8_lossy(&output.stderr);
        if !STATUSES.contains(&output.status.code()) {
            return Err(format!("{command}: {}\n{said}", output.status));
        }
        String::from_utf8(output.stdout).map_err(|error| format!("{command}: {error}"))
    }
}

impl Drop for Place {
    fn drop(&mut self) {
        let _ = fs::remove_dir_all(&self.folder);
    }
}
