//! What the test programs print: progress, and the case in which the two engines differ.

use std::path::{Path, PathBuf};
use std::{fmt, fs};

/// The cases between two lines of progress.
const PROGRESS_STEP: u64 = 500_000;

/// A case in which the library and the second engine differ.
#[derive(Clone, Debug, PartialEq, Eq)]
pub struct Mismatch {
    /// The case in the words that `--replay` takes.
    pub case: String,
    pub reference: String,
    pub library: String,
}

impl Mismatch {
    /// A mismatch if the two answers differ.
    pub fn of<A: PartialEq + fmt::Debug>(
        case: &impl fmt::Display,
        reference: A,
        library: A,
    ) -> Result<(), Mismatch> {
        if reference == library {
            return Ok(());
        }
        Err(Mismatch {
            case: case.to_string(),
            reference: format!("{reference:?}"),
            library: format!("{library:?}"),
        })
    }
}

impl fmt::Display for Mismatch {
    fn fmt(&self, text: &mut fmt::Formatter) -> fmt::Result {
        writeln!(text, "mismatch in the case: {}", self.case)?;
        writeln!(text, "  reference: {}", self.reference)?;
        writeln!(text, "  library:   {}", self.library)?;
        write!(text, "  again with: --replay '{}'", self.case)
    }
}

/// Prints to standard error how many cases have agreed so far, once in 500,000.
pub fn progress(agreed: u64, cases: u64) {
    if agreed > 0 && agreed % PROGRESS_STEP == 0 {
        eprintln!("{agreed} of {cases} cases agree");
    }
}

/// The directory in which failing cases are kept, `build` where there is one.
fn kept_in() -> PathBuf {
    let build = Path::new("build");
    if build.is_dir() {
        build.to_path_buf()
    } else {
        PathBuf::new()
    }
}

/// Saves a failing case to a file that can be replayed; tells where it is.
pub fn save_case(program: &str, seed: u64, case: impl AsRef<[u8]>) -> String {
    let file = kept_in().join(format!("{program}-mismatch-{seed}"));
    match fs::write(&file, case) {
        Ok(()) => format!("kept in a file; again with: --replay {}", file.display()),
        Err(error) => format!("could not be kept in {}: {error}", file.display()),
    }
}
