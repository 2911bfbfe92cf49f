//! The proved program, run in folders that are written for it.

use crate::folder::Folder;
use std::env::{temp_dir, var_os};
use std::fs::{canonicalize, create_dir_all, remove_dir, remove_dir_all};
use std::io;
use std::path::{Path, PathBuf};
use std::process::{id, Command, Output};

/// Names another program than the repository's own.
const VARIABLE: &str = "POLDRISK_SHEET";

/// So many lines that differ are shown.
const SHOWN: usize = 3;

pub struct Program {
    path: PathBuf,
    /// Where the folders are written, one at a time.
    scratch: PathBuf,
}

impl Program {
    pub fn new(seed: u64) -> Result<Program, String> {
        let own = Path::new(env!("CARGO_MANIFEST_DIR")).join("../crates/poldrisk_sheet/out/poldrisk_sheet");
        let named = var_os(VARIABLE).map_or(own, PathBuf::from);
        // it is run in other folders than this one, so its path is to be a whole one
        let path = canonicalize(&named).map_err(|_| {
            format!(
                "{} is missing: `rt run` in the folder crates/poldrisk_sheet builds it",
                named.display()
            )
        })?;
        let scratch = temp_dir().join(format!("poldrisk-sheets-{seed}-{}", id()));
        create_dir_all(&scratch).map_err(|why| format!("{}: {why}", scratch.display()))?;
        Ok(Program { path, scratch })
    }

    /// Runs the program in this folder, and holds what it prints against the page. Where they differ the
    /// folder is kept.
    pub fn compare(&self, folder: &Folder, number: u64, page: &str) -> Result<(), String> {
        let path = self.scratch.join(number.to_string());
        let output = self
            .run(folder, &path)
            .map_err(|why| format!("{}: {why}", path.display()))?;
        // a status of the script's table is none of the program's, but a program that was broken off has none
        if output.stdout != page.as_bytes() || output.status.code().is_none() {
            let (status, path) = (output.status, path.display());
            let lines = differing_lines(&output.stdout, page);
            return Err(format!("{status}, folder kept: {path}\n{lines}"));
        }
        remove_dir_all(&path).map_err(|why| format!("{}: {why}", path.display()))
    }

    fn run(&self, folder: &Folder, path: &Path) -> io::Result<Output> {
        folder.write(path)?;
        Command::new(&self.path).current_dir(path).output()
    }
}

impl Drop for Program {
    /// With a folder kept in it, it stays.
    fn drop(&mut self) {
        let _ = remove_dir(&self.scratch);
    }
}

/// The first lines in which two pages differ, with their numbers from 1.
fn differing_lines(printed: &[u8], page: &str) -> String {
    let printed = String::from_utf8_lossy(printed);
    let lines = |text: &str| -> Vec<String> {
        let lines = text.split_inclusive('\n');
        lines.map(|line| format!("{line:?}")).collect()
    };
    let (printed, page) = (lines(&printed), lines(page));
    let none = "nothing".to_string();
    let both = (0..printed.len().max(page.len())).map(|at| {
        let line_of = |lines: &[String]| lines.get(at).unwrap_or(&none).clone();
        (at + 1, line_of(&printed), line_of(&page))
    });
    let differing = both.filter(|(_, printed, page)| printed != page);
    let shown = differing.take(SHOWN).map(|(number, printed, page)| {
        format!("line {number}\n  program: {printed}\n  model:   {page}\n")
    });
    shown.collect()
}
