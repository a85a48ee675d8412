//! Where the tools find each other, and the folder they write into: cargo's,
//! whatever folder they are started from.

use std::path::PathBuf;

/// A program of this package, in the folder of the running one.
pub fn beside(name: &str) -> Result<PathBuf, String> {
    Ok(running()?.with_file_name(name))
}

/// A folder in cargo's output folder, where that of the programs is too.
pub fn folder(name: &str) -> Result<PathBuf, String> {
    let running = running()?;
    let output = running.ancestors().nth(2).ok_or("the program is not in cargo's folder")?;
    Ok(output.join(name))
}

fn running() -> Result<PathBuf, String> {
    std::env::current_exe().map_err(|error| error.to_string())
}
