//! A copy of the package in which one change at a time is made, built and
//! compared with the original.

use crate::table::Change;
use second::places;
use std::fs;
use std::path::{Path, PathBuf};
use std::process::{Command, Output, Stdio};

pub struct Workshop {
    folder: PathBuf,
}

impl Workshop {
    /// A fresh copy. It is a workspace of its own, with the build's profile of
    /// the workspace that the original is in.
    pub fn new(package: &Path) -> Result<Workshop, String> {
        let folder = places::folder("mutants")?;
        if folder.join("src").exists() {
            fs::remove_dir_all(folder.join("src")).map_err(|error| error.to_string())?;
        }
        copy(&package.join("src"), &folder.join("src"))?;
        let manifest = read(&package.join("Cargo.toml"))?;
        let profile = profile(&read(&package.join("../Cargo.toml"))?)?;
        write(&folder.join("Cargo.toml"), &format!("{manifest}\n[workspace]\n\n{profile}"))?;
        Ok(Workshop { folder })
    }

    pub fn build(&self) -> Result<(), String> {
        let output = run(Command::new("cargo")
            .args(["build", "--release", "--offline", "--quiet", "-j1", "--bin", "second"])
            .env("CARGO_INCREMENTAL", "1")
            .arg("--manifest-path")
            .arg(self.folder.join("Cargo.toml"))
            .arg("--target-dir")
            .arg(self.folder.join("built")))?;
        if output.status.success() {
            return Ok(());
        }
        Err(format!("does not build:\n{}", String::from_utf8_lossy(&output.stderr)))
    }

    /// What `compare` says of the copy's difference to the original, if it
    /// finds one.
    pub fn difference(&self, passed_on: &[String]) -> Result<Option<String>, String> {
        let output = run(Command::new(places::beside("compare")?)
            .arg("--other")
            .arg(self.folder.join("built/release/second"))
            .arg("--out")
            .arg(self.folder.join("difference"))
            .args(["--timeout", "60"])
            .args(passed_on))?;
        match output.status.code() {
            Some(0 | 2) => Ok(None),
            Some(1) => Ok(Some(String::from_utf8_lossy(&output.stdout).into_owned())),
            _ => Err(String::from_utf8_lossy(&output.stderr).into_owned()),
        }
    }

    /// Does something with the changed and built copy, and undoes the change.
    pub fn with<T>(
        &self,
        change: &Change,
        act: impl FnOnce() -> Result<T, String>,
    ) -> Result<T, String> {
        let path = self.folder.join(&change.file);
        let original = read(&path)?;
        if original.matches(&change.old).count() != 1 {
            return Err("the old text must stand once".to_string());
        }
        write(&path, &original.replace(&change.old, &change.new))?;
        let result = self.build().and_then(|()| act());
        write(&path, &original)?;
        result
    }
}

/// The part of a manifest that sets the release profile.
fn profile(manifest: &str) -> Result<String, String> {
    let head = "[profile.release]\n";
    let start = manifest.find(head).ok_or("the workspace sets no release profile")?;
    let body = &manifest[start + head.len()..];
    let end = body.find("\n[").unwrap_or(body.len());
    Ok(format!("{head}{}\n", &body[..end]))
}

fn run(command: &mut Command) -> Result<Output, String> {
    command.stdin(Stdio::null()).output().map_err(|error| error.to_string())
}

fn copy(from: &Path, to: &Path) -> Result<(), String> {
    fs::create_dir_all(to).map_err(|error| error.to_string())?;
    for entry in fs::read_dir(from).map_err(|error| error.to_string())? {
        let entry = entry.map_err(|error| error.to_string())?;
        let target = to.join(entry.file_name());
        if entry.path().is_dir() {
            copy(&entry.path(), &target)?;
        } else {
            write(&target, &read(&entry.path())?)?;
        }
    }
    Ok(())
}

pub fn read(path: &Path) -> Result<String, String> {
    fs::read_to_string(path).map_err(|error| format!("{}: {error}", path.display()))
}

fn write(path: &Path, text: &str) -> Result<(), String> {
    fs::write(path, text).map_err(|error| format!("{}: {error}", path.display()))
}
