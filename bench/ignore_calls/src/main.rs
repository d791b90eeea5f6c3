//! Prints the paths of standard input that an ignore file does not ignore, by git's rule: `bench/ignore` measures it.
//!
//! It is called with the name of an ignore file, and asks the crate `git_ignore` about each path.

use std::env;
use std::error::Error;
use std::ffi::OsStr;
use std::io::{self, Read, Write};
use std::os::unix::ffi::OsStrExt;
use std::path::Path;

use git_ignore::gitignore::{Gitignore, GitignoreBuilder};

fn rules() -> Result<Gitignore, Box<dyn Error>> {
    let file = env::args_os().nth(1).ok_or("usage: ignore_rust FILE < PATHS")?;
    let mut builder = GitignoreBuilder::new("");
    match builder.add(file) {
        Some(error) => Err(error.into()),
        None => Ok(builder.build()?),
    }
}

fn main() -> Result<(), Box<dyn Error>> {
    let rules = rules()?;
    let (mut input, mut output) = (Vec::new(), Vec::new());
    io::stdin().lock().read_to_end(&mut input)?;
    for line in input.split_inclusive(|byte| *byte == b'\n') {
        let path = Path::new(OsStr::from_bytes(line.strip_suffix(b"\n").unwrap_or(line)));
        if !rules.matched_by_git(path, false).is_ignore() {
            output.extend_from_slice(line);
        }
    }
    io::stdout().lock().write_all(&output)?;
    Ok(())
}
