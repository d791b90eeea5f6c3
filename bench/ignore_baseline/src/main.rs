//! The program that `ignore_lines` is compared with: the same lines in and out, over the module `gitignore` of the Rust crate
//! ignore.
//!
//! It is called as `ignore_lines` is, with the name of an ignore file, and does as little as it can around the crate: it reads
//! its input at once, finds line feeds with memchr, and writes its output at once.

use std::env;
use std::error::Error;
use std::ffi::OsStr;
use std::io::{self, Read, Write};
use std::os::unix::ffi::OsStrExt;
use std::path::Path;

use ignore::gitignore::{Gitignore, GitignoreBuilder};

fn rules() -> Result<Gitignore, Box<dyn Error>> {
    let file = env::args_os().nth(1).ok_or("usage: ignore_baseline FILE < PATHS")?;
    let mut builder = GitignoreBuilder::new("");
    match builder.add(file) {
        Some(error) => Err(error.into()),
        None => Ok(builder.build()?),
    }
}

fn main() -> Result<(), Box<dyn Error>> {
    let rules = rules()?;
    let (mut input, mut output) = (Vec::new(), Vec::new());
    io::stdin().lock().read_to_end(&mut input)?;
    let mut start = 0;
    for end in memchr::memchr_iter(b'\n', &input) {
        let path = Path::new(OsStr::from_bytes(&input[start..end]));
        if !rules.matched_path_or_any_parents(path, false).is_ignore() {
            output.extend_from_slice(&input[start..=end]);
        }
        start = end + 1;
    }
    io::stdout().lock().write_all(&output)?;
    Ok(())
}
