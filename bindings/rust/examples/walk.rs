//! `walk FOLDER GLOB..` prints the files below a directory that match one of the globs, but those that files `.ignore` ignore.
//!
//! A file `.ignore` is read as git reads a `.gitignore`. A directory is not opened if it is ignored, or if no path below it can
//! match.

use globset::{
    ext::Searcher,
    ignore::{By, IgnoreStack},
    Glob, GlobSet,
};
use std::{env, error::Error, fs, io, path::Path, process::ExitCode};

struct Walk {
    wanted: Searcher,
    /// The ignore files of the directory that the walk is in, and of those above it.
    ignored: IgnoreStack,
    found: usize,
}

impl Walk {
    /// Prints what is below a directory, whose path is from the top.
    fn open(&mut self, top: &Path, folder: &Path) -> io::Result<()> {
        let at = top.join(folder);
        match fs::read(at.join(".ignore")) {
            Err(error) if error.kind() == io::ErrorKind::NotFound => {}
            read => self.ignored.add_file(read?),
        }
        let mut entries = fs::read_dir(at)?.collect::<io::Result<Vec<_>>>()?;
        entries.sort_by_key(|entry| entry.file_name());
        for entry in entries {
            let (name, is_folder) = (entry.file_name(), entry.file_type()?.is_dir());
            let path = folder.join(&name);
            if self.ignored.is_ignored(&name, is_folder, By::Git) {
                continue;
            }
            if !is_folder && self.wanted.is_match(&path) {
                println!("{}", path.display());
                self.found += 1;
            }
            if is_folder && self.wanted.can_match_below(&path) {
                self.ignored.enter(&name);
                self.open(top, &path)?;
                self.ignored.leave();
            }
        }
        Ok(())
    }
}

fn run() -> Result<usize, Box<dyn Error>> {
    let mut words = env::args().skip(1);
    let top = words.next().ok_or("usage: walk FOLDER GLOB..")?;
    let globs = words.map(|word| Glob::new(&word)).collect::<Result<Vec<_>, _>>()?;
    let wanted = Searcher::new(&GlobSet::new(globs)?);
    let mut walk = Walk { wanted, ignored: IgnoreStack::new(), found: 0 };
    walk.open(Path::new(&top), Path::new(""))?;
    Ok(walk.found)
}

fn main() -> ExitCode {
    let found = run().map_err(|error| eprintln!("walk: {error}"));
    ExitCode::from(found.map_or(2, |found| u8::from(found == 0)))
}
