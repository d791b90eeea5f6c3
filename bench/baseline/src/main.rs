//! The program that `globsift` is compared with: the same lines in and out, over the Rust crate globset.
//!
//! It takes the arguments `-i`, `-s`, `-n`, `--` and globs, as `globsift` does. Around the crate it does as
//! little as it can, so that the times of the two programs differ by what matching takes: it reads chunks, finds line feeds
//! with memchr, keeps one vector of indexes for all lines, and writes its output in large pieces.

use std::env;
use std::io::{self, Read, Write};
use std::process::ExitCode;

use globset::{Candidate, GlobBuilder, GlobSet, GlobSetBuilder};

const CHUNK: usize = 64 * 1024;

#[derive(Default)]
struct Options {
    case_insensitive: bool,
    literal_separator: bool,
}

struct Command {
    set: GlobSet,
    numbered: bool,
}

fn command(arguments: impl Iterator<Item = String>) -> Result<Command, globset::Error> {
    let mut set = GlobSetBuilder::new();
    let mut options = Options::default();
    let mut numbered = false;
    let mut only_globs = false;
    for argument in arguments {
        match argument.as_str() {
            "--" if !only_globs => only_globs = true,
            "-i" if !only_globs => options.case_insensitive = true,
            "-s" if !only_globs => options.literal_separator = true,
            "-n" if !only_globs => numbered = true,
            glob => {
                set.add(
                    GlobBuilder::new(glob)
                        .case_insensitive(options.case_insensitive)
                        .literal_separator(options.literal_separator)
                        .build()?,
                );
            }
        }
    }
    Ok(Command { set: set.build()?, numbered })
}

struct Lines {
    command: Command,
    indexes: Vec<usize>,
    output: Vec<u8>,
    any_matches: bool,
}

impl Lines {
    /// Handles the lines that are whole in these bytes, of which the first `kept` have no line feed. Returns where the rest
    /// begins.
    fn handle_whole(&mut self, bytes: &[u8], kept: usize) -> io::Result<usize> {
        let mut start = 0;
        for feed in memchr::memchr_iter(b'\n', &bytes[kept..]) {
            self.handle(&bytes[start..kept + feed])?;
            start = kept + feed + 1;
        }
        Ok(start)
    }

    fn handle(&mut self, line: &[u8]) -> io::Result<()> {
        let path = Candidate::from_bytes(line);
        if self.command.numbered {
            self.command.set.matches_candidate_into(&path, &mut self.indexes);
            if self.indexes.is_empty() {
                return Ok(());
            }
            for (position, &index) in self.indexes.iter().enumerate() {
                if position > 0 {
                    self.output.push(b',');
                }
                push_decimal(&mut self.output, index);
            }
            self.output.push(b'\t');
        } else if !self.command.set.is_match_candidate(&path) {
            return Ok(());
        }
        self.any_matches = true;
        self.output.extend_from_slice(line);
        self.output.push(b'\n');
        if self.output.len() >= CHUNK {
            self.flush()?;
        }
        Ok(())
    }

    fn flush(&mut self) -> io::Result<()> {
        let mut stdout = io::stdout().lock();
        stdout.write_all(&self.output)?;
        self.output.clear();
        stdout.flush()
    }
}

fn push_decimal(output: &mut Vec<u8>, mut number: usize) {
    let first = output.len();
    loop {
        output.push(b'0' + (number % 10) as u8);
        number /= 10;
        if number == 0 {
            break;
        }
    }
    output[first..].reverse();
}

/// Returns whether a line matched.
fn sift(command: Command) -> io::Result<bool> {
    let output = Vec::with_capacity(2 * CHUNK);
    let mut lines = Lines { command, indexes: Vec::new(), output, any_matches: false };
    let mut stdin = io::stdin().lock();
    let mut buffer = vec![0; CHUNK];
    // The bytes of a line that is not whole yet, at the start of the buffer.
    let mut kept = 0;
    loop {
        if kept == buffer.len() {
            buffer.resize(2 * kept, 0);
        }
        let read = stdin.read(&mut buffer[kept..])?;
        if read == 0 {
            break;
        }
        let end = kept + read;
        let start = lines.handle_whole(&buffer[..end], kept)?;
        buffer.copy_within(start..end, 0);
        kept = end - start;
    }
    if kept > 0 {
        lines.handle(&buffer[..kept])?;
    }
    lines.flush()?;
    Ok(lines.any_matches)
}

fn main() -> ExitCode {
    let command = match command(env::args().skip(1)) {
        Ok(command) => command,
        Err(error) => {
            eprintln!("baseline: {error}");
            return ExitCode::from(2);
        }
    };
    match sift(command) {
        Ok(true) => ExitCode::SUCCESS,
        Ok(false) => ExitCode::from(1),
        Err(error) => {
            eprintln!("baseline: {error}");
            ExitCode::from(2)
        }
    }
}
