//! The program that `replay --measure` is compared with: the same calls, input and output, over the Rust crate globset.
//!
//! `plain_baseline CALLS ROUNDS MICROSECONDS`: standard input has the globs, one in each line, an empty line, and the paths. A
//! line before the empty one that begins with `-` is an option of all globs after it. For each call it writes a line of columns
//! between tabs: its name; the matches of the first piece, and of the round after it or `-`; and the calls and the nanoseconds
//! of the first piece, of the later half of all pieces, and of the fastest piece. With 0 rounds it writes the matches for all
//! paths alone. For a call with an error, as for a set that is too large, it writes the call and `error`.
//!
//! The crate has no searcher. What stands for its calls is `matches_candidate_into`, and for making one, `GlobSet::new`.

use std::{env, hint::black_box, io, io::Read, process};

use globset::{Candidate, Error, Glob, GlobBuilder, GlobMatcher, GlobSet};

/// The first calls, which are measured by themselves, and the calls between two looks at the clock.
const FIRST: usize = 100;
const PIECE: usize = 500;
/// So many globs are read, or more, before the clock is read again.
const GLOBS: usize = 64;
/// So many small sets are made before the clock is read again: those that take no more nanoseconds.
const BATCH: usize = 16;
const SMALL: u64 = 6_000;

#[repr(C)]
struct Timespec {
    seconds: i64,
    nanos: i64,
}

unsafe extern "C" {
    safe fn clock_gettime(clock: i32, time: &mut Timespec) -> i32;
}

/// The processor time of this thread, in nanoseconds.
fn now() -> u64 {
    const CLOCK_THREAD_CPUTIME_ID: i32 = 3;
    let mut time = Timespec { seconds: 0, nanos: 0 };
    assert_eq!(clock_gettime(CLOCK_THREAD_CPUTIME_ID, &mut time), 0);
    time.seconds as u64 * 1_000_000_000 + time.nanos as u64
}

#[derive(Clone, Copy)]
struct Options {
    case_insensitive: bool,
    literal_separator: bool,
    empty_alternates: bool,
    allow_unclosed_class: bool,
    backslash_escape: bool,
}

struct GlobText<'a> {
    text: &'a str,
    options: Options,
}

impl GlobText<'_> {
    fn read(&self) -> Result<Glob, Error> {
        GlobBuilder::new(self.text)
            .case_insensitive(self.options.case_insensitive)
            .literal_separator(self.options.literal_separator)
            .empty_alternates(self.options.empty_alternates)
            .allow_unclosed_class(self.options.allow_unclosed_class)
            .backslash_escape(self.options.backslash_escape)
            .build()
    }
}

fn parse(text: &str) -> (Vec<GlobText<'_>>, Vec<&str>) {
    let mut options = Options {
        case_insensitive: false,
        literal_separator: false,
        empty_alternates: false,
        allow_unclosed_class: false,
        backslash_escape: true,
    };
    let mut lines = text.lines();
    let mut globs = vec![];
    for line in lines.by_ref().take_while(|line| !line.is_empty()) {
        match line {
            "-i" => options.case_insensitive = true,
            "-s" => options.literal_separator = true,
            "-e" => options.empty_alternates = true,
            "-u" => options.allow_unclosed_class = true,
            "-b" => options.backslash_escape = false,
            _ if line.starts_with('-') => fail("an option is unknown"),
            _ => globs.push(GlobText { text: line, options }),
        }
    }
    (globs, lines.collect())
}

#[derive(Clone, Copy, Default)]
struct Piece {
    calls: usize,
    found: usize,
    nanos: u64,
}

/// The pieces of one call that were measured, in order.
struct Measured {
    limit: u64,
    nanos: u64,
    pieces: Vec<Piece>,
}

impl Measured {
    fn stop(&mut self, start: u64, calls: usize, found: usize) {
        let nanos = now() - start;
        self.nanos += nanos;
        self.pieces.push(Piece { calls, found, nanos });
    }

    fn is_enough(&self) -> bool {
        self.nanos >= self.limit
    }

    fn print(&self, call: &str, pieces_of_round: usize) {
        let first = self.pieces.first().copied().unwrap_or_default();
        let late = sum(&self.pieces[self.pieces.len() / 2..]);
        let mut least = first;
        for piece in &self.pieces {
            if piece.calls == first.calls && piece.nanos < least.nanos {
                least = *piece;
            }
        }
        let round = self.pieces.get(1..1 + pieces_of_round).map_or("-".to_string(), |pieces| sum(pieces).found.to_string());
        print!("{call}\t{}\t{round}", first.found);
        for piece in [first, late, least] {
            print!("\t{}\t{}", piece.calls, piece.nanos);
        }
        println!();
    }
}

fn sum(pieces: &[Piece]) -> Piece {
    pieces.iter().fold(Piece::default(), |sum, piece| Piece {
        calls: sum.calls + piece.calls,
        found: sum.found + piece.found,
        nanos: sum.nanos + piece.nanos,
    })
}

/// What is measured with which globs and paths, and for how long.
struct Job<'a> {
    globs: Vec<GlobText<'a>>,
    paths: Vec<&'a str>,
    rounds: usize,
    limit: u64,
}

impl Job<'_> {
    fn run(&self, call: &str) -> Result<(), Error> {
        match call {
            "is_match" => {
                let set = self.set()?;
                self.ask(call, |path| usize::from(set.is_match_candidate(&Candidate::new(path))), 1);
            }
            "matches" | "searcher" => {
                let set = self.set()?;
                let mut into = vec![];
                self.ask(
                    call,
                    |path| {
                        set.matches_candidate_into(&Candidate::new(path), &mut into);
                        into.len()
                    },
                    1,
                );
            }
            "matcher" => {
                let matchers: Vec<GlobMatcher> = self.read()?.iter().map(Glob::compile_matcher).collect();
                self.ask(
                    call,
                    |path| {
                        let path = Candidate::new(path);
                        matchers.iter().filter(|matcher| matcher.is_match_candidate(&path)).count()
                    },
                    matchers.len(),
                );
            }
            "read" => self.reading()?,
            "make" | "make_searcher" => self.make(call, |globs| GlobSet::new(globs))?,
            "make_and_ask" => {
                let path = self.paths.first().copied().unwrap_or("");
                self.make(call, |globs| {
                    let set = GlobSet::new(globs)?;
                    let is_match = set.is_match_candidate(&Candidate::new(path));
                    Ok((set, is_match))
                })?;
            }
            _ => fail("a call is unknown"),
        }
        Ok(())
    }

    fn read(&self) -> Result<Vec<Glob>, Error> {
        self.globs.iter().map(GlobText::read).collect()
    }

    fn set(&self) -> Result<GlobSet, Error> {
        GlobSet::new(self.read()?)
    }

    fn measured(&self) -> Measured {
        Measured { limit: self.limit, nanos: 0, pieces: vec![] }
    }

    #[inline(never)]
    fn ask(&self, call: &str, mut ask: impl FnMut(&str) -> usize, calls: usize) {
        let mut ask_all = |paths: &[&str]| black_box(paths.iter().map(|path| ask(path)).sum::<usize>());
        if self.rounds == 0 {
            println!("{call}\t{}", ask_all(&self.paths));
            return;
        }
        let mut measured = self.measured();
        let mut add_piece = |measured: &mut Measured, paths: &[&str]| {
            let start = now();
            let found = ask_all(paths);
            measured.stop(start, paths.len() * calls, found);
        };
        add_piece(&mut measured, self.paths.get(..FIRST.div_ceil(calls.max(1))).unwrap_or(&self.paths));
        let piece = PIECE.div_ceil(calls.max(1));
        'rounds: for _ in 0..self.rounds {
            for some in self.paths.chunks(piece) {
                if measured.is_enough() {
                    break 'rounds;
                }
                add_piece(&mut measured, some);
            }
        }
        measured.print(call, self.paths.len().div_ceil(piece));
    }

    #[inline(never)]
    fn reading(&self) -> Result<(), Error> {
        if self.rounds == 0 {
            println!("read\t{}", self.read()?.len());
            return Ok(());
        }
        let mut measured = self.measured();
        let times = GLOBS.div_ceil(self.globs.len().max(1));
        let mut globs = Vec::with_capacity(self.globs.len() * times);
        for _ in 0..self.rounds {
            if measured.is_enough() {
                break;
            }
            let start = now();
            for _ in 0..times {
                for text in &self.globs {
                    globs.push(black_box(text.read()?));
                }
            }
            measured.stop(start, globs.len(), globs.len());
            globs.clear();
        }
        measured.print("read", 1);
        Ok(())
    }

    #[inline(never)]
    fn make<T>(&self, call: &str, make: impl Fn(&[Glob]) -> Result<T, Error>) -> Result<(), Error> {
        let globs = self.read()?;
        if self.rounds == 0 {
            make(&globs)?;
            println!("{call}\t{}", globs.len());
            return Ok(());
        }
        let mut measured = self.measured();
        let mut made = Vec::with_capacity(BATCH);
        let mut count = 1;
        for _ in 0..self.rounds {
            if measured.is_enough() {
                break;
            }
            let start = now();
            for _ in 0..count {
                made.push(black_box(make(&globs)?));
            }
            measured.stop(start, count, globs.len());
            made.clear();
            if count == 1 && measured.pieces.last().is_some_and(|piece| piece.nanos <= SMALL) {
                measured.pieces.clear();
                count = BATCH;
            }
        }
        measured.print(call, 1);
        Ok(())
    }
}

fn fail(text: &str) -> ! {
    eprintln!("plain_baseline: {text}");
    process::exit(2)
}

fn main() {
    let arguments: Vec<String> = env::args().collect();
    let [_, calls, rounds, micros] = &arguments[..] else { fail("plain_baseline CALLS ROUNDS MICROSECONDS") };
    let (Ok(rounds), Ok(micros)) = (rounds.parse(), micros.parse::<u64>()) else {
        fail("ROUNDS and MICROSECONDS have to be numbers")
    };
    let mut text = String::new();
    if io::stdin().read_to_string(&mut text).is_err() {
        fail("standard input is no text");
    }
    let (globs, paths) = parse(&text);
    let job = Job { globs, paths, rounds, limit: micros * 1_000 };
    for call in calls.split(',') {
        if job.run(call).is_err() {
            println!("{call}\terror");
        }
    }
}
