//! Measures the calls of the crate globset over the C library (`bindings/rust`), and of the crate globset of Debian, in one run.
//!
//! `calls_program RUNS PATHS SET..`: `PATHS` is a file with a path in each line, and `SET` a file whose first line is `-s` if `*`
//! and `?` leave out `/`, and whose other lines are globs. For each set it prints a line of fields between tabs: how many globs
//! and matching paths there are, and for each call of `CALLS` the nanoseconds that the crate and `bindings/rust` take.
//!
//! All answers of the two are compared before times are taken. A time is the least of so many runs.

use std::{
    env,
    ffi::OsStr,
    fs,
    hint::black_box,
    os::unix::ffi::OsStrExt,
    path::Path,
    process,
    time::{Duration, Instant},
};

/// What is measured, in the order of the output. A run of the first four is over all paths.
const CALLS: usize = 6;
/// How often a set is made in one run: until so much time has passed, or so often.
const MAKING: (Duration, usize) = (Duration::from_millis(20), 200);
/// So many small sets are made before the clock is read again.
const BATCH: usize = 16;
const BATCH_TIME: Duration = Duration::from_micros(100);

/// One of the two crates.
trait Crate {
    type Glob;
    type Set;
    type Candidate<'a>;

    fn glob(text: &str, literal_separator: bool) -> Self::Glob;
    fn set(globs: &[Self::Glob]) -> Self::Set;
    fn candidate(path: &Path) -> Self::Candidate<'_>;
    fn is_match(set: &Self::Set, path: &Path) -> bool;
    fn matches_into(set: &Self::Set, path: &Path, into: &mut Vec<usize>);
    fn is_match_candidate(set: &Self::Set, path: &Self::Candidate<'_>) -> bool;
    fn matches_candidate_into(set: &Self::Set, path: &Self::Candidate<'_>, into: &mut Vec<usize>);
}

macro_rules! is_crate {
    ($name:ident, $of:ident) => {
        struct $name;

        impl Crate for $name {
            type Glob = $of::Glob;
            type Set = $of::GlobSet;
            type Candidate<'a> = $of::Candidate<'a>;

            fn glob(text: &str, literal_separator: bool) -> Self::Glob {
                $of::GlobBuilder::new(text).literal_separator(literal_separator).build().expect("a glob")
            }
            #[inline]
            fn set(globs: &[Self::Glob]) -> Self::Set {
                $of::GlobSet::new(globs).expect("a set")
            }
            fn candidate(path: &Path) -> Self::Candidate<'_> {
                $of::Candidate::new(path)
            }
            #[inline]
            fn is_match(set: &Self::Set, path: &Path) -> bool {
                set.is_match(path)
            }
            #[inline]
            fn matches_into(set: &Self::Set, path: &Path, into: &mut Vec<usize>) {
                set.matches_into(path, into)
            }
            #[inline]
            fn is_match_candidate(set: &Self::Set, path: &Self::Candidate<'_>) -> bool {
                set.is_match_candidate(path)
            }
            #[inline]
            fn matches_candidate_into(set: &Self::Set, path: &Self::Candidate<'_>, into: &mut Vec<usize>) {
                set.matches_candidate_into(path, into)
            }
        }
    };
}

is_crate!(Debian, other);
is_crate!(Ours, globset);

/// A set of one of the crates, its globs, and the paths that it is asked about.
struct Asked<'a, C: Crate> {
    globs: Vec<C::Glob>,
    set: C::Set,
    paths: &'a [&'a Path],
    candidates: &'a [C::Candidate<'a>],
}

impl<'a, C: Crate> Asked<'a, C> {
    fn new(text: &str, paths: &'a [&'a Path], candidates: &'a [C::Candidate<'a>]) -> Self {
        let (options, globs) = text.split_once('\n').expect("a line of options");
        let globs: Vec<C::Glob> = globs.lines().map(|glob| C::glob(glob, options == "-s")).collect();
        let set = C::set(&globs);
        Asked { globs, set, paths, candidates }
    }

    /// The nanoseconds of one call.
    fn nanoseconds(&self, call: usize) -> f64 {
        let mut into = Vec::new();
        match call {
            0 => of_each(self.paths, |path| usize::from(C::is_match(&self.set, path))),
            1 => of_each(self.paths, |path| {
                C::matches_into(&self.set, path, &mut into);
                into.len()
            }),
            2 => of_each(self.candidates, |path| usize::from(C::is_match_candidate(&self.set, path))),
            3 => of_each(self.candidates, |path| {
                C::matches_candidate_into(&self.set, path, &mut into);
                into.len()
            }),
            4 => of_making(|| C::set(&self.globs)),
            _ => of_making(|| {
                let set = C::set(&self.globs);
                black_box(C::is_match(&set, self.paths[0]));
                set
            }),
        }
    }

    /// What the set answers for the path with this number, asked in four ways.
    fn answer(&self, at: usize) -> Vec<usize> {
        let (mut one, mut two) = (vec![], vec![]);
        C::matches_into(&self.set, self.paths[at], &mut one);
        C::matches_candidate_into(&self.set, &self.candidates[at], &mut two);
        let is_match = C::is_match(&self.set, self.paths[at]);
        if one != two || is_match == one.is_empty() || is_match != C::is_match_candidate(&self.set, &self.candidates[at]) {
            fail(&format!("two calls differ on {}", self.paths[at].display()));
        }
        one
    }
}

/// The nanoseconds of a call for each of the items.
#[inline(never)]
fn of_each<T>(items: &[T], mut call: impl FnMut(&T) -> usize) -> f64 {
    let start = Instant::now();
    let found: usize = items.iter().map(|item| call(item)).sum();
    let taken = start.elapsed();
    black_box(found);
    taken.as_nanos() as f64 / items.len() as f64
}

/// The nanoseconds of making one set. What frees it is not measured.
#[inline(never)]
fn of_making<T>(mut make: impl FnMut() -> T) -> f64 {
    let mut batch = |made: &mut Vec<T>, count: usize| {
        let start = Instant::now();
        for _ in 0..count {
            made.push(black_box(make()));
        }
        let taken = start.elapsed();
        made.clear();
        taken
    };
    let mut made = Vec::with_capacity(BATCH);
    let one = batch(&mut made, 1);
    let count = if one * BATCH as u32 <= BATCH_TIME { BATCH } else { 1 };
    let (mut least, mut spent) = (f64::INFINITY, Duration::ZERO);
    for _ in 0..MAKING.1 {
        let taken = batch(&mut made, count);
        least = least.min(taken.as_nanos() as f64 / count as f64);
        spent += taken;
        if spent > MAKING.0 {
            break;
        }
    }
    least
}

fn fail(text: &str) -> ! {
    eprintln!("calls_program: {text}");
    process::exit(1)
}

fn main() {
    let arguments: Vec<String> = env::args().collect();
    let [_, runs, paths, sets @ ..] = &arguments[..] else { fail("calls_program RUNS PATHS SET..") };
    let runs: usize = runs.parse().expect("a number of runs");
    let bytes = fs::read(paths).expect("a file of paths");
    let lines = bytes.strip_suffix(b"\n").unwrap_or(&bytes).split(|&byte| byte == b'\n');
    let paths: Vec<&Path> = lines.map(|line| Path::new(OsStr::from_bytes(line))).collect();
    let debian: Vec<_> = paths.iter().map(|path| Debian::candidate(path)).collect();
    let ours: Vec<_> = paths.iter().map(|path| Ours::candidate(path)).collect();

    let mut pairs = vec![];
    let mut matching = vec![];
    for set in sets {
        let text = fs::read_to_string(set).expect("a file of globs");
        let pair = (Asked::<Debian>::new(&text, &paths, &debian), Asked::<Ours>::new(&text, &paths, &ours));
        let mut count = 0;
        for (at, path) in paths.iter().enumerate() {
            let (debian, ours) = (pair.0.answer(at), pair.1.answer(at));
            if debian != ours {
                fail(&format!("{set}: the crates answer {debian:?} and {ours:?} for {}", path.display()));
            }
            count += usize::from(!ours.is_empty());
        }
        pairs.push(pair);
        matching.push(count);
    }

    let mut least = vec![[[f64::INFINITY; 2]; CALLS]; pairs.len()];
    for run in 0..runs {
        for (pair, least) in pairs.iter().zip(&mut least) {
            for (call, least) in least.iter_mut().enumerate() {
                // The one that is measured first changes from run to run.
                for which in [run % 2, 1 - run % 2] {
                    let taken = if which == 0 { pair.0.nanoseconds(call) } else { pair.1.nanoseconds(call) };
                    least[which] = least[which].min(taken);
                }
            }
        }
    }
    for ((pair, least), matching) in pairs.iter().zip(&least).zip(&matching) {
        print!("{}\t{matching}", pair.1.globs.len());
        for [debian, ours] in least {
            print!("\t{debian:.3}\t{ours:.3}");
        }
        println!();
    }
}
