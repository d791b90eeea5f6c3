//! Compares the crate globset over the C library with the crate globset of this system's packages: what they read and reject,
//! regular expressions, answers of matchers and sets, texts, JSON. Globs and paths are random, from a fixed seed.
//!
//! A difference has to fall under a line of `docs/DIFFERENCES.md`, whose path is the first argument. What a set here answers
//! has to follow from what its globs answer, one by one. The exit status is 1 if a difference falls under no line.

mod lines;
mod pair;
mod random;

use std::{collections::BTreeMap, env, fmt::Debug, fs, process};

use lines::{Line, LINES};
use pair::{Pair, SetPair};
use random::Random;

const SEED: u64 = 0x9e37_79b9_7f4a_7c15;
const TEXTS: usize = 30_000;
const PATHS_OF_A_GLOB: usize = 6;
const SETS: usize = 5_000;
const PATHS_OF_A_SET: usize = 10;

/// How many answers were compared, by what was asked, and how many of them differ, by the line that says so.
#[derive(Default)]
struct Tally {
    answers: BTreeMap<&'static str, usize>,
    yes: usize,
    differences: BTreeMap<(Line, &'static str), usize>,
    unexplained: usize,
}

impl Tally {
    /// Compares two answers. `line` says under which line a difference falls, and `about` what was asked.
    fn compare<T: PartialEq + Debug>(
        &mut self,
        what: &'static str,
        ours: T,
        other: T,
        line: impl FnOnce() -> Option<Line>,
        about: impl FnOnce() -> String,
    ) {
        *self.answers.entry(what).or_default() += 1;
        if ours == other {
            return;
        }
        match line() {
            Some(line) => *self.differences.entry((line, what)).or_default() += 1,
            None => {
                self.unexplained += 1;
                if self.unexplained <= 20 {
                    println!("{what}: {ours:?} here, {other:?} there, under no line: {}", about());
                }
            }
        }
    }

    fn print(&self) {
        println!("| Answer | Compared | Different |\n|---|---:|---:|");
        for (what, count) in &self.answers {
            let different: usize =
                self.differences.iter().filter(|((_, other), _)| other == what).map(|(_, count)| count).sum();
            println!("| {what} | {count} | {different} |");
        }
        println!("\n| Line of docs/DIFFERENCES.md | Different answers |\n|---|---:|");
        for line in LINES {
            let count: usize =
                self.differences.iter().filter(|((other, _), _)| *other == line).map(|(_, count)| count).sum();
            println!("| {} | {count} |", line.text());
        }
        println!("| none | {} |", self.unexplained);
        let (own, both): (Vec<_>, Vec<_>) = self.answers.iter().partition(|(what, _)| what.contains("by our"));
        let sum = |answers: Vec<(&&str, &usize)>| answers.iter().map(|(_, count)| **count).sum::<usize>();
        let (own, both) = (sum(own), sum(both));
        println!(
            "\n{both} answers were compared with the other crate's, and {own} of sets here with those of their globs."
        );
        println!("{} times some path was matched.", self.yes);
    }
}

fn main() {
    let document = env::args().nth(1).expect("the path of DIFFERENCES.md");
    let document = fs::read_to_string(document).expect("DIFFERENCES.md can be read");
    for line in LINES {
        assert!(document.contains(&format!("| {}", line.text())), "DIFFERENCES.md has no line {}", line.text());
    }
    let (mut random, mut tally) = (Random::new(SEED), Tally::default());
    let pairs: Vec<Pair> = (0..TEXTS).filter_map(|_| text(&mut random, &mut tally)).collect();
    for _ in 0..SETS {
        set(&mut random, &mut tally, &pairs);
    }
    tally.print();
    process::exit(if tally.unexplained == 0 { 0 } else { 1 });
}

/// Compares what the crates say of a random text. Returns the glob if both read it.
fn text(random: &mut Random, tally: &mut Tally) -> Option<Pair> {
    let (text, options) = (random.glob(), random.options());
    let (ours, other) = pair::read(&text, options);
    let about = || format!("{text:?} under {options:?}");
    let kind = other.as_ref().err().map(|error| error.kind().clone());
    let line = || lines::of_errors(options, kind.as_ref());
    tally.compare("error, kind", kind_of(&ours), kind_of_other(&other), line, about);
    let (shown, other_shown) =
        (ours.as_ref().err().map(ToString::to_string), other.as_ref().err().map(ToString::to_string));
    tally.compare("error, text", shown, other_shown, line, about);
    let (glob, other_glob) =
        (ours.as_ref().err().map(|error| error.glob()), other.as_ref().err().map(|error| error.glob()));
    tally.compare("error, glob", glob, other_glob, line, about);
    tally.compare("escape", globset::escape(&text), other::escape(&text), || None, about);
    let (ours, other) = (ours.ok()?, other.ok()?);
    let pair = Pair::new(options, ours, other);
    one_glob(random, tally, &pair);
    Some(pair)
}

fn kind_of(result: &Result<globset::Glob, globset::Error>) -> Option<String> {
    result.as_ref().err().map(|error| format!("{:?}: {}", error.kind(), error.kind()))
}

fn kind_of_other(result: &Result<other::Glob, other::Error>) -> Option<String> {
    result.as_ref().err().map(|error| format!("{:?}: {}", error.kind(), error.kind()))
}

/// Compares what the crates say of one glob.
fn one_glob(random: &mut Random, tally: &mut Tally, pair: &Pair) {
    let about = || format!("{:?} under {:?}", pair.ours.glob(), pair.options);
    tally.compare("regex", pair.ours.regex(), pair.other.regex(), || lines::of_regexes(pair), about);
    tally.compare("glob", pair.ours.glob(), pair.other.glob(), || None, about);
    let shown = |glob: &dyn Debug| format!("{glob:?}");
    tally.compare("Debug of a glob", shown(&pair.ours), shown(&pair.other), || None, about);
    tally.compare("Display of a glob", format!("{:>9.5}", pair.ours), format!("{:>9.5}", pair.other), || None, about);
    for number in 0..PATHS_OF_A_GLOB {
        let path = if number % 2 == 0 { random.path_like(pair.ours.glob()) } else { random.path() };
        let ours = globset::Candidate::from_bytes(&path);
        let other = other::Candidate::from_bytes(&path);
        let ours = pair.our_matcher.is_match_candidate(&ours);
        let other = pair.other_matcher.is_match_candidate(&other);
        tally.yes += usize::from(ours);
        let about =
            || format!("{:?} under {:?} on {:?}", pair.ours.glob(), pair.options, String::from_utf8_lossy(&path));
        tally.compare("matcher", ours, other, || lines::of_matchers(pair), about);
    }
    json(tally, pair);
}

/// Compares how the crates write a glob as JSON, and what they read.
fn json(tally: &mut Tally, pair: &Pair) {
    let text = pair.ours.glob();
    let about = || format!("JSON of {text:?}");
    let (ours, other) = (serde_json::to_string(&pair.ours), serde_json::to_string(&pair.other));
    tally.compare("JSON, written", ours.ok(), other.ok(), || None, about);
    let json = serde_json::to_string(text).expect("texts can be written");
    let ours = serde_json::from_str::<globset::Glob>(&json).map(|glob| glob.glob().to_string());
    let other = serde_json::from_str::<other::Glob>(&json).map(|glob| glob.glob().to_string());
    let (ours, other) = (ours.map_err(|error| error.to_string()), other.map_err(|error| error.to_string()));
    tally.compare("JSON, a glob", ours, other, || None, about);
    let json = format!("[\"*.c\", {json}, 7]");
    let ours = serde_json::from_str::<globset::GlobSet>(&json).err().map(|error| error.to_string());
    let other = serde_json::from_str::<other::GlobSet>(&json).err().map(|error| error.to_string());
    tally.compare("JSON, a set", ours, other, || None, about);
}

/// Compares what the crates say of a random set.
fn set(random: &mut Random, tally: &mut Tally, pairs: &[Pair]) {
    let most = if random.below(2) == 0 { 3 } else { 8 };
    let count = random.below(most + 1);
    let set = SetPair::new((0..count).map(|_| pairs[random.below(pairs.len())].clone()).collect());
    let about = || format!("{:?}", set.texts());
    tally.compare("len of a set", set.ours.len(), set.other.len(), || None, about);
    for number in 0..PATHS_OF_A_SET {
        let path = if number % 3 > 0 && count > 0 {
            let index = random.below(count);
            random.path_like(set.pairs[index].ours.glob())
        } else {
            random.path()
        };
        one_path(tally, &set, &path);
    }
}

/// Compares what the crates say of a set and a path.
fn one_path(tally: &mut Tally, set: &SetPair, path: &[u8]) {
    let about = || format!("{:?} on {:?}", set.texts(), String::from_utf8_lossy(path));
    let (ours, other) = (globset::Candidate::from_bytes(path), other::Candidate::from_bytes(path));
    let (found, other_found) = (set.ours.matches_candidate(&ours), set.other.matches_candidate(&other));
    let single = |pair: &Pair| !pair.is_left_out() && pair.our_matcher.is_match_candidate(&ours);
    let expected: Vec<usize> = (0..set.pairs.len()).filter(|&index| single(&set.pairs[index])).collect();
    tally.compare("matches, by our matchers", &found, &expected, || None, about);
    tally.yes += usize::from(!found.is_empty());
    let mut lines: Vec<Option<Line>> = vec![];
    for (index, pair) in set.pairs.iter().enumerate() {
        let (ours, other) = (found.contains(&index), other_found.contains(&index));
        if ours != other {
            lines.push(lines::of_index(pair, path, ours, other));
        }
    }
    let all_explained = || lines.iter().copied().min().flatten();
    tally.compare("matches", &found, &other_found, all_explained, about);
    let any = (set.ours.is_match_candidate(&ours), set.other.is_match_candidate(&other));
    tally.compare("is_match, by our indexes", any.0, !expected.is_empty(), || None, about);
    tally.compare("is_match", any.0, any.1, all_explained, about);
    let all = (set.ours.matches_all_candidate(&ours), set.other.matches_all_candidate(&other));
    tally.compare("matches_all, by our indexes", all.0, expected.len() == set.pairs.len(), || None, about);
    let line = || if lines.is_empty() { lines::of_all(set, &found, all.0) } else { all_explained() };
    tally.compare("matches_all", all.0, all.1, line, about);
}
