//! Random calls in eight threads on sets that they share: patterns and paths of any bytes, calls within iterators, objects that
//! are dropped while others use what they share. MISUSE_ROUNDS says how many rounds there are (200).

use std::{
    env,
    ffi::OsStr,
    os::unix::ffi::OsStrExt,
    path::Path,
    sync::{Arc, Mutex},
    thread,
};

use globset::{ext::Searcher, Candidate, Glob, GlobBuilder, GlobMatcher, GlobSet};

const PIECES: [&[u8]; 16] = [
    b"*",
    b"?",
    b"**/",
    b"/**",
    b"{a,",
    b"}",
    b"[!a-",
    b"z]",
    b"\\",
    b"\0",
    b"\xc3\xa9",
    b"\xff",
    b"a",
    b"b/",
    b".c",
    b"..",
];

struct Random(u64);

impl Random {
    fn next(&mut self, count: usize) -> usize {
        self.0 ^= self.0 << 13;
        self.0 ^= self.0 >> 7;
        self.0 ^= self.0 << 17;
        (self.0 >> 11) as usize % count
    }

    fn bytes(&mut self) -> Vec<u8> {
        (0..self.next(7)).flat_map(|_| PIECES[self.next(PIECES.len())].iter().copied()).collect()
    }

    /// A glob of random text, if it is one.
    fn glob(&mut self) -> Option<Glob> {
        let text = String::from_utf8_lossy(&self.bytes()).into_owned();
        let options = self.next(64);
        let has = |bit: usize| options & bit != 0;
        let read = GlobBuilder::new(&text)
            .case_insensitive(has(1))
            .literal_separator(has(2))
            .backslash_escape(has(4))
            .empty_alternates(has(8))
            .allow_unclosed_class(has(16))
            .whole_character(has(32))
            .build();
        if let Err(error) = &read {
            assert!(error.to_string().contains("error parsing glob") && error.glob() == Some(text.as_str()));
        }
        read.ok()
    }
}

/// A set with the matchers of its globs, which have to answer as it does.
struct Made {
    set: GlobSet,
    matchers: Vec<GlobMatcher>,
}

impl Made {
    fn new(random: &mut Random) -> Made {
        let globs: Vec<Glob> =
            (0..random.next(12)).filter_map(|_| random.glob()).filter(|glob| !glob.glob().ends_with("..")).collect();
        Made { set: GlobSet::new(&globs).expect("a set"), matchers: globs.iter().map(Glob::compile_matcher).collect() }
    }

    fn check(&self, path: &Path) {
        let wanted: Vec<usize> =
            (0..self.matchers.len()).filter(|&index| self.matchers[index].is_match(path)).collect();
        assert_eq!(self.set.matches(path), wanted, "{path:?}");
        assert_eq!(self.set.is_match_candidate(&Candidate::new(path)), !wanted.is_empty());
        assert_eq!(self.set.matches_all(path), wanted.len() == self.matchers.len());
        let mut searcher = Searcher::new(&self.set);
        // The paths ask the set again while the searcher reads them.
        let paths = (0..3).map(|_| (self.set.is_match(path), path).1);
        assert!(searcher.matches_many(paths).iter().all(|found| found == wanted));
    }
}

#[test]
fn random_calls_in_threads() {
    let rounds = env::var("MISUSE_ROUNDS").ok().and_then(|text| text.parse().ok()).unwrap_or(200);
    let shared = Arc::new(Mutex::new(Vec::<Arc<Made>>::new()));
    let threads: Vec<_> = (1..=8_u64)
        .map(|number| {
            let (shared, mut random) = (Arc::clone(&shared), Random(number.wrapping_mul(0x9e37_79b9_7f4a_7c15)));
            thread::spawn(move || {
                for _ in 0..rounds / 8 {
                    let made = Arc::new(Made::new(&mut random));
                    let other = {
                        let mut all = shared.lock().expect("no thread panics");
                        all.push(made);
                        let at = random.next(all.len());
                        if random.next(4) == 0 {
                            all.swap_remove(at)
                        } else {
                            Arc::clone(&all[at])
                        }
                    };
                    for _ in 0..10 {
                        other.check(Path::new(OsStr::from_bytes(&random.bytes())));
                    }
                }
            })
        })
        .collect();
    for thread in threads {
        thread.join().expect("a thread ends");
    }
}
