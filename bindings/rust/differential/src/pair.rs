//! A glob, and a set of globs, of both crates.

/// One glob of both crates, with its matchers.
#[derive(Clone)]
pub struct Pair {
    pub options: [bool; 5],
    pub ours: globset::Glob,
    pub other: other::Glob,
    pub our_matcher: globset::GlobMatcher,
    pub other_matcher: other::GlobMatcher,
}

/// The builders of a text for both crates: case-insensitive, literal separator, `\` does not escape, empty alternates, unclosed
/// class.
pub fn read(
    text: &str,
    options: [bool; 5],
) -> (Result<globset::Glob, globset::Error>, Result<other::Glob, other::Error>) {
    let [case, separator, plain_backslash, empty, unclosed] = options;
    let ours = globset::GlobBuilder::new(text)
        .case_insensitive(case)
        .literal_separator(separator)
        .backslash_escape(!plain_backslash)
        .empty_alternates(empty)
        .allow_unclosed_class(unclosed)
        .build();
    let other = other::GlobBuilder::new(text)
        .case_insensitive(case)
        .literal_separator(separator)
        .backslash_escape(!plain_backslash)
        .empty_alternates(empty)
        .allow_unclosed_class(unclosed)
        .build();
    (ours, other)
}

impl Pair {
    pub fn new(options: [bool; 5], ours: globset::Glob, other: other::Glob) -> Pair {
        let (our_matcher, other_matcher) = (ours.compile_matcher(), other.compile_matcher());
        Pair { options, ours, other, our_matcher, other_matcher }
    }

    /// Whether a set leaves the glob out: `**/..`, case-sensitive.
    pub fn is_left_out(&self) -> bool {
        self.ours.regex() == r"(?-u)^(?:/?|.*/)\.\.$"
    }
}

/// A set of both crates.
pub struct SetPair {
    pub pairs: Vec<Pair>,
    pub ours: globset::GlobSet,
    pub other: other::GlobSet,
}

impl SetPair {
    pub fn new(pairs: Vec<Pair>) -> SetPair {
        let ours = globset::GlobSet::new(pairs.iter().map(|pair| &pair.ours)).expect("our sets have no limit");
        let other = other::GlobSet::new(pairs.iter().map(|pair| &pair.other)).expect("the sets here are small");
        SetPair { pairs, ours, other }
    }

    pub fn texts(&self) -> Vec<(&str, [bool; 5])> {
        self.pairs.iter().map(|pair| (pair.ours.glob(), pair.options)).collect()
    }
}
