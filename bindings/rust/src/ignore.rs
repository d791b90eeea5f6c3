//! Ignore files, such as `.gitignore`, by the rules of git. It is an addition to the crate globset.
//!
//! An [`IgnoreStack`] is a walk through directories: it begins in the top directory, takes the ignore files of each directory that
//! it enters, and forgets them as it leaves. It opens no files. Of the files of one directory the later one takes precedence, so a
//! program that decides as git does adds, in the top directory, the file that `core.excludesFile` names, then
//! `.git/info/exclude`, then `.gitignore`.
//!
//! A line of a file with a pattern is a rule. It ignores the paths that it matches, or keeps them if it begins with `!`. Of several
//! rules the one in the deepest directory decides, and of those the last. A path is its bytes, with a `/` between components, and
//! is relative to the directory that the walk is in. `docs/GIT_IGNORE.md` of the repository says all that a line can be.
//!
//! ```
//! use globset::ignore::{By, IgnoreStack};
//!
//! let mut ignore = IgnoreStack::new();
//! ignore.add_file("*.o\n/out/\n");
//! assert!(ignore.is_ignored("out", true, By::Git));
//!
//! ignore.enter("src");
//! ignore.add_file("!keep.o\n");
//! assert!(ignore.is_ignored("a.o", false, By::Git));
//! assert!(!ignore.is_ignored("keep.o", false, By::Git));
//! ```

use std::{fmt, os::unix::ffi::OsStrExt, path::Path};

use crate::{
    ffi::ignore::{Decided, Ignore, IGNORE_CASE},
    relations::Domain,
};

/// What decides about a path.
#[derive(Clone, Copy, Debug, Eq, Hash, PartialEq)]
pub enum By {
    /// The rule of git: everything below an ignored directory is ignored, and no rule keeps it.
    Git,
    /// The rule that decides about the path, or else about the nearest directory above it about which a rule decides.
    Nearest,
    /// The rule that decides about the path alone. No directory above it counts.
    Path,
}

/// What is decided about a path.
#[derive(Clone, Copy, Debug, Eq, Hash, PartialEq)]
pub enum Decision {
    /// No rule decides.
    Undecided,
    /// A rule ignores the path.
    Ignored,
    /// A rule keeps the path: it begins with `!`.
    Kept,
}

/// The rule that decides about a path.
#[derive(Clone, Copy, Debug, Eq, Hash, PartialEq)]
pub struct Rule {
    /// The index of its file among those that are there, from 0, in the order in which they were added.
    pub file: usize,
    /// The number of its line, from 1.
    pub line: usize,
    /// Whether it ignores the path, and otherwise keeps it.
    pub is_ignored: bool,
}

/// Whether a rule of an ignore file ever decides, by [`By::Git`]. Rules are named by the numbers of their lines, from 1.
#[derive(Clone, Debug, Eq, PartialEq)]
pub enum Reachability {
    /// It decides about this path of the domain, and about no shorter path.
    Decides(Vec<u8>),
    /// It decides about no path of the domain: the later rules of these lines cover it. None of them can be left out. It is one line
    /// if one of them covers the rule alone, and none if the rule matches no path of the domain.
    Never(Vec<usize>),
    /// It decides about no path of the domain: each that it would decide about lies below an ignored directory. The rule of this
    /// line ignores one.
    BelowIgnored(usize),
    /// A search has more rows than the limit.
    Unknown,
}

/// A walk through directories, with the ignore files of the directory that it is in and of those above it.
///
/// Time to decide is a pass over the path for each file and, if a rule matches a directory above it and it is not [`By::Path`] that
/// decides, at most such passes for each directory that the path names. A walk keeps the memory that it takes to decide for later
/// calls.
///
/// Running out of memory ends the program in each call that allocates: in all of them except [`IgnoreStack::leave`].
pub struct IgnoreStack {
    ignore: Ignore,
    /// How many files the top directory has, and each directory below it that the walk is in.
    files: Vec<usize>,
}

impl By {
    fn number(self) -> u32 {
        match self {
            By::Git => 0,
            By::Nearest => 1,
            By::Path => 2,
        }
    }
}

impl IgnoreStack {
    /// A walk in its top directory, without ignore files.
    pub fn new() -> IgnoreStack {
        IgnoreStack::of(Ignore::new(0))
    }

    /// The same, in which ASCII letters match in both cases, as under the setting `core.ignoreCase` of git.
    pub fn new_ignoring_case() -> IgnoreStack {
        IgnoreStack::of(Ignore::new(IGNORE_CASE))
    }

    /// Sets how many bytes of rows, the cached states of its automaton, an ignore file keeps at most, for files that are added
    /// later. The default is that of sets, 16 MiB. A file begins with few rows, and gets more as paths need them. No answer
    /// depends on it.
    ///
    /// ```rust
    /// use globset::ignore::{By, IgnoreStack};
    ///
    /// let mut ignore = IgnoreStack::new();
    /// ignore.set_dfa_size_limit(0);
    /// ignore.add_file("*.o\n");
    /// assert!(ignore.is_ignored("a.o", false, By::Git));
    /// ```
    pub fn set_dfa_size_limit(&mut self, bytes: usize) {
        self.ignore.set_dfa_size_limit(bytes);
    }

    fn of(ignore: Ignore) -> IgnoreStack {
        IgnoreStack { ignore, files: vec![0] }
    }

    /// Adds an ignore file of the directory that the walk is in, by its bytes. It takes precedence over the files that are there.
    /// A line that git cannot read matches nothing: [`IgnoreStack::unread_lines`] tells these lines. Time and memory are linear in
    /// the file.
    pub fn add_file(&mut self, file: impl AsRef<[u8]>) {
        self.ignore.add_file(file.as_ref());
        if let Some(here) = self.files.last_mut() {
            *here += 1;
        }
    }

    /// Enters the directory of this name: one component, or several. A `/` at the end is left out. It decides about the directory by
    /// [`By::Git`].
    pub fn enter(&mut self, name: impl AsRef<Path>) {
        let (name, _) = without_slash(name.as_ref());
        self.ignore.enter(name);
        self.files.push(0);
    }

    /// Goes up to where the walk was before the last [`IgnoreStack::enter`], without the files that were added since. In the top
    /// directory it does nothing.
    pub fn leave(&mut self) {
        self.ignore.leave();
        if self.files.len() > 1 {
            self.files.pop();
        }
    }

    /// Whether a rule ignores the path. A path that ends with `/` is of a directory, and is decided about without that `/`.
    pub fn is_ignored(&mut self, path: impl AsRef<Path>, is_dir: bool, by: By) -> bool {
        self.decided(path.as_ref(), is_dir, by).is_ignored
    }

    /// The rule that decides about the path, or `None` if no rule decides. A `/` at the end is as for [`IgnoreStack::is_ignored`].
    ///
    /// ```
    /// use globset::ignore::{By, IgnoreStack, Rule};
    ///
    /// let mut ignore = IgnoreStack::new();
    /// ignore.add_file("# objects\n*.o\n!a.o\n");
    /// assert_eq!(ignore.decide("b.o", false, By::Git), Some(Rule { file: 0, line: 2, is_ignored: true }));
    /// assert_eq!(ignore.decide("a.o", false, By::Git), Some(Rule { file: 0, line: 3, is_ignored: false }));
    /// assert_eq!(ignore.decide("a.c", false, By::Git), None);
    /// ```
    pub fn decide(&mut self, path: impl AsRef<Path>, is_dir: bool, by: By) -> Option<Rule> {
        let decided = self.decided(path.as_ref(), is_dir, by);
        let rule = Rule { file: decided.file, line: decided.line, is_ignored: decided.is_ignored };
        (decided.line != 0).then_some(rule)
    }

    fn decided(&mut self, path: &Path, is_dir: bool, by: By) -> Decided {
        let (name, has_slash) = without_slash(path);
        self.ignore.decide(name, is_dir || has_slash, by.number())
    }

    /// What is decided about each of many paths, in one call of the library. A path that ends with `/` is of a directory, and is
    /// decided about without that `/`. Memory is linear in the bytes of all paths and in their number.
    ///
    /// ```
    /// use globset::ignore::{By, Decision, IgnoreStack};
    ///
    /// let mut ignore = IgnoreStack::new();
    /// ignore.add_file("out/\n!a.o\n");
    /// let decisions = ignore.decide_many(["out", "out/", "a.o"], By::Git);
    /// assert_eq!(decisions, [Decision::Undecided, Decision::Ignored, Decision::Kept]);
    /// ```
    pub fn decide_many<I>(&mut self, paths: I, by: By) -> Vec<Decision>
    where
        I: IntoIterator,
        I::Item: AsRef<Path>,
    {
        let (bytes, ends) = joined(paths);
        let answers = self.ignore.decide_many(&bytes, &ends, by.number());
        let decisions = answers.into_iter().map(|answer| match answer {
            0 => Decision::Undecided,
            1 => Decision::Ignored,
            _ => Decision::Kept,
        });
        decisions.collect()
    }

    /// The rule that decides about each of many paths, or `None` if no rule decides, in one call of the library. The paths and the
    /// memory are as those of [`IgnoreStack::decide_many`].
    ///
    /// ```
    /// use globset::ignore::{By, IgnoreStack, Rule};
    ///
    /// let mut ignore = IgnoreStack::new();
    /// ignore.add_file("out/\n!a.o\n");
    /// let rules = ignore.rules_many(["out/", "a.o", "a.c"], By::Git);
    /// let (out, kept) = (Rule { file: 0, line: 1, is_ignored: true }, Rule { file: 0, line: 2, is_ignored: false });
    /// assert_eq!(rules, [Some(out), Some(kept), None]);
    /// ```
    pub fn rules_many<I>(&mut self, paths: I, by: By) -> Vec<Option<Rule>>
    where
        I: IntoIterator,
        I::Item: AsRef<Path>,
    {
        let (bytes, ends) = joined(paths);
        let told = self.ignore.rules_many(&bytes, &ends, by.number());
        let rules = told.into_iter().map(|told| {
            let rule = Rule { file: told.file, line: told.line, is_ignored: told.decision == 1 };
            (told.decision != 0).then_some(rule)
        });
        rules.collect()
    }

    /// How many files are there: those of the directory that the walk is in and of all above it.
    pub fn file_count(&self) -> usize {
        self.files.iter().sum()
    }

    /// The numbers of the lines that git cannot read, from 1, ascending, of the file of an index as in [`Rule`]. They match
    /// nothing. `None` if there is no such file. Blank lines and comments are not among them.
    ///
    /// ```
    /// use globset::ignore::IgnoreStack;
    ///
    /// let mut ignore = IgnoreStack::new();
    /// ignore.add_file("a\n[b\nc\\\n");
    /// assert_eq!(ignore.unread_lines(0), Some(vec![2, 3]));
    /// assert_eq!(ignore.unread_lines(1), None);
    /// ```
    pub fn unread_lines(&mut self, file: usize) -> Option<Vec<usize>> {
        self.ignore.unread_lines(file)
    }

    /// The text of a line, as `git check-ignore -v` prints that of a rule: without what git removes at the end of a line. The file
    /// and the line are as in [`Rule`]. `None` if there is no such file or line. Time is linear in the file up to the line.
    ///
    /// ```
    /// use globset::ignore::{By, IgnoreStack};
    ///
    /// let mut ignore = IgnoreStack::new();
    /// ignore.add_file("# objects\n*.o  \n");
    /// let rule = ignore.decide("a.o", false, By::Git).expect("a rule");
    /// assert_eq!(ignore.line_text(rule.file, rule.line).as_deref(), Some(b"*.o".as_slice()));
    /// assert_eq!(ignore.line_text(0, 4), None);
    /// ```
    pub fn line_text(&mut self, file: usize, line: usize) -> Option<Vec<u8>> {
        self.ignore.line_text(file, line)
    }

    /// For each rule of a file, in order, the number of its line, from 1, and whether it ever decides about a path of the domain
    /// by [`By::Git`], if there were no other file. The file is that of an index as in [`Rule`], and paths begin in its directory.
    /// `None` if there is no such file.
    ///
    /// Each rule takes a few searches. Each search has the limit; [`relations`](crate::relations) says how much memory it takes.
    ///
    /// ```
    /// use globset::{ignore::{IgnoreStack, Reachability}, relations::Domain};
    ///
    /// let mut ignore = IgnoreStack::new();
    /// ignore.add_file("*.log\n\n/src\n!/src/a\n!kept.log\n*.log\n");
    /// let rules = ignore.unreachable(0, Domain::RelativePaths, 100_000).expect("a file");
    /// assert_eq!(rules[0], (1, Reachability::Never(vec![6])));
    /// assert_eq!(rules[1], (3, Reachability::Decides(b"src".to_vec())));
    /// assert_eq!(rules[2], (4, Reachability::BelowIgnored(3)));
    /// ```
    pub fn unreachable(&mut self, file: usize, domain: Domain, limit: usize) -> Option<Vec<(usize, Reachability)>> {
        self.ignore.unreachable(file, domain.number(), limit)
    }
}

/// The bytes of a path without a `/` at its end, and whether it has one.
fn without_slash(path: &Path) -> (&[u8], bool) {
    let bytes = path.as_os_str().as_bytes();
    bytes.strip_suffix(b"/").map_or((bytes, false), |name| (name, true))
}

/// The bytes of paths one after another, and the end of each.
fn joined<I>(paths: I) -> (Vec<u8>, Vec<usize>)
where
    I: IntoIterator,
    I::Item: AsRef<Path>,
{
    let (mut bytes, mut ends) = (Vec::new(), Vec::new());
    for path in paths {
        bytes.extend_from_slice(path.as_ref().as_os_str().as_bytes());
        ends.push(bytes.len());
    }
    (bytes, ends)
}

impl Default for IgnoreStack {
    fn default() -> IgnoreStack {
        IgnoreStack::new()
    }
}

impl fmt::Debug for IgnoreStack {
    /// Shows how deep the walk is, and the number of files.
    fn fmt(&self, f: &mut fmt::Formatter<'_>) -> fmt::Result {
        f.debug_struct("IgnoreStack")
            .field("depth", &(self.files.len() - 1))
            .field("files", &self.file_count())
            .finish()
    }
}
