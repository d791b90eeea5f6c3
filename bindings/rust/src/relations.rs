//! Questions about all paths at once: whether globs cover a glob, whether two globs match some path in common, and which globs of
//! a list never decide. It is an addition to the crate globset.
//!
//! An answer that is about one path has a shortest such path, and the others hold for each path of a [`Domain`]. Globs match as
//! their matchers do, also those that match nothing in a [`GlobSet`](crate::GlobSet). A path is its bytes.
//!
//! Each function searches over rows, and has a limit on them. A row is a set of states of the globs together with a place in the
//! domain. Paths may lead to exponentially many rows, but seldom do: 100,000 are enough for most globs. Memory is at most linear in
//! the rows, times the states of the globs.
//!
//! ```
//! use globset::{relations::{covering, Coverage, Domain}, Glob};
//!
//! let by = [Glob::new("docs/**")?, Glob::new("src/**")?];
//! let answer = covering(&Glob::new("src/a/*.c")?, &by, Domain::RelativePaths, 100_000);
//! assert_eq!(answer, Coverage::Covered);
//! # Ok::<(), globset::Error>(())
//! ```

use crate::{
    ffi::{self, Told},
    Glob,
};

/// The paths that a question is about.
#[derive(Clone, Copy, Debug, Eq, Hash, PartialEq)]
pub enum Domain {
    /// All lists of bytes.
    AllPaths,
    /// Relative paths as file systems have them: components with a `/` between them, of which none is empty, `.` or `..`, or has a
    /// NUL.
    RelativePaths,
}

/// Which of the globs of a list that match a path decides about it.
#[derive(Clone, Copy, Debug, Eq, Hash, PartialEq)]
pub enum Decides {
    /// The first of them.
    First,
    /// The last of them.
    Last,
}

/// Whether globs cover a glob.
#[derive(Clone, Debug, Eq, PartialEq)]
pub enum Coverage {
    /// Each path of the domain that the glob matches is matched by some of the others.
    Covered,
    /// The glob matches this path of the domain, and none of the others does. No shorter path is so.
    Not(Vec<u8>),
    /// The search has more rows than the limit.
    Unknown,
}

/// Whether two globs match some path in common.
#[derive(Clone, Debug, Eq, PartialEq)]
pub enum Intersection {
    /// No path of the domain is matched by both.
    Disjoint,
    /// Both match this path of the domain, and no shorter path.
    Both(Vec<u8>),
    /// The search has more rows than the limit.
    Unknown,
}

/// Whether a glob of a list ever decides.
#[derive(Clone, Debug, Eq, PartialEq)]
pub enum Reachability {
    /// It decides about this path of the domain, and about no shorter path.
    Decides(Vec<u8>),
    /// It decides about no path of the domain: the globs at these indexes cover it. None of them can be left out. It is one index
    /// if one of them covers the glob alone, and none if the glob matches no path of the domain.
    Never(Vec<usize>),
    /// A search has more rows than the limit.
    Unknown,
}

impl Domain {
    pub(crate) fn number(self) -> u32 {
        match self {
            Domain::AllPaths => 0,
            Domain::RelativePaths => 1,
        }
    }
}

impl Decides {
    fn number(self) -> u32 {
        match self {
            Decides::First => 0,
            Decides::Last => 1,
        }
    }
}

/// Whether the other globs together match each path of the domain that the glob matches, and otherwise a shortest path that they
/// miss.
///
/// # Examples
///
/// ```
/// use globset::{relations::{covering, Coverage, Domain}, Glob};
///
/// let glob = Glob::new("[ab].c")?;
/// let missed = covering(&glob, [Glob::new("b*")?], Domain::RelativePaths, 100_000);
/// assert_eq!(missed, Coverage::Not(b"a.c".to_vec()));
/// # Ok::<(), globset::Error>(())
/// ```
pub fn covering<I, G>(glob: &Glob, by: I, domain: Domain, limit: usize) -> Coverage
where
    I: IntoIterator<Item = G>,
    G: AsRef<Glob>,
{
    let by: Vec<G> = by.into_iter().collect();
    match ffi::covering(glob.raw(), by.iter().map(|glob| glob.as_ref().raw()), domain.number(), limit) {
        Told::NoPath(_) => Coverage::Covered,
        Told::Path(path) => Coverage::Not(path),
        Told::LimitReached => Coverage::Unknown,
    }
}

/// Whether no path of the domain is matched by both globs, and otherwise a shortest path that both match.
///
/// # Examples
///
/// ```
/// use globset::{relations::{overlap, Domain, Intersection}, Glob};
///
/// let (c, h) = (Glob::new("*.c")?, Glob::new("*.h")?);
/// assert_eq!(overlap(&c, &h, Domain::RelativePaths, 100_000), Intersection::Disjoint);
///
/// let both = overlap(&Glob::new("a*")?, &Glob::new("*b")?, Domain::RelativePaths, 100_000);
/// assert_eq!(both, Intersection::Both(b"ab".to_vec()));
/// # Ok::<(), globset::Error>(())
/// ```
pub fn overlap(a: &Glob, b: &Glob, domain: Domain, limit: usize) -> Intersection {
    match ffi::overlap(a.raw(), b.raw(), domain.number(), limit) {
        Told::NoPath(_) => Intersection::Disjoint,
        Told::Path(path) => Intersection::Both(path),
        Told::LimitReached => Intersection::Unknown,
    }
}

/// For each glob of a list, of which the first or the last that matches a path decides about it, whether it ever decides about a
/// path of the domain. If it does not, some of the globs before it cover it where the first decides, and some of those after it
/// where the last decides.
///
/// Each glob takes a few searches. Each search has the limit.
///
/// # Examples
///
/// The last rule that matches decides, as in a file `.gitignore`:
///
/// ```
/// use globset::{relations::{unreachable, Decides, Domain, Reachability}, Glob};
///
/// let rules = [Glob::new("*.log")?, Glob::new("debug.log")?, Glob::new("*.log")?];
/// let answers = unreachable(&rules, Decides::Last, Domain::RelativePaths, 100_000);
/// assert_eq!(answers[..2], [Reachability::Never(vec![2]), Reachability::Never(vec![2])]);
/// assert!(matches!(answers[2], Reachability::Decides(_)));
/// # Ok::<(), globset::Error>(())
/// ```
pub fn unreachable<I, G>(globs: I, decides: Decides, domain: Domain, limit: usize) -> Vec<Reachability>
where
    I: IntoIterator<Item = G>,
    G: AsRef<Glob>,
{
    let globs: Vec<G> = globs.into_iter().collect();
    let raw = globs.iter().map(|glob| glob.as_ref().raw());
    let told = ffi::unreachable(raw, decides.number(), domain.number(), limit);
    let answers = told.into_iter().map(|told| match told {
        Told::NoPath(indexes) => Reachability::Never(indexes),
        Told::Path(path) => Reachability::Decides(path),
        Told::LimitReached => Reachability::Unknown,
    });
    answers.collect()
}
