//! Additions: what this crate has, and the crate globset has not. A program that names them needs this crate.

use std::{fmt, path::Path};

use crate::{ffi, Candidate, Error, GlobSet, GlobSetBuilder};

/// The byte of a rejected text where its first error stands, from 0. It is an addition to the crate globset.
///
/// It is that of the `[` of an unclosed class or of one with an invalid range, of a `}` that closes nothing, of the last `\`, or
/// of the outermost `{` that is open at the end of the text.
///
/// # Examples
///
/// ```
/// use globset::{ext, Glob};
///
/// let error = Glob::new("é/{*.c,*.{h,hpp}").unwrap_err();
/// assert_eq!(ext::offset(&error), 3);
/// ```
pub fn offset(error: &Error) -> usize {
    error.offset()
}

/// Makes the set of a builder's globs, as [`GlobSetBuilder::build`] does. The set keeps at most `dfa_size_limit` bytes of rows
/// of automata. A thread that matches with it takes as many as `globset_builder_set_dfa_size_limit` in `globset.h`, the header for
/// C, says of a searcher. It is an addition to the crate globset.
///
/// No answer depends on the limit. With fewer bytes a call may take more time. With 0 there are no rows.
/// [`GlobSetBuilder::build`] allows 16 MiB.
///
/// # Examples
///
/// ```
/// use globset::{ext, Glob, GlobSetBuilder};
///
/// let mut builder = GlobSetBuilder::new();
/// builder.add(Glob::new("src/**/*.rs")?);
/// let set = ext::build_with_dfa_size_limit(&builder, 0);
/// assert!(set.is_match("src/a/lib.rs") && !set.is_match("src/a/lib.c"));
/// # Ok::<(), globset::Error>(())
/// ```
pub fn build_with_dfa_size_limit(builder: &GlobSetBuilder, dfa_size_limit: usize) -> GlobSet {
    builder.build_with_limit(dfa_size_limit)
}

/// The indexes of many paths, as [`Searcher::matches_many`] finds them. It is an addition to the crate globset.
///
/// # Examples
///
/// ```
/// use globset::{ext::Searcher, Glob, GlobSet};
///
/// let mut searcher = Searcher::new(&GlobSet::new([Glob::new("*.c")?, Glob::new("a*")?])?);
/// let found = searcher.matches_many(["a.c", "b.h", "b.c"]);
/// assert_eq!(found.len(), 3);
/// let by_path: Vec<&[usize]> = found.iter().collect();
/// assert_eq!(by_path, [&[0, 1][..], &[], &[0]]);
/// # Ok::<(), globset::Error>(())
/// ```
#[derive(Clone, Debug, Eq, PartialEq)]
pub struct Matches {
    indexes: Vec<usize>,
    /// For each path where its indexes end. They begin where those of the path before it end.
    ends: Vec<usize>,
}

impl Matches {
    /// The number of paths.
    ///
    /// # Examples
    ///
    /// ```
    /// use globset::{ext::Searcher, GlobSet};
    ///
    /// assert_eq!(Searcher::new(&GlobSet::empty()).matches_many(["a", "b"]).len(), 2);
    /// ```
    pub fn len(&self) -> usize {
        self.ends.len()
    }

    /// Whether there are no paths.
    ///
    /// # Examples
    ///
    /// ```
    /// use globset::{ext::Searcher, GlobSet};
    ///
    /// let none: [&str; 0] = [];
    /// assert!(Searcher::new(&GlobSet::empty()).matches_many(none).is_empty());
    /// ```
    pub fn is_empty(&self) -> bool {
        self.ends.is_empty()
    }

    /// The indexes of the globs that match this path, ascending, or `None` if there are fewer paths. The first path has number 0.
    ///
    /// # Examples
    ///
    /// ```
    /// use globset::{ext::Searcher, Glob, GlobSet};
    ///
    /// let mut searcher = Searcher::new(&GlobSet::new([Glob::new("*.c")?])?);
    /// let found = searcher.matches_many(["a.h", "a.c"]);
    /// assert_eq!((found.get(1), found.get(2)), (Some(&[0][..]), None));
    /// # Ok::<(), globset::Error>(())
    /// ```
    pub fn get(&self, path: usize) -> Option<&[usize]> {
        let end = *self.ends.get(path)?;
        let start = path.checked_sub(1).map_or(0, |before| self.ends[before]);
        Some(&self.indexes[start..end])
    }

    /// The indexes of each path, in the order of the paths.
    ///
    /// # Examples
    ///
    /// ```
    /// use globset::{ext::Searcher, Glob, GlobSet};
    ///
    /// let mut searcher = Searcher::new(&GlobSet::new([Glob::new("*.c")?])?);
    /// let found = searcher.matches_many(["a.h", "a.c"]);
    /// assert_eq!(found.iter().map(<[usize]>::len).collect::<Vec<_>>(), [0, 1]);
    /// # Ok::<(), globset::Error>(())
    /// ```
    pub fn iter(&self) -> impl Iterator<Item = &[usize]> + '_ {
        (0..self.len()).filter_map(|path| self.get(path))
    }
}

/// A set with all the memory that one thread matches with. It is an addition to the crate globset.
///
/// Matching with it takes no memory. A [`GlobSet`] has a searcher for each thread that asks it, and finds that of the thread at
/// each call. A program that has a searcher of its own saves that, and reads the indexes in place.
///
/// # Examples
///
/// ```
/// use globset::{ext::Searcher, Glob, GlobSet};
///
/// let set = GlobSet::new([Glob::new("*.c")?, Glob::new("src/*")?])?;
/// let mut searcher = Searcher::new(&set);
/// assert_eq!(searcher.matches("src/a.c"), [0, 1]);
/// assert_eq!(searcher.matches("src/a.h"), [1]);
/// # Ok::<(), globset::Error>(())
/// ```
pub struct Searcher {
    set: GlobSet,
    /// There is none where the set has no globs.
    raw: Option<ffi::Searcher>,
}

impl Searcher {
    /// Makes a searcher of the set, which shares what the set matches with. It takes as much memory as the set takes for a
    /// thread.
    ///
    /// # Examples
    ///
    /// ```
    /// use globset::{ext::Searcher, Glob, GlobSet};
    ///
    /// let mut searcher = Searcher::new(&GlobSet::new([Glob::new("*.c")?])?);
    /// assert!(searcher.is_match("a.c"));
    /// # Ok::<(), globset::Error>(())
    /// ```
    pub fn new(set: &GlobSet) -> Searcher {
        Searcher { set: set.clone(), raw: set.raw().map(ffi::Set::searcher) }
    }

    /// The set.
    ///
    /// # Examples
    ///
    /// ```
    /// use globset::{ext::Searcher, GlobSet};
    ///
    /// assert!(Searcher::new(&GlobSet::empty()).set().is_empty());
    /// ```
    pub fn set(&self) -> &GlobSet {
        &self.set
    }

    /// Whether some glob matches the path.
    ///
    /// # Examples
    ///
    /// ```
    /// use globset::{ext::Searcher, Glob, GlobSet};
    ///
    /// let mut searcher = Searcher::new(&GlobSet::new([Glob::new("*.c")?])?);
    /// assert!(searcher.is_match("a.c") && !searcher.is_match("a.h"));
    /// # Ok::<(), globset::Error>(())
    /// ```
    pub fn is_match<P: AsRef<Path>>(&mut self, path: P) -> bool {
        self.is_match_candidate(&Candidate::new(path.as_ref()))
    }

    /// Whether some glob matches the path of the candidate.
    ///
    /// # Examples
    ///
    /// ```
    /// use globset::{ext::Searcher, Candidate, Glob, GlobSet};
    ///
    /// let mut searcher = Searcher::new(&GlobSet::new([Glob::new("*.c")?])?);
    /// assert!(searcher.is_match_candidate(&Candidate::new("a.c")));
    /// # Ok::<(), globset::Error>(())
    /// ```
    pub fn is_match_candidate(&mut self, path: &Candidate<'_>) -> bool {
        self.raw.as_mut().is_some_and(|searcher| searcher.is_match(path.path()))
    }

    /// Whether all globs match the path. So they do where there are none.
    ///
    /// # Examples
    ///
    /// ```
    /// use globset::{ext::Searcher, Glob, GlobSet};
    ///
    /// let mut searcher = Searcher::new(&GlobSet::new([Glob::new("*.c")?, Glob::new("src/*")?])?);
    /// assert!(searcher.matches_all("src/a.c") && !searcher.matches_all("a.c"));
    /// # Ok::<(), globset::Error>(())
    /// ```
    pub fn matches_all<P: AsRef<Path>>(&mut self, path: P) -> bool {
        self.matches_all_candidate(&Candidate::new(path.as_ref()))
    }

    /// Whether all globs match the path of the candidate. So they do where there are none.
    ///
    /// # Examples
    ///
    /// ```
    /// use globset::{ext::Searcher, Candidate, GlobSet};
    ///
    /// assert!(Searcher::new(&GlobSet::empty()).matches_all_candidate(&Candidate::new("a")));
    /// ```
    pub fn matches_all_candidate(&mut self, path: &Candidate<'_>) -> bool {
        self.raw.as_mut().map_or(true, |searcher| searcher.matches_all(path.path()))
    }

    /// The indexes of the globs that match the path, ascending. They stay in the searcher until its next call.
    ///
    /// # Examples
    ///
    /// ```
    /// use globset::{ext::Searcher, Glob, GlobSet};
    ///
    /// let mut searcher = Searcher::new(&GlobSet::new([Glob::new("*.c")?, Glob::new("a*")?])?);
    /// assert_eq!(searcher.matches("a.c"), [0, 1]);
    /// # Ok::<(), globset::Error>(())
    /// ```
    pub fn matches<P: AsRef<Path>>(&mut self, path: P) -> &[usize] {
        self.matches_candidate(&Candidate::new(path.as_ref()))
    }

    /// The indexes of the globs that match the path of the candidate, ascending. They stay in the searcher until its next call.
    ///
    /// # Examples
    ///
    /// ```
    /// use globset::{ext::Searcher, Candidate, Glob, GlobSet};
    ///
    /// let mut searcher = Searcher::new(&GlobSet::new([Glob::new("*.c")?])?);
    /// assert_eq!(searcher.matches_candidate(&Candidate::new("a.c")), [0]);
    /// # Ok::<(), globset::Error>(())
    /// ```
    pub fn matches_candidate(&mut self, path: &Candidate<'_>) -> &[usize] {
        self.raw.as_mut().map_or(&[], |searcher| searcher.matches(path.path()))
    }

    /// The indexes of the globs that match each path.
    ///
    /// # Examples
    ///
    /// ```
    /// use globset::{ext::Searcher, Glob, GlobSet};
    ///
    /// let mut searcher = Searcher::new(&GlobSet::new([Glob::new("*.c")?, Glob::new("a*")?])?);
    /// let found = searcher.matches_many(["a.c", "b.h"]);
    /// assert_eq!((found.get(0), found.get(1)), (Some(&[0, 1][..]), Some(&[][..])));
    /// # Ok::<(), globset::Error>(())
    /// ```
    pub fn matches_many<P, I>(&mut self, paths: I) -> Matches
    where
        P: AsRef<Path>,
        I: IntoIterator<Item = P>,
    {
        let (mut indexes, mut ends) = (Vec::new(), Vec::new());
        for path in paths {
            indexes.extend_from_slice(self.matches(path));
            ends.push(indexes.len());
        }
        Matches { indexes, ends }
    }

    /// Whether some glob matches some path below the directory: the directory, a `/`, and any bytes, perhaps none. A walk need
    /// not open a directory for which this is false.
    ///
    /// # Examples
    ///
    /// ```
    /// use globset::{ext::Searcher, Glob, GlobSet};
    ///
    /// let mut searcher = Searcher::new(&GlobSet::new([Glob::new("src/**")?])?);
    /// assert!(searcher.can_match_below("src/a") && !searcher.can_match_below("target"));
    /// # Ok::<(), globset::Error>(())
    /// ```
    pub fn can_match_below<P: AsRef<Path>>(&mut self, folder: P) -> bool {
        self.can_match_below_candidate(&Candidate::new(folder.as_ref()))
    }

    /// Whether some glob matches some path below the candidate's directory, as [`Searcher::can_match_below`].
    ///
    /// # Examples
    ///
    /// ```
    /// use globset::{ext::Searcher, Candidate, Glob, GlobSet};
    ///
    /// let mut searcher = Searcher::new(&GlobSet::new([Glob::new("src/*.c")?])?);
    /// assert!(!searcher.can_match_below_candidate(&Candidate::new("doc")));
    /// # Ok::<(), globset::Error>(())
    /// ```
    pub fn can_match_below_candidate(&mut self, folder: &Candidate<'_>) -> bool {
        self.raw.as_mut().is_some_and(|searcher| searcher.can_match_below(folder.path()))
    }
}

impl fmt::Debug for Searcher {
    fn fmt(&self, f: &mut fmt::Formatter<'_>) -> fmt::Result {
        f.debug_struct("Searcher").field("set", &self.set).finish_non_exhaustive()
    }
}
