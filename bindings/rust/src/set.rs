//! Sets of globs, and their builder.

use std::{fmt, path::Path, sync::Arc};

use crate::{ffi, Candidate, Error, Glob};

/// A set of globs, which are matched together. The index of a glob is its number in the order of their additions, from 0.
///
/// A set returns what its globs return one by one, with one exception: a case-sensitive glob that is read as `**/..` matches no
/// path in a set.
///
/// Any number of threads may share a set, and a clone shares what was made for matching. A set keeps memory for each thread
/// that calls it, from the thread's first call on: eight bytes for each glob, some for automata, and for their rows at most what
/// [`build_with_dfa_size_limit`](crate::ext::build_with_dfa_size_limit) allows. After a thread has ended, another uses its
/// memory. The last clone of the set frees all of it.
///
/// # Examples
///
/// ```
/// use globset::{Glob, GlobSet};
///
/// let set = GlobSet::new([Glob::new("*.rs")?, Glob::new("src/**")?, Glob::new("*.toml")?])?;
/// assert_eq!(set.matches("src/lib.rs"), [0, 1]);
/// # Ok::<(), globset::Error>(())
/// ```
#[derive(Clone)]
pub struct GlobSet {
    len: usize,
    /// There is none where the set has no globs.
    raw: Option<Arc<ffi::Set>>,
}

impl GlobSet {
    /// A builder without globs.
    ///
    /// # Examples
    ///
    /// ```
    /// use globset::{Glob, GlobSet};
    ///
    /// let set = GlobSet::builder().add(Glob::new("*.c")?).build()?;
    /// assert!(set.is_match("a.c"));
    /// # Ok::<(), globset::Error>(())
    /// ```
    #[inline]
    pub fn builder() -> GlobSetBuilder {
        GlobSetBuilder::new()
    }

    /// The set without globs. It takes no memory.
    ///
    /// # Examples
    ///
    /// ```
    /// use globset::GlobSet;
    ///
    /// static NONE: GlobSet = GlobSet::empty();
    /// assert!(!NONE.is_match("a"));
    /// ```
    #[inline]
    pub const fn empty() -> GlobSet {
        GlobSet { len: 0, raw: None }
    }

    /// Whether the set has no globs.
    ///
    /// # Examples
    ///
    /// ```
    /// use globset::GlobSet;
    ///
    /// assert!(GlobSet::empty().is_empty());
    /// ```
    #[inline]
    pub fn is_empty(&self) -> bool {
        self.len == 0
    }

    /// The number of globs.
    ///
    /// # Examples
    ///
    /// ```
    /// use globset::{Glob, GlobSet};
    ///
    /// assert_eq!(GlobSet::new([Glob::new("a")?, Glob::new("a")?])?.len(), 2);
    /// # Ok::<(), globset::Error>(())
    /// ```
    #[inline]
    pub fn len(&self) -> usize {
        self.len
    }

    /// Whether some glob matches the path.
    ///
    /// # Examples
    ///
    /// ```
    /// use globset::{Glob, GlobSet};
    ///
    /// let set = GlobSet::new([Glob::new("*.c")?, Glob::new("*.h")?])?;
    /// assert!(set.is_match("a.h") && !set.is_match("a.rs"));
    /// # Ok::<(), globset::Error>(())
    /// ```
    pub fn is_match<P: AsRef<Path>>(&self, path: P) -> bool {
        self.is_match_candidate(&Candidate::new(path.as_ref()))
    }

    /// Whether some glob matches the path of the candidate.
    ///
    /// # Examples
    ///
    /// ```
    /// use globset::{Candidate, Glob, GlobSet};
    ///
    /// let set = GlobSet::new([Glob::new("*.c")?])?;
    /// assert!(set.is_match_candidate(&Candidate::new("a.c")));
    /// # Ok::<(), globset::Error>(())
    /// ```
    #[inline]
    pub fn is_match_candidate(&self, path: &Candidate<'_>) -> bool {
        self.raw.as_ref().is_some_and(|set| set.is_match(path.path()))
    }

    /// Whether all globs match the path. So they do where there are none.
    ///
    /// # Examples
    ///
    /// ```
    /// use globset::{Glob, GlobSet};
    ///
    /// let set = GlobSet::new([Glob::new("*.c")?, Glob::new("src/*")?])?;
    /// assert!(set.matches_all("src/a.c") && !set.matches_all("a.c"));
    /// # Ok::<(), globset::Error>(())
    /// ```
    pub fn matches_all<P: AsRef<Path>>(&self, path: P) -> bool {
        self.matches_all_candidate(&Candidate::new(path.as_ref()))
    }

    /// Whether all globs match the path of the candidate. So they do where there are none.
    ///
    /// # Examples
    ///
    /// ```
    /// use globset::{Candidate, GlobSet};
    ///
    /// assert!(GlobSet::empty().matches_all_candidate(&Candidate::new("a")));
    /// ```
    pub fn matches_all_candidate(&self, path: &Candidate<'_>) -> bool {
        self.raw.as_ref().map_or(true, |set| set.matches_all(path.path()))
    }

    /// The indexes of the globs that match the path, ascending.
    ///
    /// # Examples
    ///
    /// ```
    /// use globset::{Glob, GlobSet};
    ///
    /// let set = GlobSet::new([Glob::new("*.c")?, Glob::new("*.h")?, Glob::new("a*")?])?;
    /// assert_eq!(set.matches("a.c"), [0, 2]);
    /// # Ok::<(), globset::Error>(())
    /// ```
    pub fn matches<P: AsRef<Path>>(&self, path: P) -> Vec<usize> {
        self.matches_candidate(&Candidate::new(path.as_ref()))
    }

    /// The indexes of the globs that match the path of the candidate, ascending.
    ///
    /// # Examples
    ///
    /// ```
    /// use globset::{Candidate, Glob, GlobSet};
    ///
    /// let set = GlobSet::new([Glob::new("*.c")?, Glob::new("**/a.*")?])?;
    /// assert_eq!(set.matches_candidate(&Candidate::new("src/a.h")), [1]);
    /// # Ok::<(), globset::Error>(())
    /// ```
    pub fn matches_candidate(&self, path: &Candidate<'_>) -> Vec<usize> {
        let mut into = Vec::new();
        self.matches_candidate_into(path, &mut into);
        into
    }

    /// Replaces what `into` has by the indexes of the globs that match the path, ascending.
    ///
    /// It takes memory only if `into` has too little room for them.
    ///
    /// # Examples
    ///
    /// ```
    /// use globset::{Glob, GlobSet};
    ///
    /// let set = GlobSet::new([Glob::new("*.c")?])?;
    /// let mut indexes = vec![7, 8, 9];
    /// set.matches_into("a.c", &mut indexes);
    /// assert_eq!(indexes, [0]);
    /// # Ok::<(), globset::Error>(())
    /// ```
    pub fn matches_into<P: AsRef<Path>>(&self, path: P, into: &mut Vec<usize>) {
        self.matches_candidate_into(&Candidate::new(path.as_ref()), into);
    }

    /// Replaces what `into` has by the indexes of the globs that match the path of the candidate, ascending.
    ///
    /// It takes memory only if `into` has too little room for them.
    ///
    /// # Examples
    ///
    /// ```
    /// use globset::{Candidate, Glob, GlobSet};
    ///
    /// let set = GlobSet::new([Glob::new("*.c")?])?;
    /// let mut indexes = vec![7];
    /// set.matches_candidate_into(&Candidate::new("a.h"), &mut indexes);
    /// assert!(indexes.is_empty());
    /// # Ok::<(), globset::Error>(())
    /// ```
    pub fn matches_candidate_into(&self, path: &Candidate<'_>, into: &mut Vec<usize>) {
        into.clear();
        match &self.raw {
            // Whether some glob matches is told faster than which ones do.
            Some(_) if self.len == 1 => into.extend(self.is_match_candidate(path).then_some(0)),
            Some(set) => set.matches(path.path(), into),
            None => {}
        }
    }

    #[inline]
    pub(crate) fn raw(&self) -> Option<&ffi::Set> {
        self.raw.as_deref()
    }

    /// Makes the set of globs, in their order.
    ///
    /// # Errors
    ///
    /// None: the `Result` is that of the crate that this one replaces.
    ///
    /// # Examples
    ///
    /// ```
    /// use globset::{Glob, GlobSet};
    ///
    /// let globs = ["*.c", "*.h"].iter().map(|text| Glob::new(text)).collect::<Result<Vec<_>, _>>()?;
    /// assert_eq!(GlobSet::new(&globs)?.matches("a.h"), [1]);
    /// # Ok::<(), globset::Error>(())
    /// ```
    pub fn new<I, G>(globs: I) -> Result<GlobSet, Error>
    where
        I: IntoIterator<Item = G>,
        G: AsRef<Glob>,
    {
        // All are kept until the set is made, which reads them where they are.
        let globs: Vec<G> = globs.into_iter().collect();
        if globs.is_empty() {
            return Ok(GlobSet::empty());
        }
        let raw = ffi::Set::of_globs(globs.iter().map(|glob| glob.as_ref().raw()));
        Ok(GlobSet { len: globs.len(), raw: Some(Arc::new(raw)) })
    }

    /// The set of globs, of which at most so many bytes of rows are kept.
    fn with_limit(globs: &[Glob], dfa_size_limit: usize) -> GlobSet {
        if globs.is_empty() {
            return GlobSet::empty();
        }
        let mut builder = ffi::Builder::new();
        builder.set_dfa_size_limit(dfa_size_limit);
        for glob in globs {
            builder.add(glob.raw());
        }
        GlobSet { len: globs.len(), raw: Some(Arc::new(builder.build())) }
    }
}

impl Default for GlobSet {
    fn default() -> GlobSet {
        GlobSet::empty()
    }
}

impl fmt::Debug for GlobSet {
    fn fmt(&self, f: &mut fmt::Formatter<'_>) -> fmt::Result {
        f.debug_struct("GlobSet").field("len", &self.len).finish_non_exhaustive()
    }
}

/// Collects the globs of a set.
///
/// # Examples
///
/// ```
/// use globset::{Glob, GlobSetBuilder};
///
/// let mut builder = GlobSetBuilder::new();
/// builder.add(Glob::new("*.c")?);
/// builder.add(Glob::new("*.h")?);
/// assert_eq!(builder.build()?.matches("a.h"), [1]);
/// # Ok::<(), globset::Error>(())
/// ```
#[derive(Clone, Debug, Default)]
pub struct GlobSetBuilder {
    pats: Vec<Glob>,
}

impl GlobSetBuilder {
    /// A builder without globs.
    ///
    /// # Examples
    ///
    /// ```
    /// use globset::GlobSetBuilder;
    ///
    /// assert!(GlobSetBuilder::new().build()?.is_empty());
    /// # Ok::<(), globset::Error>(())
    /// ```
    pub fn new() -> GlobSetBuilder {
        GlobSetBuilder { pats: Vec::new() }
    }

    /// Makes the set of the globs that were added, in their order. The builder keeps them.
    ///
    /// # Errors
    ///
    /// None: the `Result` is that of the crate that this one replaces.
    ///
    /// # Examples
    ///
    /// ```
    /// use globset::{Glob, GlobSetBuilder};
    ///
    /// let mut builder = GlobSetBuilder::new();
    /// let one = builder.add(Glob::new("a")?).build()?;
    /// let two = builder.add(Glob::new("b")?).build()?;
    /// assert_eq!((one.len(), two.len()), (1, 2));
    /// # Ok::<(), globset::Error>(())
    /// ```
    pub fn build(&self) -> Result<GlobSet, Error> {
        GlobSet::new(&self.pats)
    }

    pub(crate) fn build_with_limit(&self, dfa_size_limit: usize) -> GlobSet {
        GlobSet::with_limit(&self.pats, dfa_size_limit)
    }

    /// Adds a glob after those that the builder has.
    ///
    /// # Examples
    ///
    /// ```
    /// use globset::{Glob, GlobSetBuilder};
    ///
    /// let set = GlobSetBuilder::new().add(Glob::new("a")?).add(Glob::new("b")?).build()?;
    /// assert_eq!(set.matches("b"), [1]);
    /// # Ok::<(), globset::Error>(())
    /// ```
    pub fn add(&mut self, pat: Glob) -> &mut GlobSetBuilder {
        self.pats.push(pat);
        self
    }
}
