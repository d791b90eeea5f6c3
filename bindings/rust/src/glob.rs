//! One glob: its builder, the glob, and its matcher.

use std::{
    fmt,
    hash::{Hash, Hasher},
    path::Path,
    str::FromStr,
    sync::{Arc, OnceLock},
};

use crate::{
    ffi::{self, options, ParseErrorKind},
    Candidate, Error, ErrorKind,
};

/// A glob: a text that was read as a pattern for paths, with the options under which it was read.
///
/// Two globs are equal if their texts and their options are. A clone shares what was read, and takes no memory.
///
/// # Examples
///
/// ```
/// use globset::Glob;
///
/// let glob = Glob::new("src/**/*.rs")?;
/// let matcher = glob.compile_matcher();
/// assert!(matcher.is_match("src/a/b.rs"));
/// assert!(!matcher.is_match("lib/a.rs"));
/// # Ok::<(), globset::Error>(())
/// ```
#[derive(Clone)]
pub struct Glob(Arc<Read>);

/// A text that was read.
struct Read {
    text: String,
    options: u32,
    /// Made when it is asked for.
    regex: OnceLock<String>,
    raw: ffi::Glob,
}

impl Glob {
    /// Reads a text under the default options.
    ///
    /// # Errors
    ///
    /// The first error in the text, if it is no glob.
    ///
    /// # Examples
    ///
    /// ```
    /// use globset::Glob;
    ///
    /// assert!(Glob::new("*.{c,h}").is_ok());
    /// assert!(Glob::new("*.{c,h").is_err());
    /// ```
    pub fn new(glob: &str) -> Result<Glob, Error> {
        GlobBuilder::new(glob).build()
    }

    /// Makes a matcher of this glob alone.
    ///
    /// # Examples
    ///
    /// ```
    /// use globset::Glob;
    ///
    /// let matcher = Glob::new("a?c")?.compile_matcher();
    /// assert!(matcher.is_match("abc"));
    /// # Ok::<(), globset::Error>(())
    /// ```
    pub fn compile_matcher(&self) -> GlobMatcher {
        let raw = Arc::new(ffi::Matcher::new(&self.0.raw));
        GlobMatcher { pat: self.clone(), raw }
    }

    /// The text that was read.
    ///
    /// # Examples
    ///
    /// ```
    /// use globset::Glob;
    ///
    /// assert_eq!(Glob::new("*.rs")?.glob(), "*.rs");
    /// # Ok::<(), globset::Error>(())
    /// ```
    pub fn glob(&self) -> &str {
        &self.0.text
    }

    /// A regular expression over bytes that matches exactly the paths that the glob matches.
    ///
    /// Its `.` stands for any byte, a line feed too, which most engines have to be told. It is made by the first call, and
    /// kept.
    ///
    /// # Examples
    ///
    /// ```
    /// use globset::Glob;
    ///
    /// assert_eq!(Glob::new("*.rs")?.regex(), r"(?-u)^.*\.rs$");
    /// # Ok::<(), globset::Error>(())
    /// ```
    pub fn regex(&self) -> &str {
        self.0.regex.get_or_init(|| self.0.raw.regex())
    }

    pub(crate) fn raw(&self) -> &ffi::Glob {
        &self.0.raw
    }
}

impl AsRef<Glob> for Glob {
    fn as_ref(&self) -> &Glob {
        self
    }
}

impl Eq for Glob {}

impl PartialEq for Glob {
    fn eq(&self, other: &Glob) -> bool {
        self.0.text == other.0.text && self.0.options == other.0.options
    }
}

impl Hash for Glob {
    fn hash<H: Hasher>(&self, state: &mut H) {
        self.0.text.hash(state);
        self.0.options.hash(state);
    }
}

impl fmt::Debug for Glob {
    fn fmt(&self, f: &mut fmt::Formatter<'_>) -> fmt::Result {
        if f.alternate() {
            let (glob, options) = (&self.0.text, Options(self.0.options));
            f.debug_struct("Glob").field("glob", glob).field("re", &self.regex()).field("opts", &options).finish()
        } else {
            f.debug_tuple("Glob").field(&self.0.text).finish()
        }
    }
}

impl fmt::Display for Glob {
    fn fmt(&self, f: &mut fmt::Formatter<'_>) -> fmt::Result {
        self.0.text.fmt(f)
    }
}

impl FromStr for Glob {
    type Err = Error;

    fn from_str(glob: &str) -> Result<Glob, Error> {
        Glob::new(glob)
    }
}

/// Reads a glob under options.
///
/// # Examples
///
/// ```
/// use globset::GlobBuilder;
///
/// let glob = GlobBuilder::new("*.rs").literal_separator(true).case_insensitive(true).build()?;
/// let matcher = glob.compile_matcher();
/// assert!(matcher.is_match("LIB.RS"));
/// assert!(!matcher.is_match("src/lib.rs"));
/// # Ok::<(), globset::Error>(())
/// ```
#[derive(Clone)]
pub struct GlobBuilder<'a> {
    glob: &'a str,
    options: u32,
}

impl<'a> GlobBuilder<'a> {
    /// A builder for this text, with the default options: `\` escapes, and all else is off.
    ///
    /// # Examples
    ///
    /// ```
    /// use globset::{Glob, GlobBuilder};
    ///
    /// assert_eq!(GlobBuilder::new("*.rs").build(), Glob::new("*.rs"));
    /// ```
    pub fn new(glob: &'a str) -> GlobBuilder<'a> {
        GlobBuilder { glob, options: 0 }
    }

    /// Reads the text under the options. The builder can be used on.
    ///
    /// # Errors
    ///
    /// The first error in the text, if it is no glob under these options.
    ///
    /// # Examples
    ///
    /// ```
    /// use globset::GlobBuilder;
    ///
    /// assert!(GlobBuilder::new("a[").build().is_err());
    /// assert!(GlobBuilder::new("a[").allow_unclosed_class(true).build().is_ok());
    /// ```
    pub fn build(&self) -> Result<Glob, Error> {
        let raw = ffi::Glob::new(self.glob, self.options)
            .map_err(|error| Error::new(self.glob, error.kind.into(), error.offset))?;
        let (text, options, regex) = (self.glob.to_string(), self.options, OnceLock::new());
        Ok(Glob(Arc::new(Read { text, options, regex, raw })))
    }

    fn set(&mut self, option: u32, yes: bool) -> &mut GlobBuilder<'a> {
        self.options = if yes { self.options | option } else { self.options & !option };
        self
    }

    /// Whether ASCII letters match in both cases. Off by default.
    ///
    /// # Examples
    ///
    /// ```
    /// use globset::GlobBuilder;
    ///
    /// let glob = GlobBuilder::new("readme*").case_insensitive(true).build()?;
    /// assert!(glob.compile_matcher().is_match("README.md"));
    /// # Ok::<(), globset::Error>(())
    /// ```
    pub fn case_insensitive(&mut self, yes: bool) -> &mut GlobBuilder<'a> {
        self.set(options::CASE_INSENSITIVE, yes)
    }

    /// Whether `?` and `*` leave out `/`. Off by default. Classes and `**/` are as they were.
    ///
    /// # Examples
    ///
    /// ```
    /// use globset::GlobBuilder;
    ///
    /// let glob = GlobBuilder::new("src/*.rs").literal_separator(true).build()?;
    /// assert!(glob.compile_matcher().is_match("src/lib.rs"));
    /// assert!(!glob.compile_matcher().is_match("src/bin/main.rs"));
    /// # Ok::<(), globset::Error>(())
    /// ```
    pub fn literal_separator(&mut self, yes: bool) -> &mut GlobBuilder<'a> {
        self.set(options::LITERAL_SEPARATOR, yes)
    }

    /// Whether `\` makes the character after it plain. On by default. While it is off, `\` stands for itself.
    ///
    /// # Examples
    ///
    /// ```
    /// use globset::GlobBuilder;
    ///
    /// let escapes = GlobBuilder::new(r"\*").build()?;
    /// assert!(escapes.compile_matcher().is_match("*"));
    /// let plain = GlobBuilder::new(r"\*").backslash_escape(false).build()?;
    /// assert!(plain.compile_matcher().is_match(r"\a"));
    /// # Ok::<(), globset::Error>(())
    /// ```
    pub fn backslash_escape(&mut self, yes: bool) -> &mut GlobBuilder<'a> {
        self.set(options::NO_BACKSLASH_ESCAPE, !yes)
    }

    /// Whether empty branches in braces count. Off by default, which leaves them out.
    ///
    /// # Examples
    ///
    /// ```
    /// use globset::GlobBuilder;
    ///
    /// let glob = GlobBuilder::new("notes{,.txt}").empty_alternates(true).build()?;
    /// assert!(glob.compile_matcher().is_match("notes"));
    /// # Ok::<(), globset::Error>(())
    /// ```
    pub fn empty_alternates(&mut self, yes: bool) -> &mut GlobBuilder<'a> {
        self.set(options::EMPTY_ALTERNATES, yes)
    }

    /// Whether a `[` that no `]` closes stands for itself. Off by default, when it is an error.
    ///
    /// # Examples
    ///
    /// ```
    /// use globset::GlobBuilder;
    ///
    /// let glob = GlobBuilder::new("a[b").allow_unclosed_class(true).build()?;
    /// assert!(glob.compile_matcher().is_match("a[b"));
    /// # Ok::<(), globset::Error>(())
    /// ```
    pub fn allow_unclosed_class(&mut self, yes: bool) -> &mut GlobBuilder<'a> {
        self.set(options::ALLOW_UNCLOSED_CLASS, yes)
    }

    /// Whether `?` takes a whole character in UTF-8 in place of one byte. Off by default.
    ///
    /// The crate globset does not have this option.
    ///
    /// # Examples
    ///
    /// ```
    /// use globset::GlobBuilder;
    ///
    /// let glob = GlobBuilder::new("?.txt").whole_character(true).build()?;
    /// assert!(glob.compile_matcher().is_match("é.txt"));
    /// # Ok::<(), globset::Error>(())
    /// ```
    pub fn whole_character(&mut self, yes: bool) -> &mut GlobBuilder<'a> {
        self.set(options::WHOLE_CHARACTER, yes)
    }
}

impl fmt::Debug for GlobBuilder<'_> {
    fn fmt(&self, f: &mut fmt::Formatter<'_>) -> fmt::Result {
        f.debug_struct("GlobBuilder").field("glob", &self.glob).field("opts", &Options(self.options)).finish()
    }
}

/// Shows options by their names.
struct Options(u32);

impl fmt::Debug for Options {
    fn fmt(&self, f: &mut fmt::Formatter<'_>) -> fmt::Result {
        let is_on = |option| self.0 & option != 0;
        f.debug_struct("GlobOptions")
            .field("case_insensitive", &is_on(options::CASE_INSENSITIVE))
            .field("literal_separator", &is_on(options::LITERAL_SEPARATOR))
            .field("backslash_escape", &!is_on(options::NO_BACKSLASH_ESCAPE))
            .field("empty_alternates", &is_on(options::EMPTY_ALTERNATES))
            .field("allow_unclosed_class", &is_on(options::ALLOW_UNCLOSED_CLASS))
            .field("whole_character", &is_on(options::WHOLE_CHARACTER))
            .finish()
    }
}

impl From<ParseErrorKind> for ErrorKind {
    fn from(kind: ParseErrorKind) -> ErrorKind {
        match kind {
            ParseErrorKind::UnclosedClass => ErrorKind::UnclosedClass,
            ParseErrorKind::InvalidRange(start, end) => ErrorKind::InvalidRange(start, end),
            ParseErrorKind::UnopenedAlternates => ErrorKind::UnopenedAlternates,
            ParseErrorKind::UnclosedAlternates => ErrorKind::UnclosedAlternates,
            ParseErrorKind::DanglingEscape => ErrorKind::DanglingEscape,
        }
    }
}

/// Matches one glob. Any number of threads may share a matcher, and a clone shares what was made for matching.
///
/// # Examples
///
/// ```
/// use globset::Glob;
///
/// let matcher = Glob::new("*.{png,jpg}")?.compile_matcher();
/// assert!(matcher.is_match("img/a.png"));
/// assert_eq!(matcher.glob().glob(), "*.{png,jpg}");
/// # Ok::<(), globset::Error>(())
/// ```
#[derive(Clone)]
pub struct GlobMatcher {
    pat: Glob,
    raw: Arc<ffi::Matcher>,
}

impl GlobMatcher {
    /// Whether the glob matches the path.
    ///
    /// # Examples
    ///
    /// ```
    /// use std::path::Path;
    /// use globset::Glob;
    ///
    /// let matcher = Glob::new("**/target")?.compile_matcher();
    /// assert!(matcher.is_match(Path::new("a/target")));
    /// # Ok::<(), globset::Error>(())
    /// ```
    pub fn is_match<P: AsRef<Path>>(&self, path: P) -> bool {
        self.is_match_candidate(&Candidate::new(path.as_ref()))
    }

    /// Whether the glob matches the path of the candidate.
    ///
    /// # Examples
    ///
    /// ```
    /// use globset::{Candidate, Glob};
    ///
    /// let matcher = Glob::new("*.bin")?.compile_matcher();
    /// assert!(matcher.is_match_candidate(&Candidate::from_bytes(b"\xff.bin")));
    /// # Ok::<(), globset::Error>(())
    /// ```
    pub fn is_match_candidate(&self, path: &Candidate<'_>) -> bool {
        self.raw.is_match(path.path())
    }

    /// The glob that is matched.
    ///
    /// # Examples
    ///
    /// ```
    /// use globset::Glob;
    ///
    /// let glob = Glob::new("*.rs")?;
    /// assert_eq!(glob.compile_matcher().glob(), &glob);
    /// # Ok::<(), globset::Error>(())
    /// ```
    pub fn glob(&self) -> &Glob {
        &self.pat
    }
}

impl fmt::Debug for GlobMatcher {
    fn fmt(&self, f: &mut fmt::Formatter<'_>) -> fmt::Result {
        f.debug_struct("GlobMatcher").field("pat", &self.pat).finish_non_exhaustive()
    }
}
