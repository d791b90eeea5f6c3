//! Why a text is no glob.

use std::fmt;

/// Why a text is no glob: the [kind](ErrorKind) of the first error in it, and the text itself.
///
/// # Examples
///
/// ```
/// use globset::{ErrorKind, Glob};
///
/// let error = Glob::new("src/[a-z").unwrap_err();
/// assert_eq!(error.kind(), &ErrorKind::UnclosedClass);
/// assert_eq!(error.to_string(), "error parsing glob 'src/[a-z': unclosed character class; missing ']'");
/// ```
#[derive(Clone)]
pub struct Error {
    glob: Option<String>,
    kind: ErrorKind,
    /// Shown by [`ext::offset`](crate::ext::offset) alone: the crate that this one replaces does not have it.
    offset: usize,
}

impl Error {
    pub(crate) fn new(glob: &str, kind: ErrorKind, offset: usize) -> Error {
        Error { glob: Some(glob.to_string()), kind, offset }
    }

    pub(crate) fn offset(&self) -> usize {
        self.offset
    }

    /// The text that is no glob.
    ///
    /// # Examples
    ///
    /// ```
    /// use globset::Glob;
    ///
    /// assert_eq!(Glob::new("{a,b").unwrap_err().glob(), Some("{a,b"));
    /// ```
    pub fn glob(&self) -> Option<&str> {
        self.glob.as_deref()
    }

    /// What is wrong with the text.
    ///
    /// # Examples
    ///
    /// ```
    /// use globset::{ErrorKind, Glob};
    ///
    /// assert_eq!(Glob::new("[z-a]").unwrap_err().kind(), &ErrorKind::InvalidRange('z', 'a'));
    /// ```
    pub fn kind(&self) -> &ErrorKind {
        &self.kind
    }
}

impl Eq for Error {}

impl PartialEq for Error {
    fn eq(&self, other: &Error) -> bool {
        self.glob == other.glob && self.kind == other.kind
    }
}

impl fmt::Debug for Error {
    fn fmt(&self, f: &mut fmt::Formatter<'_>) -> fmt::Result {
        f.debug_struct("Error").field("glob", &self.glob).field("kind", &self.kind).finish()
    }
}

impl std::error::Error for Error {
    fn description(&self) -> &str {
        self.kind.description()
    }
}

impl fmt::Display for Error {
    fn fmt(&self, f: &mut fmt::Formatter<'_>) -> fmt::Result {
        match &self.glob {
            Some(glob) => write!(f, "error parsing glob '{}': {}", glob, self.kind),
            None => self.kind.fmt(f),
        }
    }
}

/// What is wrong with a text that is no glob.
///
/// [`UnclosedClass`](ErrorKind::UnclosedClass), [`InvalidRange`](ErrorKind::InvalidRange),
/// [`UnopenedAlternates`](ErrorKind::UnopenedAlternates), [`UnclosedAlternates`](ErrorKind::UnclosedAlternates) and
/// [`DanglingEscape`](ErrorKind::DanglingEscape) occur. The others are here because the crate that this one replaces has them.
///
/// # Examples
///
/// ```
/// use globset::{ErrorKind, Glob};
///
/// let kind = |text| Glob::new(text).unwrap_err().kind().clone();
/// assert_eq!(kind("a}"), ErrorKind::UnopenedAlternates);
/// assert_eq!(kind("a\\"), ErrorKind::DanglingEscape);
/// assert_eq!(kind("[b-a]").to_string(), "invalid range; 'b' > 'a'");
/// ```
#[derive(Clone, Debug, Eq, PartialEq)]
#[non_exhaustive]
pub enum ErrorKind {
    /// Never occurs: every use of `**` is accepted.
    InvalidRecursive,
    /// A `[` that no `]` closes, while
    /// [`allow_unclosed_class`](crate::GlobBuilder::allow_unclosed_class) is off.
    UnclosedClass,
    /// A range in a class whose first character is above its last one, as in `[z-a]`. It has both characters.
    InvalidRange(char, char),
    /// A `}` without a `{` before it.
    UnopenedAlternates,
    /// A `{` that no `}` closes.
    UnclosedAlternates,
    /// Never occurs: braces may stand in braces.
    NestedAlternates,
    /// A `\` at the end of the text, with nothing to escape.
    DanglingEscape,
    /// Never occurs: no regular expression engine is used.
    Regex(String),
}

impl ErrorKind {
    fn description(&self) -> &str {
        match self {
            ErrorKind::InvalidRecursive => "invalid use of **; must be one path component",
            ErrorKind::UnclosedClass => "unclosed character class; missing ']'",
            ErrorKind::InvalidRange(..) => "invalid character range",
            ErrorKind::UnopenedAlternates => "unopened alternate group; missing '{' (maybe escape '}' with '[}]'?)",
            ErrorKind::UnclosedAlternates => "unclosed alternate group; missing '}' (maybe escape '{' with '[{]'?)",
            ErrorKind::NestedAlternates => "nested alternate groups are not allowed",
            ErrorKind::DanglingEscape => "dangling '\\'",
            ErrorKind::Regex(text) => text,
        }
    }
}

impl fmt::Display for ErrorKind {
    fn fmt(&self, f: &mut fmt::Formatter<'_>) -> fmt::Result {
        match self {
            ErrorKind::InvalidRange(start, end) => write!(f, "invalid range; '{start}' > '{end}'"),
            _ => f.write_str(self.description()),
        }
    }
}

#[cfg(test)]
mod tests {
    use super::*;

    fn kinds() -> Vec<(ErrorKind, &'static str)> {
        vec![
            (ErrorKind::InvalidRecursive, "invalid use of **; must be one path component"),
            (ErrorKind::UnclosedClass, "unclosed character class; missing ']'"),
            (ErrorKind::InvalidRange('ü', 'é'), "invalid range; 'ü' > 'é'"),
            (ErrorKind::UnopenedAlternates, "unopened alternate group; missing '{' (maybe escape '}' with '[}]'?)"),
            (ErrorKind::UnclosedAlternates, "unclosed alternate group; missing '}' (maybe escape '{' with '[{]'?)"),
            (ErrorKind::NestedAlternates, "nested alternate groups are not allowed"),
            (ErrorKind::DanglingEscape, "dangling '\\'"),
            (ErrorKind::Regex("too large".to_string()), "too large"),
        ]
    }

    #[test]
    fn each_kind_has_its_text() {
        for (kind, text) in kinds() {
            assert_eq!(kind.to_string(), text);
        }
    }

    #[test]
    fn an_error_shows_its_glob_where_it_has_one() {
        for (kind, text) in kinds() {
            assert_eq!(Error::new("a", kind.clone(), 0).to_string(), format!("error parsing glob 'a': {text}"));
            assert_eq!(Error { glob: None, kind, offset: 0 }.to_string(), text);
        }
    }

    #[test]
    fn offsets_are_not_compared_or_shown() {
        let [error, other] = [0, 1].map(|offset| Error::new("a", ErrorKind::UnclosedClass, offset));
        assert_eq!(error, other);
        assert_eq!(format!("{error:?}"), format!("{other:?}"));
    }

    #[test]
    #[allow(deprecated)]
    fn an_error_is_described_by_its_kind() {
        use std::error::Error as _;

        let error = Error::new("a\\", ErrorKind::DanglingEscape, 1);
        assert_eq!((error.description(), error.source().is_none()), ("dangling '\\'", true));
        let range = Error::new("[b-a]", ErrorKind::InvalidRange('b', 'a'), 0);
        assert_eq!(range.description(), "invalid character range");
    }
}
