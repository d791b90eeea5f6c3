//! Paths to be matched.

use std::{fmt, os::unix::ffi::OsStrExt, path::Path};

/// A path to be matched: the bytes that it was made of, UTF-8 or not. They are borrowed, so a candidate takes no memory.
///
/// # Examples
///
/// ```
/// use globset::{Candidate, Glob, GlobSet};
///
/// let rust = GlobSet::new([Glob::new("*.rs")?])?;
/// let sources = GlobSet::new([Glob::new("src/**")?])?;
/// let path = Candidate::new("src/lib.rs");
/// assert!(rust.is_match_candidate(&path) && sources.is_match_candidate(&path));
/// # Ok::<(), globset::Error>(())
/// ```
#[derive(Clone)]
pub struct Candidate<'a> {
    path: &'a [u8],
}

impl<'a> Candidate<'a> {
    /// The candidate for a path.
    ///
    /// # Examples
    ///
    /// ```
    /// use std::path::PathBuf;
    /// use globset::{Candidate, Glob};
    ///
    /// let path = PathBuf::from("a/b.c");
    /// assert!(Glob::new("a/*")?.compile_matcher().is_match_candidate(&Candidate::new(&path)));
    /// # Ok::<(), globset::Error>(())
    /// ```
    pub fn new<P: AsRef<Path> + ?Sized>(path: &'a P) -> Candidate<'a> {
        Candidate { path: path.as_ref().as_os_str().as_bytes() }
    }

    /// The candidate for a path that is given as bytes.
    ///
    /// # Examples
    ///
    /// ```
    /// use globset::{Candidate, Glob};
    ///
    /// let matcher = Glob::new("[é]")?.compile_matcher();
    /// assert!(matcher.is_match_candidate(&Candidate::from_bytes(&[0xc3])));
    /// # Ok::<(), globset::Error>(())
    /// ```
    pub fn from_bytes<P: AsRef<[u8]> + ?Sized>(path: &'a P) -> Candidate<'a> {
        Candidate { path: path.as_ref() }
    }

    #[inline]
    pub(crate) fn path(&self) -> &'a [u8] {
        self.path
    }

    /// What follows the last `/`; nothing if that is `..`.
    fn basename(&self) -> &'a [u8] {
        let start = self.path.iter().rposition(|&byte| byte == b'/').map_or(0, |slash| slash + 1);
        match &self.path[start..] {
            b".." => &[],
            basename => basename,
        }
    }

    /// The basename from its last `.` on; nothing without one.
    fn ext(&self) -> &'a [u8] {
        let basename = self.basename();
        basename.iter().rposition(|&byte| byte == b'.').map_or(&[], |dot| &basename[dot..])
    }
}

impl fmt::Debug for Candidate<'_> {
    fn fmt(&self, f: &mut fmt::Formatter<'_>) -> fmt::Result {
        f.debug_struct("Candidate")
            .field("path", &Bytes(self.path))
            .field("basename", &Bytes(self.basename()))
            .field("ext", &Bytes(self.ext()))
            .finish()
    }
}

/// Shows bytes as a text, with `\x` and two digits for each byte that is not UTF-8.
struct Bytes<'a>(&'a [u8]);

impl fmt::Debug for Bytes<'_> {
    fn fmt(&self, f: &mut fmt::Formatter<'_>) -> fmt::Result {
        f.write_str("\"")?;
        let mut rest = self.0;
        while !rest.is_empty() {
            let (text, after) = match std::str::from_utf8(rest) {
                Ok(text) => (text, &rest[rest.len()..]),
                Err(error) => {
                    let (valid, after) = rest.split_at(error.valid_up_to());
                    (std::str::from_utf8(valid).map_err(|_| fmt::Error)?, after)
                }
            };
            write!(f, "{}", text.escape_debug())?;
            rest = after;
            if let Some((byte, after)) = rest.split_first() {
                write!(f, "\\x{byte:02X}")?;
                rest = after;
            }
        }
        f.write_str("\"")
    }
}

#[cfg(test)]
mod tests {
    use super::*;

    #[test]
    fn a_candidate_shows_its_path_and_its_parts() {
        let rows = [
            ("a/b.rs", r#"Candidate { path: "a/b.rs", basename: "b.rs", ext: ".rs" }"#),
            ("..rs", r#"Candidate { path: "..rs", basename: "..rs", ext: ".rs" }"#),
            (".rs", r#"Candidate { path: ".rs", basename: ".rs", ext: ".rs" }"#),
            ("a/foo", r#"Candidate { path: "a/foo", basename: "foo", ext: "" }"#),
            ("a/.", r#"Candidate { path: "a/.", basename: ".", ext: "." }"#),
            ("a/..", r#"Candidate { path: "a/..", basename: "", ext: "" }"#),
            ("a/", r#"Candidate { path: "a/", basename: "", ext: "" }"#),
            ("", r#"Candidate { path: "", basename: "", ext: "" }"#),
        ];
        for (path, shown) in rows {
            assert_eq!(format!("{:?}", Candidate::new(path)), shown);
        }
    }

    #[test]
    fn bytes_that_are_not_utf8_are_shown_by_number() {
        let rows: [(&[u8], &str); 4] = [
            (b"a\xffb", r#""a\xFFb""#),
            ("é\"".as_bytes(), r#""é\"""#),
            (b"\xc3", r#""\xC3""#),
            (b"\xff\xfe", r#""\xFF\xFE""#),
        ];
        for (bytes, shown) in rows {
            assert_eq!(format!("{:?}", Bytes(bytes)), shown);
        }
    }
}
