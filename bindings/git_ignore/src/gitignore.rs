//! Matchers of ignore files.
//!
//! A [`GitignoreBuilder`] takes files and lines, and makes a [`Gitignore`]. The rules stand in the order in which they were added,
//! and the last one that matches a path decides about it. Which rules count for a path below a directory depends on the call:
//!
//! | Call | What decides |
//! |---|---|
//! | [`Gitignore::matched`] | the path alone: no directory above it counts |
//! | [`Gitignore::matched_path_or_any_parents`] | the path, or else the nearest directory above it about which a rule decides |
//! | [`Gitignore::matched_by_git`] | git's rule: everything below an ignored directory is ignored, and no rule keeps it |

use std::{
    borrow::Cow,
    ffi::OsString,
    fmt, fs,
    os::unix::ffi::{OsStrExt, OsStringExt},
    path::{Component, Path, PathBuf},
    sync::{Arc, Mutex, MutexGuard, PoisonError},
};

use globset::{
    ignore::{self, By, IgnoreStack},
    relations::Domain,
};

use crate::{
    line::{self, Parts},
    Error, Match, Reachability,
};

/// A rule: a line of an ignore file that has a pattern.
#[derive(Clone, Debug)]
pub struct Glob {
    from: Option<PathBuf>,
    original: String,
    actual: String,
    is_whitelist: bool,
    is_only_dir: bool,
}

/// A matcher of ignore files, for paths below its root. A clone is one more reference.
///
/// Calls can be made from any thread, and are answered one at a time. Time is a pass over the path for all rules; two of the calls,
/// [`Gitignore::matched_path_or_any_parents`] and [`Gitignore::matched_by_git`], take at most such a pass for each directory that the
/// path names, too, if a rule matches one of them. Running out of memory ends the program.
#[derive(Clone)]
pub struct Gitignore {
    root: PathBuf,
    /// The root in the form that git has.
    plain_root: PathBuf,
    rules: Arc<Rules>,
}

/// The rules of a matcher, in the order in which they were added.
struct Rules {
    /// Its only file has the rules as its lines, after an empty line.
    stack: Mutex<IgnoreStack>,
    globs: Vec<Glob>,
}

/// Takes ignore files and lines, and makes a [`Gitignore`].
#[derive(Clone, Debug)]
pub struct GitignoreBuilder {
    root: PathBuf,
    /// The lines of the rules, each with a line feed before it.
    text: Vec<u8>,
    globs: Vec<Glob>,
    ignores_case: bool,
}

impl Glob {
    fn new(from: Option<&Path>, text: &[u8], parts: &Parts<'_>) -> Glob {
        let pattern = String::from_utf8_lossy(parts.pattern);
        Glob {
            from: from.map(Path::to_path_buf),
            original: String::from_utf8_lossy(text).into_owned(),
            actual: if parts.is_whole { pattern.into_owned() } else { format!("**/{pattern}") },
            is_whitelist: parts.is_whitelist,
            is_only_dir: parts.is_only_dir,
        }
    }

    /// The file that the line is from, if it was said.
    pub fn from(&self) -> Option<&Path> {
        self.from.as_deref()
    }

    /// The line, without what git removes at its end. Bytes that are not UTF-8 are replacement characters.
    pub fn original(&self) -> &str {
        &self.original
    }

    /// The pattern as it is matched against whole paths from the root: without `!`, without a `/` at its start and its end, and
    /// after `**/` if it is matched against the last component.
    pub fn actual(&self) -> &str {
        &self.actual
    }

    /// Whether the line begins with `!`, so that it keeps what it matches.
    pub fn is_whitelist(&self) -> bool {
        self.is_whitelist
    }

    /// Whether the pattern is for directories alone.
    pub fn is_only_dir(&self) -> bool {
        self.is_only_dir
    }
}

impl Rules {
    /// The walk. A call that ended in a panic left it in its top directory.
    fn stack(&self) -> MutexGuard<'_, IgnoreStack> {
        self.stack.lock().unwrap_or_else(PoisonError::into_inner)
    }

    /// The rule of a line of the file. The first rule is on the second line.
    fn glob(&self, line: usize) -> &Glob {
        &self.globs[line - 2]
    }
}

impl Gitignore {
    /// The matcher of an ignore file, whose root is the directory of the file, and what is wrong with the file. It has the lines that
    /// git can read. A file that cannot be read has none, and that is no error here: [`GitignoreBuilder::add`] tells it.
    pub fn new<P: AsRef<Path>>(gitignore_path: P) -> (Gitignore, Option<Error>) {
        let path = gitignore_path.as_ref();
        let mut builder = GitignoreBuilder::new(path.parent().unwrap_or(Path::new("/")));
        let err = builder.add(path).filter(|err| !err.is_io());
        (builder.matcher(), err)
    }

    /// A matcher without rules. Its root is the empty path.
    pub fn empty() -> Gitignore {
        GitignoreBuilder::new("").matcher()
    }

    /// The root: paths are matched below it.
    pub fn path(&self) -> &Path {
        &self.root
    }

    /// Whether there is no rule.
    pub fn is_empty(&self) -> bool {
        self.rules.globs.is_empty()
    }

    /// How many rules there are.
    pub fn len(&self) -> usize {
        self.rules.globs.len()
    }

    /// How many rules ignore what they match.
    pub fn num_ignores(&self) -> u64 {
        self.len() as u64 - self.num_whitelists()
    }

    /// How many rules keep what they match.
    pub fn num_whitelists(&self) -> u64 {
        self.rules.globs.iter().filter(|glob| glob.is_whitelist).count() as u64
    }

    /// The last rule that matches the path, which decides about the path alone: no directory above it counts. So `a/b` is not ignored
    /// by the line `/a`.
    ///
    /// The path is taken from the root, if it begins with it and is more than one component; otherwise a relative path is one below
    /// the root. [`Match::None`] if no rule matches, and for the root itself and an absolute path that is not below it.
    pub fn matched<P: AsRef<Path>>(&self, path: P, is_dir: bool) -> Match<&Glob> {
        self.decided(&self.below_root(path.as_ref()), is_dir, By::Path)
    }

    /// The last rule that matches the path, or else the nearest directory above it that some rule matches. So a kept directory in an
    /// ignored one is kept, with what is below it. Paths are taken as by [`Gitignore::matched`].
    ///
    /// # Panics
    ///
    /// If there is a rule, and the path is absolute and not below the root.
    pub fn matched_path_or_any_parents<P: AsRef<Path>>(&self, path: P, is_dir: bool) -> Match<&Glob> {
        let path = path.as_ref();
        let below = self.below_root(path);
        assert!(self.is_empty() || !below.has_root(), "{} is not below {}", path.display(), self.root.display());
        self.decided(&below, is_dir, By::Nearest)
    }

    /// The rule that decides about the path as git does: that of the highest directory above it that is ignored, or else the last
    /// rule that matches the path itself. Paths are taken as by [`Gitignore::matched`]. It is an addition to the crate `ignore`.
    ///
    /// ```
    /// use git_ignore::gitignore::GitignoreBuilder;
    ///
    /// let mut builder = GitignoreBuilder::new("");
    /// builder.add_line(None, "/src")?.add_line(None, "!/src/a")?;
    /// let gitignore = builder.build()?;
    /// assert!(gitignore.matched_by_git("src/a", false).is_ignore());
    /// assert!(gitignore.matched_path_or_any_parents("src/a", false).is_whitelist());
    /// assert!(gitignore.matched("src/b", false).is_none());
    /// # Ok::<(), git_ignore::Error>(())
    /// ```
    pub fn matched_by_git<P: AsRef<Path>>(&self, path: P, is_dir: bool) -> Match<&Glob> {
        self.decided(&self.below_root(path.as_ref()), is_dir, By::Git)
    }

    /// For each rule, in order, whether it ever decides about a path below the root as [`Gitignore::matched_by_git`] does. Paths
    /// are relative, without components that are empty, `.` or `..`, or have a NUL. It is an addition to the crate `ignore`.
    ///
    /// Each rule takes a few searches, and `limit` is how many rows a search may have: 100,000 are enough for most files. The module
    /// `relations` of the crate globset says what a row is, and how much memory the searches take.
    ///
    /// ```
    /// use git_ignore::{gitignore::GitignoreBuilder, Reachability};
    ///
    /// let mut builder = GitignoreBuilder::new("");
    /// builder.add_line(None, "/src")?.add_line(None, "!/src/a")?;
    /// let gitignore = builder.build()?;
    /// let rules = gitignore.unreachable(100_000);
    /// assert!(matches!(&rules[0].1, Reachability::Decides(path) if path.as_os_str() == "src"));
    /// assert!(matches!(rules[1].1, Reachability::BelowIgnored(rule) if rule.original() == "/src"));
    /// # Ok::<(), git_ignore::Error>(())
    /// ```
    pub fn unreachable(&self, limit: usize) -> Vec<(&Glob, Reachability<&Glob>)> {
        let glob = |line| self.rules.glob(line);
        let told = self.rules.stack().unreachable(0, Domain::RelativePaths, limit).unwrap_or_default();
        let rules = told.into_iter().map(|(line, told)| {
            let reachability = match told {
                ignore::Reachability::Decides(path) => Reachability::Decides(OsString::from_vec(path).into()),
                ignore::Reachability::Never(lines) => Reachability::Never(lines.into_iter().map(glob).collect()),
                ignore::Reachability::BelowIgnored(line) => Reachability::BelowIgnored(glob(line)),
                ignore::Reachability::Unknown => Reachability::Unknown,
            };
            (glob(line), reachability)
        });
        rules.collect()
    }

    /// The rule that decides about a path that [`Gitignore::below_root`] returned.
    fn decided(&self, path: &Path, is_dir: bool, by: By) -> Match<&Glob> {
        if self.is_empty() || path.has_root() || path.as_os_str().is_empty() {
            return Match::None;
        }
        let Some(rule) = self.rules.stack().decide(path, is_dir, by) else { return Match::None };
        let glob = self.rules.glob(rule.line);
        if rule.is_ignored {
            Match::Ignore(glob)
        } else {
            Match::Whitelist(glob)
        }
    }

    /// The path from the root, in the form that git has; an absolute path that is not below the root as it is.
    fn below_root<'p>(&self, path: &'p Path) -> Cow<'p, Path> {
        let path = plain(path);
        if self.plain_root.as_os_str().is_empty() || path.components().count() == 1 && !path.has_root() {
            return path;
        }
        match path {
            Cow::Borrowed(path) => Cow::Borrowed(path.strip_prefix(&self.plain_root).unwrap_or(path)),
            Cow::Owned(path) => Cow::Owned(path.strip_prefix(&self.plain_root).map(Path::to_path_buf).unwrap_or(path)),
        }
    }
}

/// The path without `.`, and with one `/` between components.
fn plain(path: &Path) -> Cow<'_, Path> {
    let is_plain = |component: &[u8]| !component.is_empty() && component != b".";
    let bytes = path.as_os_str().as_bytes();
    let below_top = bytes.strip_prefix(b"/").unwrap_or(bytes);
    if below_top.is_empty() || below_top.split(|byte| *byte == b'/').all(is_plain) {
        Cow::Borrowed(path)
    } else {
        Cow::Owned(path.components().filter(|component| *component != Component::CurDir).collect())
    }
}

impl fmt::Debug for Gitignore {
    fn fmt(&self, f: &mut fmt::Formatter<'_>) -> fmt::Result {
        f.debug_struct("Gitignore").field("root", &self.root).field("globs", &self.rules.globs).finish()
    }
}

impl GitignoreBuilder {
    /// A builder without lines, for paths below the root.
    pub fn new<P: AsRef<Path>>(root: P) -> GitignoreBuilder {
        GitignoreBuilder { root: root.as_ref().to_path_buf(), text: Vec::new(), globs: Vec::new(), ignores_case: false }
    }

    /// Adds the lines of a file, after those that are there. It returns what is wrong, or `None`: that the file cannot be read, and
    /// then nothing is added; or which lines git cannot read, and then the other lines are added. Memory is linear in the file.
    pub fn add<P: AsRef<Path>>(&mut self, path: P) -> Option<Error> {
        let path = path.as_ref();
        match fs::read(path) {
            Ok(file) => self.add_file(path, &file),
            Err(err) => Some(Error::Io(err).with_path(path)),
        }
    }

    /// Adds a line, after those that are there. `from` is the file that it is from, for [`Glob::from`]. A comment and a blank line
    /// add nothing. A text of several lines is read as these.
    ///
    /// # Errors
    ///
    /// [`Error::Glob`] if git cannot read the line, which then is not added.
    pub fn add_line(&mut self, from: Option<PathBuf>, line: &str) -> Result<&mut GitignoreBuilder, Error> {
        let mut errs = Vec::new();
        for line in line.as_bytes().split(|byte| *byte == b'\n') {
            if is_read(line) {
                self.push(from.as_deref(), line);
            } else {
                errs.push(Error::of_line(line::text(line)));
            }
        }
        match Error::all(errs) {
            Some(err) => Err(err),
            None => Ok(self),
        }
    }

    /// Sets whether ASCII letters match in both cases, as under the setting `core.ignoreCase` of git. They do not by default.
    ///
    /// # Errors
    ///
    /// [`Error::LateOption`] if lines were added before under the other choice: it is one for all lines.
    pub fn case_insensitive(&mut self, yes: bool) -> Result<&mut GitignoreBuilder, Error> {
        if yes != self.ignores_case && !self.globs.is_empty() {
            return Err(Error::LateOption);
        }
        self.ignores_case = yes;
        Ok(self)
    }

    /// The matcher of the lines that were added. The builder keeps them. Time and memory are linear in the lines.
    ///
    /// # Errors
    ///
    /// None: the result has the shape of that of the crate `ignore`.
    pub fn build(&self) -> Result<Gitignore, Error> {
        Ok(self.matcher())
    }

    fn matcher(&self) -> Gitignore {
        let mut stack = if self.ignores_case { IgnoreStack::new_ignoring_case() } else { IgnoreStack::new() };
        stack.add_file(&self.text);
        let rules = Rules { stack: Mutex::new(stack), globs: self.globs.clone() };
        Gitignore { root: self.root.clone(), plain_root: plain(&self.root).into_owned(), rules: Arc::new(rules) }
    }

    /// Adds the lines of a file that git can read, and returns the others as errors.
    fn add_file(&mut self, path: &Path, file: &[u8]) -> Option<Error> {
        let file = file.strip_prefix(b"\xef\xbb\xbf").unwrap_or(file);
        let unread = unread_lines(file);
        let mut errs = Vec::new();
        for (number, line) in (1..).zip(file.split(|byte| *byte == b'\n')) {
            if unread.binary_search(&number).is_ok() {
                errs.push(Error::of_line(line::text(line)).with_line(number).with_path(path));
            } else {
                self.push(Some(path), line);
            }
        }
        Error::all(errs)
    }

    /// Adds a line that git can read, if it has a pattern.
    fn push(&mut self, from: Option<&Path>, line: &[u8]) {
        if let Some(parts) = line::parts(line) {
            self.globs.push(Glob::new(from, line::text(line), &parts));
            self.text.push(b'\n');
            self.text.extend_from_slice(line);
        }
    }
}

/// The numbers of the lines that git cannot read, from 1, ascending. A byte order mark is not removed.
fn unread_lines(file: &[u8]) -> Vec<usize> {
    let mut stack = IgnoreStack::new();
    stack.add_file([b"\n", file].concat());
    let lines = stack.unread_lines(0).unwrap_or_default();
    lines.into_iter().map(|line| line - 1).collect()
}

/// Whether git can read the line.
fn is_read(line: &[u8]) -> bool {
    unread_lines(line).is_empty()
}

#[cfg(test)]
mod tests {
    use super::*;

    #[test]
    fn a_plain_path_is_not_copied() {
        for path in ["", "/", "a", "a/b", "/a", "/a/b", "..", "/a/../b"] {
            assert!(matches!(plain(Path::new(path)), Cow::Borrowed(same) if same.as_os_str() == path), "{path}");
        }
        let rows =
            [(".", ""), ("./a", "a"), ("a/", "a"), ("//a", "/a"), ("/a//b", "/a/b"), ("/./a/.", "/a"), ("/.", "/")];
        for (path, wanted) in rows {
            assert_eq!(plain(Path::new(path)).as_os_str(), wanted, "{path}");
        }
    }
}
