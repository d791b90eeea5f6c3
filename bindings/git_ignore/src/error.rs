use std::{
    error, fmt, io,
    path::{Path, PathBuf},
};

/// Why an ignore file or a line of it was not taken.
#[derive(Debug)]
#[non_exhaustive]
pub enum Error {
    /// Several errors. What has none was taken.
    Partial(Vec<Error>),
    /// An error of a line.
    WithLineNumber {
        /// The number of the line in its file, from 1.
        line: u64,
        /// The error.
        err: Box<Error>,
    },
    /// An error of a file.
    WithPath {
        /// The path of the file.
        path: PathBuf,
        /// The error.
        err: Box<Error>,
    },
    /// The file cannot be read.
    Io(io::Error),
    /// git cannot read the line.
    Glob {
        /// The line.
        glob: Option<String>,
        /// What is wrong with it.
        err: String,
    },
    /// An option is for all lines, and was changed after a line had been added.
    LateOption,
}

impl Error {
    /// Whether it is about parts of a file, of which the others were taken.
    pub fn is_partial(&self) -> bool {
        match self {
            Error::Partial(_) => true,
            Error::WithLineNumber { err, .. } | Error::WithPath { err, .. } => err.is_partial(),
            _ => false,
        }
    }

    /// Whether it is an error of input or output, and no other.
    pub fn is_io(&self) -> bool {
        self.io_error().is_some()
    }

    /// The error of input or output, if it is one and no other.
    pub fn io_error(&self) -> Option<&io::Error> {
        match self {
            Error::Io(err) => Some(err),
            Error::Partial(errs) if errs.len() == 1 => errs[0].io_error(),
            Error::WithLineNumber { err, .. } | Error::WithPath { err, .. } => err.io_error(),
            _ => None,
        }
    }

    /// All of some errors, or `None` if there is none.
    pub(crate) fn all(mut errs: Vec<Error>) -> Option<Error> {
        if errs.len() > 1 {
            return Some(Error::Partial(errs));
        }
        errs.pop()
    }

    pub(crate) fn of_line(line: &[u8]) -> Error {
        let glob = Some(String::from_utf8_lossy(line).into_owned());
        let err = "a class is not closed or has an unknown name, or a last `\\` escapes nothing".to_string();
        Error::Glob { glob, err }
    }

    pub(crate) fn with_line(self, line: usize) -> Error {
        Error::WithLineNumber { line: line as u64, err: Box::new(self) }
    }

    pub(crate) fn with_path(self, path: &Path) -> Error {
        Error::WithPath { path: path.to_path_buf(), err: Box::new(self) }
    }
}

impl From<io::Error> for Error {
    fn from(err: io::Error) -> Error {
        Error::Io(err)
    }
}

impl Clone for Error {
    /// A clone of an error of the system has its number, and another error of input or output its kind and its text.
    fn clone(&self) -> Error {
        match self {
            Error::Partial(errs) => Error::Partial(errs.clone()),
            Error::WithLineNumber { line, err } => Error::WithLineNumber { line: *line, err: err.clone() },
            Error::WithPath { path, err } => Error::WithPath { path: path.clone(), err: err.clone() },
            Error::Io(err) => Error::Io(match err.raw_os_error() {
                Some(number) => io::Error::from_raw_os_error(number),
                None => io::Error::new(err.kind(), err.to_string()),
            }),
            Error::Glob { glob, err } => Error::Glob { glob: glob.clone(), err: err.clone() },
            Error::LateOption => Error::LateOption,
        }
    }
}

impl error::Error for Error {}

impl fmt::Display for Error {
    fn fmt(&self, f: &mut fmt::Formatter<'_>) -> fmt::Result {
        match self {
            Error::Partial(errs) => {
                let texts: Vec<String> = errs.iter().map(Error::to_string).collect();
                write!(f, "{}", texts.join("\n"))
            }
            Error::WithLineNumber { line, err } => write!(f, "line {line}: {err}"),
            Error::WithPath { path, err } => write!(f, "{}: {err}", path.display()),
            Error::Io(err) => err.fmt(f),
            Error::Glob { glob: Some(glob), err } => write!(f, "error parsing glob '{glob}': {err}"),
            Error::Glob { glob: None, err } => write!(f, "{err}"),
            Error::LateOption => write!(f, "an option was changed after a line had been added"),
        }
    }
}
