//! The ignores of the C library, which decide about paths by ignore files. The comments cite `globset_raw.h` as those of
//! `src/ffi.rs` do, and rest on the same four promises.

use std::ptr;

use super::{
    copied, done, globset_raw_free, unexpected, Answers, Bytes, Indexes, Owned, Status, DONE, LIMIT_REACHED, NO, YES,
};
use crate::ignore::Reachability;

/// The bit of the options, as in `globset.h`.
pub(crate) const IGNORE_CASE: u32 = 1;

const BAD_INDEX: Status = 11;
const BELOW_IGNORED: Status = 12;

extern "C" {
    fn globset_raw_ignore_new(options: u32, out: *mut Owned) -> Status;
    fn globset_raw_ignore_set_dfa_size_limit(ignore: *mut Owned, bytes: usize) -> Status;
    fn globset_raw_ignore_add_file(ignore: *mut Owned, file: *const u8, file_len: usize) -> Status;
    fn globset_raw_ignore_enter(ignore: *mut Owned, name: *const u8, name_len: usize) -> Status;
    fn globset_raw_ignore_leave(ignore: *mut Owned) -> Status;
    fn globset_raw_ignore_decide(
        ignore: *mut Owned,
        path: *const u8,
        path_len: usize,
        is_directory: u32,
        by: u32,
        file: *mut usize,
        line: *mut usize,
    ) -> Status;
    fn globset_raw_ignore_decide_many(
        ignore: *mut Owned,
        paths: *const u8,
        paths_len: usize,
        ends: *const usize,
        ends_len: usize,
        by: u32,
        answers: *mut u8,
        answers_len: usize,
    ) -> Status;
    fn globset_raw_ignore_rules_many(
        ignore: *mut Owned,
        paths: *const u8,
        paths_len: usize,
        ends: *const usize,
        ends_len: usize,
        by: u32,
        rules: *mut ToldRule,
        rules_len: usize,
    ) -> Status;
    fn globset_raw_ignore_unread_lines(ignore: *mut Owned, file: usize, lines: *mut Indexes) -> Status;
    fn globset_raw_ignore_line_text(ignore: *mut Owned, file: usize, line: usize, text: *mut Bytes) -> Status;
    fn globset_raw_ignore_unreachable(
        ignore: *mut Owned,
        file: usize,
        domain: u32,
        limit: usize,
        out: *mut Owned,
    ) -> Status;
    fn globset_raw_answers_lines(answers: *mut Owned, lines: *mut Indexes) -> Status;
}

/// What the library tells of a path: whether it is ignored, and the file and the line of the rule that decides. The line is 0 if
/// none does.
pub(crate) struct Decided {
    pub(crate) is_ignored: bool,
    pub(crate) file: usize,
    pub(crate) line: usize,
}

/// What the library tells of one of many paths: the file and the line of the rule that decides, and a number as of
/// [`Ignore::decide_many`]. The line is 0 if no rule decides.
#[derive(Clone, Copy)]
#[repr(C)]
pub(crate) struct ToldRule {
    pub(crate) file: usize,
    pub(crate) line: usize,
    pub(crate) decision: u32,
}

/// A walk of the library, which "has the ignore files of directories".
pub(crate) struct Ignore(Owned);

// SAFETY: "It may go to another thread, which then uses and frees it, if what the first thread did with it comes before, by a
// lock, or by the start or the end of a thread." Whatever moves a value to another thread in safe Rust sees to that.
unsafe impl Send for Ignore {}

// SAFETY: A reference to an `Ignore` gives no call.
unsafe impl Sync for Ignore {}

impl Ignore {
    pub(crate) fn new(options: u32) -> Ignore {
        // SAFETY: "Makes a walk in its top directory, without ignore files."
        Ignore(Owned::made(|out| unsafe { globset_raw_ignore_new(options, out) }))
    }

    pub(crate) fn set_dfa_size_limit(&mut self, bytes: usize) {
        // SAFETY: "Sets how many bytes of rows of its automaton an ignore file may keep".
        done(unsafe { globset_raw_ignore_set_dfa_size_limit(&mut self.0, bytes) })
    }

    pub(crate) fn add_file(&mut self, file: &[u8]) {
        // SAFETY: "Adds an ignore file of the directory that the walk is in, by its bytes, which are copied." The walk is
        // borrowed exclusively, here and below: "An owned object is in one call at a time."
        done(unsafe { globset_raw_ignore_add_file(&mut self.0, file.as_ptr(), file.len()) })
    }

    pub(crate) fn enter(&mut self, name: &[u8]) {
        // SAFETY: "Goes down into the directory of this name".
        done(unsafe { globset_raw_ignore_enter(&mut self.0, name.as_ptr(), name.len()) })
    }

    pub(crate) fn leave(&mut self) {
        // SAFETY: "Goes up to where the walk was before".
        done(unsafe { globset_raw_ignore_leave(&mut self.0) })
    }

    pub(crate) fn decide(&mut self, path: &[u8], is_directory: bool, by: u32) -> Decided {
        let (mut file, mut line) = (0, 0);
        let (at, len, is_directory) = (path.as_ptr(), path.len(), u32::from(is_directory));
        // SAFETY: "Whether the path, which is below the directory that the walk is in, is ignored, as `by` says."
        match unsafe { globset_raw_ignore_decide(&mut self.0, at, len, is_directory, by, &mut file, &mut line) } {
            YES => Decided { is_ignored: true, file, line },
            NO => Decided { is_ignored: false, file, line },
            status => unexpected(status),
        }
    }

    /// A number for each path: 0 if no rule decides, 1 if a rule ignores it, and 2 if a rule keeps it. The paths are the bytes up
    /// to each end, which have to be in order.
    pub(crate) fn decide_many(&mut self, paths: &[u8], ends: &[usize], by: u32) -> Vec<u8> {
        let mut answers = vec![0; ends.len()];
        // SAFETY: "Decides about many paths".
        done(unsafe {
            globset_raw_ignore_decide_many(
                &mut self.0,
                paths.as_ptr(),
                paths.len(),
                ends.as_ptr(),
                ends.len(),
                by,
                answers.as_mut_ptr(),
                answers.len(),
            )
        });
        answers
    }

    /// The rule that decides about each path, of paths as in [`Ignore::decide_many`].
    pub(crate) fn rules_many(&mut self, paths: &[u8], ends: &[usize], by: u32) -> Vec<ToldRule> {
        let mut rules = vec![ToldRule { file: 0, line: 0, decision: 0 }; ends.len()];
        // SAFETY: "Finds the rules that decide about many paths".
        done(unsafe {
            globset_raw_ignore_rules_many(
                &mut self.0,
                paths.as_ptr(),
                paths.len(),
                ends.as_ptr(),
                ends.len(),
                by,
                rules.as_mut_ptr(),
                rules.len(),
            )
        });
        rules
    }

    /// The lines of a file that git cannot read, or `None` if there is no file of this index.
    pub(crate) fn unread_lines(&mut self, file: usize) -> Option<Vec<usize>> {
        let mut lines = Indexes::none();
        // SAFETY: "Lends the numbers of the lines of a file that git cannot read, ascending, from 1." What is handed in is valid,
        // since there are none.
        match unsafe { globset_raw_ignore_unread_lines(&mut self.0, file, &mut lines) } {
            // SAFETY: "they may be read until the next call that the walk is passed to".
            DONE => Some(unsafe { copied(lines.at, lines.count) }),
            BAD_INDEX => None,
            status => unexpected(status),
        }
    }

    /// The text of a line of a file, or `None` if there is no file of this index or no such line.
    pub(crate) fn line_text(&mut self, file: usize, line: usize) -> Option<Vec<u8>> {
        let mut text = Bytes::none();
        // SAFETY: "Lends the text of a line of a file". What is handed in is valid, since it has no bytes.
        match unsafe { globset_raw_ignore_line_text(&mut self.0, file, line, &mut text) } {
            // SAFETY: "the text may be read until the next call that the walk is passed to".
            DONE => Some(unsafe { copied(text.at, text.count) }),
            BAD_INDEX => None,
            status => unexpected(status),
        }
    }

    /// For each rule of a file the number of its line, and whether it decides about some path of the domain, or `None` if there is
    /// no file of this index.
    pub(crate) fn unreachable(&mut self, file: usize, domain: u32, limit: usize) -> Option<Vec<(usize, Reachability)>> {
        let mut owned = Owned { at: ptr::null_mut() };
        // SAFETY: "Decides for each rule of an ignore file whether it ever decides".
        match unsafe { globset_raw_ignore_unreachable(&mut self.0, file, domain, limit, &mut owned) } {
            DONE => Some(Answers(owned).told_of_rules()),
            BAD_INDEX => None,
            status => unexpected(status),
        }
    }
}

impl Answers {
    /// For each rule that they are about the number of its line, and what its answer tells.
    fn told_of_rules(mut self) -> Vec<(usize, Reachability)> {
        let mut lines = Indexes::none();
        // SAFETY: "Lends the numbers of the lines of the rules". What is handed in is valid, since there are none.
        done(unsafe { globset_raw_answers_lines(&mut self.0, &mut lines) });
        // SAFETY: "they may be read as long as what globset_raw_answers_at lends".
        let lines = unsafe { copied(lines.at, lines.count) };
        let told = lines.iter().enumerate().map(|(index, line)| {
            let told = match self.at(index) {
                (YES, path, _) => Reachability::Decides(path),
                (NO, _, rules) => Reachability::Never(rules.into_iter().map(|rule| lines[rule]).collect()),
                (BELOW_IGNORED, _, rules) => Reachability::BelowIgnored(lines[rules[0]]),
                (LIMIT_REACHED, ..) => Reachability::Unknown,
                (status, ..) => unexpected(status),
            };
            (*line, told)
        });
        told.collect()
    }
}

impl Drop for Ignore {
    fn drop(&mut self) {
        let object = Owned { at: self.0.at };
        // SAFETY: "Frees an object of any kind. The caller owns it, it is lent to nobody, and what it lends is not read any
        // more." A walk is never lent, lines are copied at once, and this is the only `free` of it.
        unsafe { globset_raw_free(object) }
    }
}
