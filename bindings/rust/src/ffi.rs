//! The C library behind the crate. All `unsafe` of the crate is in this file and in `src/ffi/ignore.rs`.
//!
//! Each `SAFETY` comment cites, in quotation marks, the sentence of `globset_raw.h` on which the block rests. Four promises of a
//! caller hold in every call here, and are not repeated:
//!
//! - "Each pointer and the length beside it are one array that stays allocated, and that nobody else writes, during the call.
//!   At the exported functions it is never null, at length 0 too." They come from slices, strings and vectors, which are
//!   borrowed during the call; a pointer to a result comes from a local variable.
//! - "A handle is one that a call of this library wrote, or a copy of that. The caller neither reads nor writes through `at`."
//!   Handles are private to these files, and none is used before a call that wrote it has returned `DONE`.
//! - "No call is made from a signal handler, nor in the child of a `fork` of a process with several threads." Safe Rust can do
//!   neither.
//! - "There is stack for a call". Rust has a guard page at the end of each stack.

use std::{
    alloc::{handle_alloc_error, Layout},
    cell::Cell,
    ffi::c_void,
    panic::RefUnwindSafe,
    ptr, slice,
};

use crate::per_thread::PerThread;

pub(crate) mod ignore;

/// The bits of a glob's options, as in the header.
pub(crate) mod options {
    pub(crate) const CASE_INSENSITIVE: u32 = 1;
    pub(crate) const LITERAL_SEPARATOR: u32 = 2;
    pub(crate) const NO_BACKSLASH_ESCAPE: u32 = 4;
    pub(crate) const EMPTY_ALTERNATES: u32 = 8;
    pub(crate) const ALLOW_UNCLOSED_CLASS: u32 = 16;
    pub(crate) const WHOLE_CHARACTER: u32 = 32;
}

/// `globset_status`.
type Status = u32;
const DONE: Status = 0;
const NO: Status = 1;
const YES: Status = 2;
const OUT_OF_MEMORY: Status = 3;
const REJECTED: Status = 4;
const TOO_SMALL: Status = 9;
const LIMIT_REACHED: Status = 10;

/// `globset_error`.
#[repr(C)]
#[derive(Default)]
struct RawError {
    kind: u32,
    start: u32,
    end: u32,
    offset: usize,
}

/// `globset_owned`.
#[repr(C)]
struct Owned {
    at: *mut c_void,
}

/// `globset_lent`.
#[repr(C)]
struct Lent {
    at: *const c_void,
}

/// `globset_bytes`.
#[repr(C)]
struct Bytes {
    at: *const u8,
    count: usize,
}

/// `globset_indexes`.
#[repr(C)]
struct Indexes {
    at: *const usize,
    count: usize,
}

extern "C" {
    fn globset_raw_glob_new(
        text: *const u8,
        text_len: usize,
        options: u32,
        error: *mut RawError,
        out: *mut Owned,
    ) -> Status;
    fn globset_raw_glob_regex(glob: *mut Lent, room: *mut u8, room_len: usize, needed: *mut usize) -> Status;
    fn globset_raw_matcher_new(glob: *mut Lent, out: *mut Owned) -> Status;
    fn globset_raw_matcher_is_match_plain(matcher: *mut Lent, path: *const u8, path_len: usize) -> Status;
    fn globset_raw_builder_new(out: *mut Owned) -> Status;
    fn globset_raw_builder_add(builder: *mut Owned, glob: *mut Lent) -> Status;
    fn globset_raw_builder_set_dfa_size_limit(builder: *mut Owned, bytes: usize) -> Status;
    fn globset_raw_builder_build(builder: *mut Owned, out: *mut Owned) -> Status;
    fn globset_raw_set_is_match_plain(set: *mut Lent, path: *const u8, path_len: usize) -> Status;
    fn globset_raw_set_matches_all_plain(set: *mut Lent, path: *const u8, path_len: usize) -> Status;
    fn globset_raw_set_of_globs(globs: *mut Lent, globs_len: usize, out: *mut Owned) -> Status;
    fn globset_raw_set_matches_plain(
        set: *mut Lent,
        path: *const u8,
        path_len: usize,
        room: *mut usize,
        room_len: usize,
        needed: *mut usize,
    ) -> Status;
    fn globset_raw_searcher_new(set: *mut Lent, out: *mut Owned) -> Status;
    fn globset_raw_searcher_is_match(searcher: *mut Owned, path: *const u8, path_len: usize) -> Status;
    fn globset_raw_searcher_matches_all(searcher: *mut Owned, path: *const u8, path_len: usize) -> Status;
    fn globset_raw_searcher_find(searcher: *mut Owned, path: *const u8, path_len: usize, count: *mut usize) -> Status;
    fn globset_raw_searcher_found(searcher: *mut Owned, indexes: *mut Indexes) -> Status;
    fn globset_raw_searcher_can_match_below(searcher: *mut Owned, folder: *const u8, folder_len: usize) -> Status;
    fn globset_raw_escape(
        text: *const u8,
        text_len: usize,
        room: *mut u8,
        room_len: usize,
        needed: *mut usize,
    ) -> Status;
    fn globset_raw_covering(
        glob: *mut Lent,
        by: *mut Lent,
        by_len: usize,
        domain: u32,
        limit: usize,
        out: *mut Owned,
    ) -> Status;
    fn globset_raw_overlap(a: *mut Lent, b: *mut Lent, domain: u32, limit: usize, out: *mut Owned) -> Status;
    fn globset_raw_unreachable(
        globs: *mut Lent,
        globs_len: usize,
        decides: u32,
        domain: u32,
        limit: usize,
        out: *mut Owned,
    ) -> Status;
    fn globset_raw_answers_at(answers: *mut Owned, index: usize, path: *mut Bytes, indexes: *mut Indexes) -> Status;
    fn globset_raw_free(object: Owned);
    #[cfg(test)]
    fn globset_version() -> u32;
    #[cfg(test)]
    fn globset_interface() -> u32;
}

impl Bytes {
    fn none() -> Bytes {
        Bytes { at: ptr::NonNull::dangling().as_ptr(), count: 0 }
    }
}

impl Indexes {
    fn none() -> Indexes {
        Indexes { at: ptr::NonNull::dangling().as_ptr(), count: 0 }
    }
}

/// A copy of what a call lent: so many members of an array. Nothing is read if there are none.
// SAFETY: the caller ensures that what was lent still "may be read".
unsafe fn copied<T: Copy>(at: *const T, count: usize) -> Vec<T> {
    if count == 0 {
        return Vec::new();
    }
    // SAFETY: the library lent so many members there, and the caller ensures that they may still be read.
    unsafe { slice::from_raw_parts(at, count) }.to_vec()
}

/// Ends the program as Rust's own containers do when memory runs out; panics at a status that the header rules out.
#[cold]
fn unexpected(status: Status) -> ! {
    if status == OUT_OF_MEMORY {
        // The library does not tell how much memory it asked for.
        handle_alloc_error(Layout::new::<u8>())
    }
    panic!("globset: the C library returned the status {status}, which its header rules out")
}

/// Returns if the call did what it is for.
#[inline]
fn done(status: Status) {
    if status != DONE {
        unexpected(status)
    }
}

/// The answer of a question.
#[inline]
fn answer(status: Status) -> bool {
    match status {
        NO => false,
        YES => true,
        _ => unexpected(status),
    }
}

impl Owned {
    /// The object that a call makes. The call has to make one if it returns `DONE`.
    fn made(make: impl FnOnce(*mut Owned) -> Status) -> Owned {
        let mut owned = Owned { at: ptr::null_mut() };
        done(make(&mut owned));
        owned
    }
}

/// A glob, a matcher or a set of the library, which is freed when this is dropped, and until then is only lent.
struct Shared(Owned);

// SAFETY: "An owned object is in one call at a time", with no word about its thread. The only call that a `Shared` is passed to
// as an owned object is the one in its `drop`, when no other use of it is left.
unsafe impl Send for Shared {}

// SAFETY: "Lent objects are only read, so one object may be lent to any number of calls at once, in any threads." A reference
// to a `Shared` gives `lend` alone.
unsafe impl Sync for Shared {}

impl Shared {
    /// What one call is lent. "Each call gets a `globset_lent` of its own".
    #[inline]
    fn lend(&self) -> Lent {
        Lent { at: self.0.at }
    }
}

impl Drop for Shared {
    fn drop(&mut self) {
        let object = Owned { at: self.0.at };
        // SAFETY: "Frees an object of any kind. The caller owns it, it is lent to nobody, and what it lends is not read any
        // more." Calls borrow the `Shared` that they are lent, so none is left; and this is the only `free` of it.
        unsafe { globset_raw_free(object) }
    }
}

/// Why a text is no glob, and the byte of the text at which this error stands.
pub(crate) struct ParseError {
    pub(crate) kind: ParseErrorKind,
    pub(crate) offset: usize,
}

pub(crate) enum ParseErrorKind {
    UnclosedClass,
    InvalidRange(char, char),
    UnopenedAlternates,
    UnclosedAlternates,
    DanglingEscape,
}

impl ParseError {
    fn of(error: &RawError) -> ParseError {
        let char = |code| char::from_u32(code).expect("an end of a range is a character");
        let kind = match error.kind {
            1 => ParseErrorKind::UnclosedClass,
            2 => ParseErrorKind::InvalidRange(char(error.start), char(error.end)),
            3 => ParseErrorKind::UnopenedAlternates,
            4 => ParseErrorKind::UnclosedAlternates,
            5 => ParseErrorKind::DanglingEscape,
            kind => panic!("globset: the C library returned the kind of error {kind}, which its header does not have"),
        };
        ParseError { kind, offset: error.offset }
    }
}

/// A glob of the library.
pub(crate) struct Glob(Shared);

impl Glob {
    /// Reads a text under options.
    pub(crate) fn new(text: &str, options: u32) -> Result<Glob, ParseError> {
        let mut error = RawError::default();
        let mut owned = Owned { at: ptr::null_mut() };
        // SAFETY: "Reads a glob. GLOBSET_DONE: `out` owns the glob of exactly this text and these options." Before the call
        // `at` "may be anything".
        match unsafe { globset_raw_glob_new(text.as_ptr(), text.len(), options, &mut error, &mut owned) } {
            DONE => Ok(Glob(Shared(owned))),
            REJECTED => Err(ParseError::of(&error)),
            status => unexpected(status),
        }
    }

    /// The regular expression of the glob.
    pub(crate) fn regex(&self) -> String {
        written(64, |room, room_len, needed| {
            // SAFETY: "Writes a regular expression that matches the paths that the glob matches."
            unsafe { globset_raw_glob_regex(&mut self.0.lend(), room, room_len, needed) }
        })
    }
}

/// A matcher of the library, for one glob.
pub(crate) struct Matcher(Shared);

impl Matcher {
    pub(crate) fn new(glob: &Glob) -> Matcher {
        // SAFETY: "Makes a matcher of one glob. It keeps a copy of the glob, which may be freed."
        let owned = Owned::made(|out| unsafe { globset_raw_matcher_new(&mut glob.0.lend(), out) });
        Matcher(Shared(owned))
    }

    #[inline]
    pub(crate) fn is_match(&self, path: &[u8]) -> bool {
        // SAFETY: "Whether the matcher's glob matches the path".
        answer(unsafe { globset_raw_matcher_is_match_plain(&mut self.0.lend(), path.as_ptr(), path.len()) })
    }
}

/// A set of the library, and a searcher of it for each thread that asks.
pub(crate) struct Set {
    shared: Shared,
    searchers: PerThread<Place>,
}

/// Has the searcher of the thread that the place is for, if there is one and the thread makes no call with it.
#[derive(Default)]
struct Place(Cell<Option<Searcher>>);

// SAFETY: A place is reached by `PerThread::of_this_thread` alone, in `Set::with_searcher`, which lends it to nobody. So the
// thread that has the number of a place is the only one that uses it, and sees what an earlier one with that number did.
unsafe impl Sync for Place {}

// A panic in a call drops the searcher, and leaves the place without one.
impl RefUnwindSafe for Place {}

impl Set {
    fn new(owned: Owned) -> Set {
        Set { shared: Shared(owned), searchers: PerThread::new() }
    }

    /// The set of these globs, in their order.
    pub(crate) fn of_globs<'g>(globs: impl Iterator<Item = &'g Glob>) -> Set {
        let mut lent: Vec<Lent> = globs.map(|glob| glob.0.lend()).collect();
        // SAFETY: "Makes the set of globs that are lent, in their order: the first has index 0." The globs are borrowed.
        Set::new(Owned::made(|out| unsafe { globset_raw_set_of_globs(lent.as_mut_ptr(), lent.len(), out) }))
    }

    #[cold]
    pub(crate) fn searcher(&self) -> Searcher {
        // SAFETY: "Makes a searcher of a set. It shares what the set matches with, so the set may be freed."
        Searcher(Owned::made(|out| unsafe { globset_raw_searcher_new(&mut self.shared.lend(), out) }))
    }

    /// Calls with this thread's searcher, which is made at the thread's first call. Returns `None`, with no call, where the
    /// thread has no place for one.
    ///
    /// The searcher is taken out of its place during the call. So a call within the call makes a searcher of its own.
    #[inline]
    fn with_searcher<T>(&self, call: impl FnOnce(&mut Searcher) -> T) -> Option<T> {
        let place = self.searchers.of_this_thread()?;
        let mut searcher = place.0.take().unwrap_or_else(|| self.searcher());
        let returned = call(&mut searcher);
        place.0.set(Some(searcher));
        Some(returned)
    }

    #[inline]
    pub(crate) fn is_match(&self, path: &[u8]) -> bool {
        self.with_searcher(|searcher| searcher.is_match(path)).unwrap_or_else(|| self.plainly_is_match(path))
    }

    #[inline]
    pub(crate) fn matches_all(&self, path: &[u8]) -> bool {
        self.with_searcher(|searcher| searcher.matches_all(path)).unwrap_or_else(|| self.plainly_matches_all(path))
    }

    /// Adds the indexes of the globs that match, ascending, to the end of `into`.
    #[inline]
    pub(crate) fn matches(&self, path: &[u8], into: &mut Vec<usize>) {
        let found = self.with_searcher(|searcher| into.extend_from_slice(searcher.matches(path)));
        found.unwrap_or_else(|| self.plainly_matches(path, into))
    }

    #[cold]
    fn plainly_is_match(&self, path: &[u8]) -> bool {
        // SAFETY: "Whether some glob of the set matches the path".
        answer(unsafe { globset_raw_set_is_match_plain(&mut self.shared.lend(), path.as_ptr(), path.len()) })
    }

    #[cold]
    fn plainly_matches_all(&self, path: &[u8]) -> bool {
        // SAFETY: "Whether all globs of the set match the path".
        answer(unsafe { globset_raw_set_matches_all_plain(&mut self.shared.lend(), path.as_ptr(), path.len()) })
    }

    #[cold]
    fn plainly_matches(&self, path: &[u8], into: &mut Vec<usize>) {
        let mut room = vec![0; 64];
        loop {
            let (lent, mut needed) = (&mut self.shared.lend(), 0);
            let (at, len) = (room.as_mut_ptr(), room.len());
            // SAFETY: "Writes the indexes of the globs of the set that match the path, ascending."
            match unsafe { globset_raw_set_matches_plain(lent, path.as_ptr(), path.len(), at, len, &mut needed) } {
                DONE => return into.extend_from_slice(&room[..needed]),
                TOO_SMALL => room = vec![0; needed],
                status => unexpected(status),
            }
        }
    }
}

/// A searcher of the library: a set "with all the memory that one thread matches with. It shares what these match with, and so
/// may be used after they were freed."
pub(crate) struct Searcher(Owned);

// SAFETY: "It may go to another thread, which then uses and frees it, if what the first thread did with it comes before, by a
// lock, or by the start or the end of a thread." Whatever moves a value to another thread in safe Rust sees to that.
unsafe impl Send for Searcher {}

// SAFETY: A reference to a `Searcher` gives no call.
unsafe impl Sync for Searcher {}

impl Searcher {
    #[inline]
    pub(crate) fn is_match(&mut self, path: &[u8]) -> bool {
        // SAFETY: "Whether some glob of the searcher's set matches the path". The searcher is borrowed exclusively, here and
        // below: "An owned object is in one call at a time."
        answer(unsafe { globset_raw_searcher_is_match(&mut self.0, path.as_ptr(), path.len()) })
    }

    #[inline]
    pub(crate) fn matches_all(&mut self, path: &[u8]) -> bool {
        // SAFETY: "Whether all globs of the searcher's set match the path".
        answer(unsafe { globset_raw_searcher_matches_all(&mut self.0, path.as_ptr(), path.len()) })
    }

    #[inline]
    pub(crate) fn can_match_below(&mut self, folder: &[u8]) -> bool {
        // SAFETY: "Whether some glob of the searcher's set matches some path below the directory".
        answer(unsafe { globset_raw_searcher_can_match_below(&mut self.0, folder.as_ptr(), folder.len()) })
    }

    /// The indexes of the globs that match, ascending.
    #[inline]
    pub(crate) fn matches(&mut self, path: &[u8]) -> &[usize] {
        let mut count = 0;
        // SAFETY: "Finds the indexes of the globs of the searcher's set that match the path, ascending."
        done(unsafe { globset_raw_searcher_find(&mut self.0, path.as_ptr(), path.len(), &mut count) });
        if count == 0 {
            return &[];
        }
        let mut indexes = Indexes::none();
        // SAFETY: "Lends the indexes that the last globset_raw_searcher_find found". The indexes handed in are valid, since
        // there are none.
        done(unsafe { globset_raw_searcher_found(&mut self.0, &mut indexes) });
        // SAFETY: "they may be read until the next call that the searcher is passed to". The searcher is borrowed for as long
        // as they are. They are as many as the call before told, which is not 0.
        unsafe { slice::from_raw_parts(indexes.at, indexes.count) }
    }
}

impl Drop for Searcher {
    fn drop(&mut self) {
        let object = Owned { at: self.0.at };
        // SAFETY: "Frees an object of any kind. The caller owns it, it is lent to nobody, and what it lends is not read any
        // more." A searcher is never lent, indexes are read while it is borrowed, and this is the only `free` of it.
        unsafe { globset_raw_free(object) }
    }
}

/// A builder of the library.
pub(crate) struct Builder(Owned);

impl Builder {
    pub(crate) fn new() -> Builder {
        // SAFETY: "Makes a builder without globs."
        Builder(Owned::made(|out| unsafe { globset_raw_builder_new(out) }))
    }

    pub(crate) fn add(&mut self, glob: &Glob) {
        // SAFETY: "Adds a copy of a glob after those that the builder has." The builder is borrowed exclusively: "An owned
        // object is in one call at a time."
        done(unsafe { globset_raw_builder_add(&mut self.0, &mut glob.0.lend()) })
    }

    pub(crate) fn set_dfa_size_limit(&mut self, bytes: usize) {
        // SAFETY: "Sets how many bytes of rows of automata a set may keep, for the sets that the builder makes from then on".
        done(unsafe { globset_raw_builder_set_dfa_size_limit(&mut self.0, bytes) })
    }

    pub(crate) fn build(mut self) -> Set {
        // SAFETY: "Makes the set of the builder's globs, in the order in which they were added".
        let owned = Owned::made(|out| unsafe { globset_raw_builder_build(&mut self.0, out) });
        Set::new(owned)
    }
}

impl Drop for Builder {
    fn drop(&mut self) {
        let object = Owned { at: self.0.at };
        // SAFETY: "Frees an object of any kind. The caller owns it, it is lent to nobody". A builder is never lent, and this is
        // the only `free` of it.
        unsafe { globset_raw_free(object) }
    }
}

/// What an answer to a question about all paths tells.
pub(crate) enum Told {
    Path(Vec<u8>),
    NoPath(Vec<usize>),
    LimitReached,
}

/// Answers of the library.
struct Answers(Owned);

impl Answers {
    /// The status of the answer of an index, which has to be there, and its path and its indexes.
    fn at(&mut self, index: usize) -> (Status, Vec<u8>, Vec<usize>) {
        let (mut path, mut indexes) = (Bytes::none(), Indexes::none());
        // SAFETY: "Lends what the answer of an index tells." What is handed in is valid, since it has no members. The answers are
        // borrowed exclusively: "An owned object is in one call at a time."
        let status = unsafe { globset_raw_answers_at(&mut self.0, index, &mut path, &mut indexes) };
        // SAFETY: "Both may be read until the next call that the answers are passed to".
        let path = unsafe { copied(path.at, path.count) };
        // SAFETY: "Both may be read until the next call that the answers are passed to".
        let indexes = unsafe { copied(indexes.at, indexes.count) };
        (status, path, indexes)
    }

    /// What the answer of an index tells, which has to be there.
    fn told(&mut self, index: usize) -> Told {
        match self.at(index) {
            (YES, path, _) => Told::Path(path),
            (NO, _, indexes) => Told::NoPath(indexes),
            (LIMIT_REACHED, ..) => Told::LimitReached,
            (status, ..) => unexpected(status),
        }
    }
}

impl Drop for Answers {
    fn drop(&mut self) {
        let object = Owned { at: self.0.at };
        // SAFETY: "Frees an object of any kind. The caller owns it, it is lent to nobody, and what it lends is not read any
        // more." Answers are never lent, what they lend is copied at once, and this is the only `free` of them.
        unsafe { globset_raw_free(object) }
    }
}

/// Whether some path of the domain is matched by the glob and by none of the others.
pub(crate) fn covering<'g>(glob: &Glob, by: impl Iterator<Item = &'g Glob>, domain: u32, limit: usize) -> Told {
    let (mut glob, mut by) = (glob.0.lend(), by.map(|glob| glob.0.lend()).collect::<Vec<Lent>>());
    let (at, len) = (by.as_mut_ptr(), by.len());
    // SAFETY: "Decides whether globs cover a glob". "Each element of the array is the handle of one glob". The globs are borrowed.
    Answers(Owned::made(|out| unsafe { globset_raw_covering(&mut glob, at, len, domain, limit, out) })).told(0)
}

/// Whether some path of the domain is matched by both globs.
pub(crate) fn overlap(a: &Glob, b: &Glob, domain: u32, limit: usize) -> Told {
    let (mut a, mut b) = (a.0.lend(), b.0.lend());
    // SAFETY: "Decides whether two globs match some path in common." "Each call gets a `globset_lent` of its own".
    Answers(Owned::made(|out| unsafe { globset_raw_overlap(&mut a, &mut b, domain, limit, out) })).told(0)
}

/// For each glob whether it decides about some path of the domain.
pub(crate) fn unreachable<'g>(
    globs: impl Iterator<Item = &'g Glob>,
    decides: u32,
    domain: u32,
    limit: usize,
) -> Vec<Told> {
    let mut globs: Vec<Lent> = globs.map(|glob| glob.0.lend()).collect();
    let (at, len) = (globs.as_mut_ptr(), globs.len());
    // SAFETY: "Decides for each glob of a list whether it ever decides". The globs are borrowed.
    let made = Owned::made(|out| unsafe { globset_raw_unreachable(at, len, decides, domain, limit, out) });
    let mut answers = Answers(made);
    (0..len).map(|index| answers.told(index)).collect()
}

/// The text that a call writes into the room that it gets, which is `guess` bytes long at first, and the length that the call
/// says it needs the next time.
fn written(guess: usize, mut write: impl FnMut(*mut u8, usize, *mut usize) -> Status) -> String {
    let mut room = vec![0; guess];
    loop {
        let mut needed = 0;
        match write(room.as_mut_ptr(), room.len(), &mut needed) {
            DONE => {
                room.truncate(needed);
                room.shrink_to_fit();
                return String::from_utf8(room).expect("texts of the library are UTF-8");
            }
            TOO_SMALL => room = vec![0; needed],
            status => unexpected(status),
        }
    }
}

/// The text with its special characters in brackets.
pub(crate) fn escape(text: &str) -> String {
    written(text.len() + 16, |room, room_len, needed| {
        // SAFETY: "Writes the text with each of `?`, `*`, `[`, `]`, `{` and `}` in brackets".
        unsafe { globset_raw_escape(text.as_ptr(), text.len(), room, room_len, needed) }
    })
}

#[cfg(test)]
mod tests {
    use super::*;

    #[test]
    fn the_library_is_of_this_version_and_interface() {
        // SAFETY: both calls take nothing, and return a number.
        let numbers = unsafe { (globset_version(), globset_interface()) };
        assert_eq!(numbers, (4021, 1));
    }

    #[test]
    fn a_text_longer_than_the_first_room_is_asked_for_again() {
        let text = "*".repeat(1000);
        assert_eq!(escape(&text), "[*]".repeat(1000));
        let glob = Glob::new(&"a".repeat(1000), 0).ok().expect("a glob");
        assert_eq!(glob.regex(), format!("(?-u)^{}$", "a".repeat(1000)));
    }

    fn set_of(text: &str) -> Set {
        let mut builder = Builder::new();
        builder.add(&Glob::new(text, 0).ok().expect("a glob"));
        builder.build()
    }

    #[test]
    fn a_call_within_a_call_has_a_searcher_of_its_own() {
        let set = set_of("*.c");
        let within = set.with_searcher(|searcher| {
            let mut into = vec![];
            set.matches(b"a.c", &mut into);
            (searcher.is_match(b"a.h"), set.is_match(b"a.c"), set.matches_all(b"a.h"), into)
        });
        assert_eq!(within, Some((false, true, false, vec![0])));
    }

    #[test]
    fn plain_calls_answer_as_a_searcher_does() {
        let set = set_of("*.c");
        for (path, answer) in [(&b"a.c"[..], true), (b"a.h", false)] {
            let (mut by_searcher, mut plainly) = (vec![], vec![]);
            set.matches(path, &mut by_searcher);
            set.plainly_matches(path, &mut plainly);
            assert_eq!((by_searcher.len(), plainly.len()), (usize::from(answer), usize::from(answer)));
            assert_eq!((set.is_match(path), set.plainly_is_match(path)), (answer, answer));
            assert_eq!((set.matches_all(path), set.plainly_matches_all(path)), (answer, answer));
        }
    }

    #[test]
    fn more_indexes_than_the_first_room_has_are_asked_for_again() {
        let mut builder = Builder::new();
        let glob = Glob::new("*.c", 0).ok().expect("a glob");
        (0..100).for_each(|_| builder.add(&glob));
        let mut into = vec![];
        builder.build().plainly_matches(b"a.c", &mut into);
        assert_eq!(into, (0..100).collect::<Vec<_>>());
    }

    #[test]
    fn a_searcher_is_used_after_its_set() {
        let set = set_of("*.c");
        let mut searcher = set.searcher();
        drop(set);
        assert_eq!(searcher.matches(b"a.c"), [0]);
        assert!(searcher.matches_all(b"a.c") && searcher.can_match_below(b"a") && !searcher.is_match(b"a.h"));
    }
}
