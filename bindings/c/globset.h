/* globset.h: sets of globs, which match paths against patterns such as "*.c" or "src/lib?.{c,h}".
 *
 * globset_set_new makes a set of many texts, globset_searcher_new makes a searcher of the set, and
 * globset_searcher_is_match matches a path with it. The file example.c, which comes with the library, is a whole program.
 * These functions are made by globset.c, which calls those of globset_raw.h. The latter are proved; globset.c and the
 * bridge to malloc are tested.
 *
 * Objects. A glob is a text that was read, with its options. A set has many globs and is ready to match. A searcher is
 * a set with the memory that one thread needs to match, and a matcher is the same for one glob. A builder takes globs
 * one by one and makes a set of them. Answers are what a question about all paths found. A walk, of the type
 * `globset_ignore`, has the ignore files of directories. Each object is made by a function that writes a pointer to it,
 * and freed once, by the `_free` of its kind, which does nothing with an object of another kind. An object keeps what
 * it needs of those that it was made of: they may be freed before it.
 *
 * Results. A function whose name has `is_match`, `matches_all`, `can_match`, `has_path` or `is_ignored` answers a
 * question: it returns 1 for yes and 0 for no. Each other function with a result returns GLOBSET_OK, which is 0, if it
 * did what it is for. An error is below 0, and globset_status_text says what it means. A program compares an answer
 * with 1, as in `if (globset_set_is_match(..) == 1)`, since an error alone counts as true, and any other result with
 * GLOBSET_OK. After an error no object was made, and the pointer to it is null. Every object holds what it held before
 * the call, and can still be used.
 *
 * Null. Each `_free` accepts null and does nothing. Where `error`, `index`, `path`, `length` or `rule` points to a result,
 * it may be null, and then the result is not written. Bytes and arrays may be null if they have no members. Any other null
 * pointer ends in GLOBSET_ENULL.
 *
 * Bytes. Texts and paths are bytes with a length, and may have NULs inside. The length GLOBSET_ZERO_TERMINATED stands
 * for a string that ends before its first NUL. A path is any bytes; the text of a glob has to be UTF-8. A length, a size
 * or a count that no array can have, such as the -1 of a `read` that failed, ends in GLOBSET_ELENGTH.
 *
 * Buffers. A function that writes a text into a buffer of `size` bytes writes a NUL behind it, and the length of the
 * text without that NUL to `length`. If the buffer has no room for both, the result is GLOBSET_EBUFFER, the buffer is
 * as it was, and `length` is written all the same: a buffer of one byte more is enough. After another error `length` is
 * 0. With size 0 the buffer may be null.
 *
 * Threads. A function that takes a pointer to const only reads the object, so any number of threads may call such
 * functions on one glob or set at once. Each other object belongs to one thread at a time: it may go to another thread
 * if what the first one did with it comes before, by a lock, or by the start or the end of a thread.
 * So each thread makes a searcher of its own, of one set.
 *
 * The caller promises: an object is one that a function of this header made, and that was not freed; bytes and arrays
 * have the length that is said, and nobody else writes them during the call; a result overlaps no other argument; no
 * call is made from a signal handler, nor in the child of a `fork` of a process with several threads.
 *
 * The library promises: it reads and writes nothing else, it returns, it never ends the process, and it keeps no
 * pointer to what it was passed. That the stack of a call does not grow with texts, paths or the depth of braces is
 * tested, and not proved.
 */
#ifndef GLOBSET_H
#define GLOBSET_H

#include <stddef.h>
#include <stdint.h>

#ifdef __cplusplus
extern "C" {
#endif

/* The version of the Rust crate globset whose globs these are, as 1,000,000 times the first number, 1,000 times the
 * second, and the third: 0.4.21. */
#define GLOBSET_VERSION 4021

/* The number of this release of the library, from 1. It grows with each release of one GLOBSET_VERSION. */
#define GLOBSET_BUILD 1

/* Both as a text, which pkg-config, CMake and pip have, too. Cargo has it as 0.4.21+1. */
#define GLOBSET_VERSION_TEXT "0.4.21.1"

/* The number of the interface: of globset.h and of globset_raw.h. It grows when a function of one of them changes or
 * goes, or when a type or the meaning of a number changes. A new function or a new error does not change it. With the
 * number N the soname of the shared library is libglobset.so.N, and all its symbols have the version GLOBSET_N. So a
 * program that was linked with a library of the same number runs with each later build of it. */
#define GLOBSET_INTERFACE 1

/* The length of a string that ends before its first NUL. No array has it: the largest one has PTRDIFF_MAX bytes. */
#define GLOBSET_ZERO_TERMINATED ((size_t)-1 / 2 + 1)

/* Begins the declaration of a function whose result has to be used. Compilers that can do so warn if it is not. GCC
 * warns after a cast to void, too; a program that needs no result assigns it to a variable. */
#if defined(__GNUC__)
#define GLOBSET_CHECKED __attribute__((warn_unused_result))
#else
#define GLOBSET_CHECKED
#endif

typedef struct globset_glob globset_glob;
typedef struct globset_set globset_set;
typedef struct globset_searcher globset_searcher;
typedef struct globset_matcher globset_matcher;
typedef struct globset_builder globset_builder;
typedef struct globset_answers globset_answers;
typedef struct globset_ignore globset_ignore;

/* ---- Globs ---- */

/* A glob matches whole paths: the glob `src` does not match the path `src/a`. A path is a list of bytes, in which `/` is
 * the only separator; `.` and `..` are names like others. These parts of a glob do not match just themselves:
 *
 *     ?                             any one byte
 *     *                             any bytes, or none; also `/`
 *     ** and a / at the start       any directories, or none
 *     a / and ** at the end         everything in a directory
 *     a / and ** and a / within     a `/`, and any directories after it
 *     ** alone                      every path
 *     {a,b}                         `a` or `b`, which are globs; braces nest
 *     [ab], [a-z]                   one byte of the class, also `/`
 *     [!ab], [^ab]                  one byte that is not in the class
 *     \ and a character             that character
 *
 * Other runs of stars mean as many single `*`. Each branch in braces has its own start and end. The options below change
 * some of this. */

/* ---- Results ---- */

enum {
    GLOBSET_OK = 0,
    GLOBSET_ENULL = -1,    /* a pointer is null that must not be */
    GLOBSET_ENOMEM = -2,   /* memory ran out */
    GLOBSET_EGLOB = -3,    /* a text is no glob: `error` says why */
    GLOBSET_EUTF8 = -4,    /* the text is not UTF-8 */
    GLOBSET_EOPTIONS = -5, /* the options have a bit that is none of those below, or a domain or a choice is none */
    GLOBSET_EOFFSETS = -6, /* an end offset is below the one before it, or beyond the bytes */
    GLOBSET_EBUFFER = -7,  /* the buffer is too small */
    GLOBSET_EKIND = -8,    /* an object is of another kind than its pointer says, as after a cast */
    GLOBSET_ENONE = -9,    /* the error is none: its kind is none of those below */
    GLOBSET_ELENGTH = -10, /* a length, a size or a count is larger than any array can be, as -1 is */
    GLOBSET_ELIMIT = -11,  /* a search has more rows than its limit */
    GLOBSET_EINDEX = -12   /* there is no answer, ignore file or line of this index */
};

/* Returns what a result means, for people: "out of memory" and the like. The text is static and never null. */
const char *globset_status_text(int status);

/* ---- Options and errors of globs ---- */

/* The options of a glob, as bits. 0 is the default: `\` escapes, and all else is off. */
enum {
    GLOBSET_CASE_INSENSITIVE = 1,      /* ASCII letters match in both cases */
    GLOBSET_LITERAL_SEPARATOR = 2,     /* `?` and `*` do not match `/` */
    GLOBSET_NO_BACKSLASH_ESCAPE = 4,   /* `\` matches itself */
    GLOBSET_EMPTY_ALTERNATES = 8,      /* empty branches in braces are kept */
    GLOBSET_ALLOW_UNCLOSED_CLASS = 16, /* a `[` that no `]` closes matches itself */
    GLOBSET_WHOLE_CHARACTER = 32       /* `?` matches one character in UTF-8 */
};

/* The kinds of errors of a text. The first error in the text counts. */
enum {
    GLOBSET_UNCLOSED_CLASS = 1,
    GLOBSET_INVALID_RANGE = 2, /* a range that goes down, as [z-a] */
    GLOBSET_UNOPENED_ALTERNATES = 3,
    GLOBSET_UNCLOSED_ALTERNATES = 4,
    GLOBSET_DANGLING_ESCAPE = 5
};

/* The error of a text. `start` and `end` are the characters (code points) of an invalid range, and 0 at other kinds.
 * `offset` is the byte of the text where the error stands, from 0: that of the `[` of an unclosed class or of one
 * with an invalid range, of a `}` that closes nothing, of the last `\`, or of the outermost `{` that is open at the end
 * of the text. A function that can write an error writes all of it: where the result is not GLOBSET_EGLOB, each member
 * is 0. No member is added in one interface. */
typedef struct globset_error {
    uint32_t kind;
    uint32_t start;
    uint32_t end;
    size_t offset;
} globset_error;

/* Writes what an error of a text says, for people, in UTF-8, such as
 * "error parsing glob '[a': unclosed character class; missing ']'".
 * The text is the one that was refused with this error. It is not read as a glob again. GLOBSET_ENONE: the kind of the
 * error is none of those above, as where a text was not refused. GLOBSET_EUTF8, GLOBSET_EBUFFER, GLOBSET_ENOMEM. */
GLOBSET_CHECKED int globset_error_text(const globset_error *error, const char *text, size_t text_length, char *buffer,
                                       size_t size, size_t *length);

/* ---- Sets ---- */

/* Makes a set of `count` texts. The first has index 0. `lengths` may be null if all texts are strings that end in NUL,
 * and `options` if all have the default. GLOBSET_EGLOB, GLOBSET_EUTF8, GLOBSET_EOPTIONS and a text that is null:
 * `index` is that of the first text that is wrong, and `error` says what is wrong with it at GLOBSET_EGLOB.
 * GLOBSET_ENOMEM. */
GLOBSET_CHECKED int globset_set_new(const char *const *texts, const size_t *lengths, const uint32_t *options,
                                    size_t count, globset_error *error, size_t *index, globset_set **set);

/* Returns how many globs a set has, and 0 for null. */
size_t globset_set_length(const globset_set *set);

/* Returns whether some glob of the set matches the path. A glob that is read as `**` followed by `/..` matches no path
 * in a set. Any number of threads may ask one set. The call allocates memory if it needs an automaton, so it may end in
 * GLOBSET_ENOMEM. It frees that memory, except for rows of its automata, which the set keeps for later calls until it
 * is freed: at most the bytes of globset_builder_set_dfa_size_limit. A program whose calls must not fail, or which needs
 * to know which globs match, makes a searcher. */
GLOBSET_CHECKED int globset_set_is_match(const globset_set *set, const char *path, size_t length);

void globset_set_free(globset_set *set);

/* ---- Searchers ---- */

/* Makes a searcher of a set. It takes all the memory that questions about one path need: eight bytes for each glob,
 * what the automata of the set need to run, and for rows of them as many bytes as globset_builder_set_dfa_size_limit
 * says. GLOBSET_ENOMEM. */
GLOBSET_CHECKED int globset_searcher_new(const globset_set *set, globset_searcher **searcher);

/* Returns whether some glob of the set matches the path. It does not allocate, and fails only for null and for an
 * object that is no searcher. */
GLOBSET_CHECKED int globset_searcher_is_match(globset_searcher *searcher, const char *path, size_t length);

/* Returns whether all globs of the set match the path. It fails only as globset_searcher_is_match does. */
GLOBSET_CHECKED int globset_searcher_matches_all(globset_searcher *searcher, const char *path, size_t length);

/* Finds the globs of the set that match the path. GLOBSET_OK, also if none does: `indexes` points to their indexes,
 * ascending, and `count` says how many they are. They may be read until the next call that the searcher is passed to. It
 * fails only as globset_searcher_is_match does; then `indexes` is null and `count` is 0. */
GLOBSET_CHECKED int globset_searcher_find(globset_searcher *searcher, const char *path, size_t length,
                                          const size_t **indexes, size_t *count);

/* Returns whether some glob of the set matches some path below the directory: the directory, a `/`, and any bytes, perhaps
 * none. A walk need not open a directory whose answer is 0. It fails only as globset_searcher_is_match does. */
GLOBSET_CHECKED int globset_searcher_can_match_below(globset_searcher *searcher, const char *folder, size_t length);

/* Asks globset_searcher_is_match of `count` paths. `paths` has the bytes of all, one path behind another, and `length`
 * bytes in all. Path number i is the bytes from end_offsets[i - 1], and from 0 for the first, up to end_offsets[i],
 * without that one. GLOBSET_OK: answers[i] is 1 if some glob matches path number i, and else 0. GLOBSET_EOFFSETS, and then
 * no answer was written. The call takes no memory. */
GLOBSET_CHECKED int globset_searcher_is_match_many(globset_searcher *searcher, const char *paths, size_t length,
                                                   const size_t *end_offsets, size_t count, uint8_t *answers);

/* Finds the globs that match each of `count` paths, which are passed as to globset_searcher_is_match_many. `indexes`
 * has room for `size` numbers, and `index_count` is how many indexes there are. GLOBSET_OK: `indexes` has those of the
 * first path first; those of path number i are from index_ends[i - 1], and from 0 for the first, up to index_ends[i],
 * without that one. GLOBSET_EBUFFER: there is no room for so many, and `indexes` and `index_ends` are as they were.
 * GLOBSET_EOFFSETS and GLOBSET_ENOMEM, and then `index_count` is 0: the call takes some bytes for each path and each
 * index, and gives them back. */
GLOBSET_CHECKED int globset_searcher_find_many(globset_searcher *searcher, const char *paths, size_t length,
                                               const size_t *end_offsets, size_t count, size_t *index_ends,
                                               size_t *indexes, size_t size, size_t *index_count);

void globset_searcher_free(globset_searcher *searcher);

/* ---- One glob ---- */

/* Reads a glob. GLOBSET_EGLOB: `error` says what is wrong with the text. GLOBSET_EUTF8, GLOBSET_EOPTIONS,
 * GLOBSET_ENOMEM. */
GLOBSET_CHECKED int globset_glob_new(const char *text, size_t length, uint32_t options, globset_error *error,
                                     globset_glob **glob);

/* Writes the text that the glob was read from. GLOBSET_EBUFFER, GLOBSET_ENOMEM. */
GLOBSET_CHECKED int globset_glob_text(const globset_glob *glob, char *buffer, size_t size, size_t *length);

/* Returns the options that the glob was read under, and 0 for null. */
uint32_t globset_glob_options(const globset_glob *glob);

/* Writes a regular expression that matches the paths that the glob matches, in the syntax of the Rust crate regex, such
 * as `(?-u)^.*\.c$`. It is over bytes, which `(?-u)` says there, and its `.` has to match a line feed, too. PCRE2 reads
 * what follows `(?-u)`, with the options PCRE2_DOTALL and PCRE2_DOLLAR_ENDONLY and without PCRE2_UTF. GLOBSET_EBUFFER,
 * GLOBSET_ENOMEM. */
GLOBSET_CHECKED int globset_glob_regex(const globset_glob *glob, char *buffer, size_t size, size_t *length);

void globset_glob_free(globset_glob *glob);

/* Makes a matcher of a glob, with all the memory that its questions need. GLOBSET_ENOMEM. */
GLOBSET_CHECKED int globset_matcher_new(const globset_glob *glob, globset_matcher **matcher);

/* Returns whether the glob matches the path. It does not allocate, and fails only for null and for an object that is
 * no matcher. */
GLOBSET_CHECKED int globset_matcher_is_match(globset_matcher *matcher, const char *path, size_t length);

void globset_matcher_free(globset_matcher *matcher);

/* Writes the text with each of `?`, `*`, `[`, `]`, `{` and `}` in brackets: a glob that matches this text and no other,
 * if its options are the default and the text has no `\`. GLOBSET_EUTF8, GLOBSET_EBUFFER, GLOBSET_ENOMEM. */
GLOBSET_CHECKED int globset_escape(const char *text, size_t text_length, char *buffer, size_t size, size_t *length);

/* ---- Sets, glob by glob ---- */

/* Makes a builder without globs. GLOBSET_ENOMEM. */
GLOBSET_CHECKED int globset_builder_new(globset_builder **builder);

/* Adds a copy of a glob after those that the builder has. GLOBSET_ENOMEM. */
GLOBSET_CHECKED int globset_builder_add(globset_builder *builder, const globset_glob *glob);

/* Sets how many bytes of rows of automata a set may keep, for the sets that the builder makes from then on. 16 MiB is
 * the default. The rows that a set keeps take at most so many bytes at any time, and so do those of a searcher: an
 * automaton has the share S = bytes * states / (states of all automata), a cache of rows for it takes at least
 * L = max(4160, 16 * ((2 * states + 2 * globs + starts + 1) / 3 + 1)) bytes, the set keeps at most N = min(4, S / L)
 * caches for it, each of at most S / N bytes, a searcher has one of them, and the automaton has none if S is less than L
 * or than 16 KiB. A cache takes besides at most 1 KiB, and two bits for each state and each glob. The caches of a searcher
 * take at most 8 MiB together, but each may take L. No answer depends on the limit: with fewer bytes a question may take
 * more time. With 0 there are no rows. */
GLOBSET_CHECKED int globset_builder_set_dfa_size_limit(globset_builder *builder, size_t bytes);

/* Makes the set of the builder's globs, in the order of their additions: the first has index 0. Then the builder
 * has no globs, and can be used for another set. GLOBSET_ENOMEM. */
GLOBSET_CHECKED int globset_builder_build(globset_builder *builder, globset_set **set);

void globset_builder_free(globset_builder *builder);

/* ---- Questions about all paths ---- */

/* These questions are about all paths of a domain at once, and globs match in them as their matchers do. A search goes
 * from the start of a path on, over rows: a row is a set of states of the globs, and a place in the domain. Paths may
 * lead to exponentially many rows, so each search has a limit on them, such as 100000. If there are more, the answer is
 * not known. Memory is at most linear in the rows, times the states of the globs. */

/* The domains. */
enum {
    GLOBSET_ALL_PATHS = 0,     /* all lists of bytes */
    GLOBSET_RELATIVE_PATHS = 1 /* components with a `/` between them; none is empty, `.` or `..`, or has a NUL */
};

/* Which of the globs of a list that match a path decides about it. */
enum { GLOBSET_FIRST_DECIDES = 0, GLOBSET_LAST_DECIDES = 1 };

/* Finds out whether each path of the domain that the glob matches is matched by some of `count` other globs. GLOBSET_OK:
 * the answer of index 0 has a shortest path that they miss, if there is one. GLOBSET_EOPTIONS, GLOBSET_ENOMEM. */
GLOBSET_CHECKED int globset_covering(const globset_glob *glob, const globset_glob *const *by, size_t count,
                                     uint32_t domain, size_t limit, globset_answers **answers);

/* Finds out whether two globs match some path of the domain in common. GLOBSET_OK: the answer of index 0 has a shortest
 * path that both match, if there is one. GLOBSET_EOPTIONS, GLOBSET_ENOMEM. */
GLOBSET_CHECKED int globset_overlap(const globset_glob *a, const globset_glob *b, uint32_t domain, size_t limit,
                                    globset_answers **answers);

/* Finds out for each of `count` globs, of which the first or the last that matches a path decides about it, whether it
 * ever decides about a path of the domain. GLOBSET_OK: the answer of its index has a shortest path about which it
 * decides, if there is one, and otherwise the indexes of globs that cover it. Each search has the limit.
 * GLOBSET_EOPTIONS, GLOBSET_ENOMEM. */
GLOBSET_CHECKED int globset_unreachable(const globset_glob *const *globs, size_t count, uint32_t decides,
                                        uint32_t domain, size_t limit, globset_answers **answers);

/* Returns whether the answer of an index has a path. Then `path` points to its `length` bytes, which no NUL follows and
 * which may be read until the next call that the answers are passed to; otherwise `path` is null and `length` is 0.
 * GLOBSET_ELIMIT: it is not known whether there is a path, since a search had more rows than its limit. GLOBSET_EINDEX.
 * It takes no memory. */
GLOBSET_CHECKED int globset_answers_has_path(globset_answers *answers, size_t index, const char **path, size_t *length);

/* Finds the globs that an answer of globset_unreachable names. GLOBSET_OK: `indexes` points to their indexes, and `count`
 * says how many they are: the globs cover the glob of the answer together, and none of them can be left out. It is one
 * if some glob covers it alone. There are none if the glob matches no path of the domain, or if the answer has a path.
 * They may be read until the next call that the answers are passed to. Of an answer of globset_ignore_unreachable they are
 * indexes of rules. GLOBSET_ELIMIT, GLOBSET_EINDEX, and then `indexes` is null and `count` is 0. It takes no memory. */
GLOBSET_CHECKED int globset_answers_indexes(globset_answers *answers, size_t index, const size_t **indexes,
                                            size_t *count);

void globset_answers_free(globset_answers *answers);

/* ---- Ignore files ---- */

/* A walk decides about paths by ignore files, such as `.gitignore`, as git does. It begins in the top directory, takes the
 * ignore files of each directory that it enters, and forgets them as it leaves.
 * git reads three kinds of files. Of the files of one directory the later one takes precedence, so a program adds, in the
 * top directory, the file that core.excludesFile names, then `.git/info/exclude`, then `.gitignore`:
 *
 *     globset_ignore *ignore = NULL;
 *     int result = globset_ignore_new(0, &ignore);
 *     if (result == GLOBSET_OK) result = globset_ignore_add_file(ignore, "*.o\nout/\n", GLOBSET_ZERO_TERMINATED);
 *     if (result == GLOBSET_OK) result = globset_ignore_enter(ignore, "src", GLOBSET_ZERO_TERMINATED);
 *     if (result == GLOBSET_OK) result = globset_ignore_add_file(ignore, "!keep.o\n", GLOBSET_ZERO_TERMINATED);
 *     if (result == GLOBSET_OK) result = globset_ignore_is_ignored(ignore, "a.o", 3, 0, GLOBSET_BY_GIT, NULL);
 *
 * The last result is 1, and that of `keep.o` would be 0. The calls open no files. A path is bytes with a `/` between
 * components, and is relative to the directory that the walk is in. A line of a file with a pattern is a rule, which
 * ignores the paths that it matches, or keeps them if it begins with `!`. Of several rules the one in the deepest
 * directory decides, and of those the last. */

/* The options of a walk, as bits. */
enum {
    GLOBSET_IGNORE_CASE = 1 /* ASCII letters match in both cases, as with the setting core.ignoreCase of git */
};

/* What decides about a path. After the lines `/src` and `!/src/a` git ignores `src/a`, and the nearest decision keeps it;
 * about `src/b`, which no rule matches, git and the nearest decision decide as about `src`, and the path alone does not. */
enum {
    GLOBSET_BY_GIT = 0,     /* as git: everything below an ignored directory is ignored */
    GLOBSET_BY_NEAREST = 1, /* the path, or else the nearest directory above it about which a rule decides */
    GLOBSET_BY_PATH = 2     /* the path alone: no directory above it counts */
};

/* What globset_ignore_decide_many finds out about a path. */
enum { GLOBSET_UNDECIDED = 0, GLOBSET_IGNORED = 1, GLOBSET_KEPT = 2 };

/* The rule that decides: the number of its line, from 1, and the index of its file among those that are there, from 0, in
 * the order in which they were added. Both are 0 if no rule decides. No member is added in one interface. */
typedef struct globset_rule {
    size_t file;
    size_t line;
} globset_rule;

/* The rule that decides about one of many paths: the members of globset_rule, and what globset_ignore_decide_many finds
 * out about the path. No member is added in one interface. */
typedef struct globset_told_rule {
    size_t file;
    size_t line;
    uint32_t decision;
} globset_told_rule;

/* Makes a walk in its top directory, without files. GLOBSET_EOPTIONS, GLOBSET_ENOMEM. */
GLOBSET_CHECKED int globset_ignore_new(uint32_t options, globset_ignore **ignore);

/* Sets how many bytes of rows of its automaton an ignore file may keep, for the files that are added from then on. It
 * means for a file what globset_builder_set_dfa_size_limit means for a set, and has the same default. A file begins with
 * few rows, and questions take memory for more as they need it; where there is none they go on without. */
GLOBSET_CHECKED int globset_ignore_set_dfa_size_limit(globset_ignore *ignore, size_t bytes);

/* Adds an ignore file of the directory that the walk is in, by its bytes, which are copied. It takes precedence over the
 * files that are there. A line that git cannot read matches nothing, and is no error. Time and memory are linear in the
 * file. GLOBSET_ENOMEM. */
GLOBSET_CHECKED int globset_ignore_add_file(globset_ignore *ignore, const char *file, size_t length);

/* Enters the directory of this name: one component, or several with a `/` between them. A `/` at the end is left out. It
 * decides about the directory as globset_ignore_is_ignored does by GLOBSET_BY_GIT. GLOBSET_ENOMEM. */
GLOBSET_CHECKED int globset_ignore_enter(globset_ignore *ignore, const char *name, size_t length);

/* Goes up to where the walk was before the last globset_ignore_enter, without the files that were added since. In the top
 * directory it does nothing. It takes no memory. */
GLOBSET_CHECKED int globset_ignore_leave(globset_ignore *ignore);

/* Returns whether a rule ignores the path. `is_directory` is 0 if it is no directory. A path that ends with `/` is of a
 * directory, and is decided about without that `/`. `rule` is the rule that decides: if the answer is 0 and the line is
 * not 0, that rule keeps the path. After an error both members are 0. Time is a pass over the path for each file and, if a
 * rule matches a directory above it and `by` is not GLOBSET_BY_PATH, at most such passes for each directory that the path
 * names. GLOBSET_EOPTIONS: `by` is none of those above. GLOBSET_ENOMEM: the walk keeps the memory that it takes for later
 * calls. */
GLOBSET_CHECKED int globset_ignore_is_ignored(globset_ignore *ignore, const char *path, size_t length, int is_directory,
                                              uint32_t by, globset_rule *rule);

/* Decides about `count` paths, which are passed as to globset_searcher_is_match_many. A path that ends with `/` is of a
 * directory, and is decided about without that `/`. GLOBSET_OK: answers[i] is GLOBSET_IGNORED if a rule ignores path
 * number i, GLOBSET_KEPT if a rule keeps it, and GLOBSET_UNDECIDED if no rule decides. GLOBSET_EOPTIONS,
 * GLOBSET_EOFFSETS and GLOBSET_ENOMEM, and then no answer was written: the call takes a few bytes for each path, and gives
 * them back. Otherwise time and memory are those of globset_ignore_is_ignored. */
GLOBSET_CHECKED int globset_ignore_decide_many(globset_ignore *ignore, const char *paths, size_t length,
                                               const size_t *end_offsets, size_t count, uint32_t by, uint8_t *answers);

/* Finds the rules that decide about `count` paths, which are passed as to globset_ignore_decide_many. GLOBSET_OK: rules[i]
 * is the rule that decides about path number i. Otherwise as globset_ignore_decide_many, but that the call takes a few
 * times as many bytes as there are in `rules`. */
GLOBSET_CHECKED int globset_ignore_rules_many(globset_ignore *ignore, const char *paths, size_t length,
                                              const size_t *end_offsets, size_t count, uint32_t by,
                                              globset_told_rule *rules);

/* Finds the lines of a file that git cannot read, such as `[a`, which match nothing. The file is that of an index as in
 * globset_rule. GLOBSET_OK: `lines` points to the numbers of the lines, ascending, from 1, and `count` says how many they
 * are. They may be read until the next call that the walk is passed to. Blank lines and comments are not among them.
 * GLOBSET_EINDEX: there is no such file, and then `lines` is null and `count` is 0. It takes no memory. */
GLOBSET_CHECKED int globset_ignore_unread_lines(globset_ignore *ignore, size_t file, const size_t **lines,
                                                size_t *count);

/* Finds the text of a line, as `git check-ignore -v` prints that of a rule: without what git removes at the end of a line. The
 * file and the line are those of globset_rule. GLOBSET_OK: `text` points to the `length` bytes of the text, which no NUL
 * follows and which may be read until the next call that the walk is passed to. GLOBSET_EINDEX: there is no such file or line,
 * and then `text` is null and `length` is 0. Time is linear in the file up to the line. It takes no memory. */
GLOBSET_CHECKED int globset_ignore_line_text(globset_ignore *ignore, size_t file, size_t line, const char **text,
                                             size_t *length);

/* What globset_ignore_unreachable finds out about a rule. */
enum {
    GLOBSET_UNKNOWN = 0,   /* nothing: a search had more rows than its limit */
    GLOBSET_DECIDES = 1,   /* it decides about some path */
    GLOBSET_COVERED = 2,   /* it never decides: later rules cover it, or it matches no path of the domain */
    GLOBSET_IN_IGNORED = 3 /* it never decides: each path that it would decide about lies below an ignored directory */
};

/* Finds out for each rule of a file whether it ever decides about a path of the domain by GLOBSET_BY_GIT, if there were no
 * other file. The file is that of an index as in globset_rule, paths begin in its directory, and the domains are
 * GLOBSET_ALL_PATHS and GLOBSET_RELATIVE_PATHS. GLOBSET_OK: the answer of index i is about rule number i of the file, from 0,
 * in the order of the lines. globset_answers_rule and globset_answers_lines tell it, and globset_answers_has_path tells a
 * shortest path about which the rule decides, if there is one. Each search has the limit. GLOBSET_EINDEX: there is no such
 * file. GLOBSET_EOPTIONS, GLOBSET_ENOMEM. */
GLOBSET_CHECKED int globset_ignore_unreachable(globset_ignore *ignore, size_t file, uint32_t domain, size_t limit,
                                               globset_answers **answers);

/* Finds the rule that an answer of globset_ignore_unreachable is about. GLOBSET_OK: `line` is the number of its line, and
 * `found` is one of the numbers above. GLOBSET_EINDEX: there are not so many rules, and then both are 0. It takes no memory. */
GLOBSET_CHECKED int globset_answers_rule(globset_answers *answers, size_t index, size_t *line, uint32_t *found);

/* Finds the rules that decide instead of the one that an answer of globset_ignore_unreachable is about. `lines` has room for
 * `size` numbers, and `count` is how many rules they are. GLOBSET_OK: the first `count` numbers are those of their lines. At
 * GLOBSET_COVERED these rules cover the rule together, and none of them can be left out. It is one if some rule covers it
 * alone, and there are none if it matches no path of the domain. At GLOBSET_IN_IGNORED it is one, which ignores such a
 * directory, and at GLOBSET_DECIDES there are none. GLOBSET_EBUFFER: there is no room for so many, and `lines` is as it was.
 * GLOBSET_ELIMIT, GLOBSET_EINDEX, and then `count` is 0. It takes no memory. */
GLOBSET_CHECKED int globset_answers_lines(globset_answers *answers, size_t index, size_t *lines, size_t size,
                                          size_t *count);

void globset_ignore_free(globset_ignore *ignore);

/* ---- Versions ---- */

/* Returns GLOBSET_VERSION of the library, which may differ from that of the header. */
uint32_t globset_version(void);

/* Returns GLOBSET_VERSION_TEXT of the library. The text is static. */
const char *globset_version_text(void);

/* Returns GLOBSET_INTERFACE of the library. */
uint32_t globset_interface(void);

#ifdef __cplusplus
}
#endif

#endif
