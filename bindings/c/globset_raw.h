/* globset_raw.h: the proved functions, as bindings of other languages call them. Programs in C and C++ call those of
 * globset.h, which are made of these (globset.c).
 *
 * The functions are written in Rattle. Each has a contract that the checker proves: it says what the function returns
 * and leaves if its caller keeps the promises below. Parameters are pointers, lengths and structs of one pointer, and
 * no pointer is null. The bits of options, the kinds of errors, the domains, which match decides, what decides about a
 * path and the two numbers of the version are those of globset.h.
 *
 * Objects. A glob, a matcher, a builder, a set, a searcher of a set or of a matcher, answers and an ignore (a walk with
 * its ignore files) are objects on the heap. A handle is a struct of one pointer.
 *
 *  - Who has an object *owns* it: `globset_owned`. An owned object is in one call at a time. It is freed once, by
 *    `globset_raw_free`, and its handle is not used after that. It may go to another thread, which then uses and frees
 *    it, if what the first thread did with it comes before, by a lock, or by the start or the end of a thread.
 *  - A glob, a matcher and a set may be *lent*: `globset_lent` has the same address. Lent objects are only read, so one
 *    object may be lent to any number of calls at once, in any threads. Each call gets a `globset_lent` of its own (the
 *    struct, not the object). While an object is lent, from before the call until it has returned, nobody passes it to
 *    a call as `globset_owned`: it is not freed, for instance.
 *  - A *plain* call, whose name ends in `_plain`, is on a set or a matcher alone: it takes what memory it needs, and
 *    gives it back. A set and a matcher keep caches of rows between plain calls, until they are freed: at most four for
 *    each automaton. The first two calls that would use one make none.
 *  - A searcher is a set or a matcher with all the memory that one thread matches with. It shares what these match with,
 *    and so may be used after they were freed. It belongs to one thread at a time, and several threads make a searcher
 *    each. A question about one path takes no memory and cannot fail. A program that asks about many paths asks a
 *    searcher.
 *  - A walk has the ignore files of directories. It belongs to one thread at a time.
 *
 * Texts and paths are bytes with a length. They need no NUL at the end and may have NULs inside. A path is any bytes.
 * The text of a glob has to be UTF-8, and the library tests that.
 *
 * What the caller promises in every call:
 *
 *  - Each pointer and the length beside it are one array that stays allocated, and that nobody else writes, during the
 *    call. At the exported functions it is never null, at length 0 too. A pointer to a result points to memory that
 *    nobody else uses during the call, and that overlaps no other argument.
 *  - A handle is one that a call of this library wrote, or a copy of that. The caller neither reads nor writes through
 *    `at`. A call that is passed the address of a handle of an owned object may write the handle: the one that is there
 *    afterwards counts.
 *  - No call is made from a signal handler, nor in the child of a `fork` of a process with several threads.
 *  - There is stack for a call. What it takes does not grow with texts, paths or the depth of braces.
 *
 * What the library promises in every call: it reads and writes nothing else, it returns, it never ends the process, and
 * it keeps nothing of its arguments but what is said below. Running out of memory is the status GLOBSET_OUT_OF_MEMORY;
 * all objects then hold what they held before the call, but that a walk may have kept more memory for later calls and
 * that a searcher which was asked for the indexes of many paths may have others, and can be used on. The status
 * GLOBSET_WRONG_KIND comes exactly if an object is of another kind than the call asks for, and all objects are then as
 * they were; where a call takes ends of paths, a domain or what decides, these are looked at first. After any status
 * but GLOBSET_DONE, GLOBSET_NO and GLOBSET_YES no new object was made, and each result that has no sentence of its own
 * is as it was.
 */
#ifndef GLOBSET_RAW_H
#define GLOBSET_RAW_H

#include "globset.h"

#ifdef __cplusplus
extern "C" {
#endif

/* ---- Numbers ---- */

/* What a call returns. A number means the same in all calls. */
typedef uint32_t globset_status;
enum {
    GLOBSET_DONE = 0,           /* the call did what it is for */
    GLOBSET_NO = 1,             /* the answer is no */
    GLOBSET_YES = 2,            /* the answer is yes */
    GLOBSET_OUT_OF_MEMORY = 3,  /* memory ran out */
    GLOBSET_REJECTED = 4,       /* the text is no glob: it has an error */
    GLOBSET_NOT_UTF8 = 5,       /* the text is not UTF-8 */
    GLOBSET_UNKNOWN_OPTION = 6, /* globset.h has no such bit of options, or no such domain or choice */
    GLOBSET_WRONG_KIND = 7,     /* an object is not of the kind that is asked for, as a glob in place of a set */
    GLOBSET_BAD_ENDS = 8,       /* an end of a path is below the one before it, or beyond the bytes, or has no answer */
    GLOBSET_TOO_SMALL = 9,      /* the text is longer than the room for it, or the indexes are more */
    GLOBSET_LIMIT_REACHED = 10, /* a search has more rows than its limit */
    GLOBSET_BAD_INDEX = 11,     /* there is no answer, or no ignore file, of this index, or no line of this number */
    GLOBSET_BELOW_IGNORED = 12  /* each path about which a rule decides alone is below an ignored directory */
};

/* ---- Types ---- */

/* An object that the caller owns. Before a call that makes an object, `at` may be anything. */
typedef struct globset_owned {
    void *at;
} globset_owned;

/* An object that is lent: `at` is that of the `globset_owned`. */
typedef struct globset_lent {
    const void *at;
} globset_lent;

/* Bytes that answers or a walk lend. Before a call that writes them they have to be valid: with the count 0 `at` is any
 * address of a byte. */
typedef struct globset_bytes {
    const uint8_t *at;
    size_t count;
} globset_bytes;

/* Indexes that a searcher or answers lend, and numbers of lines that answers or a walk lend. Before a call that writes
 * them they have to be valid: with the count 0 `at` is any address of a size_t. */
typedef struct globset_indexes {
    const size_t *at;
    size_t count;
} globset_indexes;

/* ---- Exported functions ---- */

/* Reads a glob. GLOBSET_DONE: `out` owns the glob of exactly this text and these options. GLOBSET_REJECTED: `error` is
 * the text's first error. GLOBSET_NOT_UTF8, GLOBSET_UNKNOWN_OPTION, GLOBSET_OUT_OF_MEMORY. */
globset_status globset_raw_glob_new(const uint8_t *text, size_t text_len, uint32_t options, globset_error *error,
                                    globset_owned *out);

/* Writes what an error of a text says, for people, in UTF-8: "error parsing glob '[a': unclosed character class;
 * missing ']'". The error is one that globset_raw_glob_new told of this text, which is not read as a glob again.
 * GLOBSET_DONE: the first `*needed` bytes of `room` are what it says, and the others are as they were.
 * GLOBSET_TOO_SMALL: `room` is as it was, and `*needed` is the length of what it says. GLOBSET_NO: the kind is none of
 * globset.h, or the ends of a range are no characters. GLOBSET_NOT_UTF8, GLOBSET_OUT_OF_MEMORY. */
globset_status globset_raw_error_text(const globset_error *error, const uint8_t *text, size_t text_len, uint8_t *room,
                                      size_t room_len, size_t *needed);

/* Writes a regular expression that matches the paths that the glob matches. GLOBSET_DONE and GLOBSET_TOO_SMALL as at
 * globset_raw_error_text. GLOBSET_WRONG_KIND, GLOBSET_OUT_OF_MEMORY. */
globset_status globset_raw_glob_regex(globset_lent *glob, uint8_t *room, size_t room_len, size_t *needed);

/* Writes the text that the glob was read from. GLOBSET_DONE and GLOBSET_TOO_SMALL as at globset_raw_error_text.
 * GLOBSET_WRONG_KIND, GLOBSET_OUT_OF_MEMORY. */
globset_status globset_raw_glob_text(globset_lent *glob, uint8_t *room, size_t room_len, size_t *needed);

/* The options that the glob was read under. GLOBSET_DONE: their bits are in `options`. GLOBSET_WRONG_KIND. It takes no
 * memory. */
globset_status globset_raw_glob_options(globset_lent *glob, uint32_t *options);

/* Makes a matcher of one glob. It keeps a copy of the glob, which may be freed. GLOBSET_DONE, GLOBSET_WRONG_KIND,
 * GLOBSET_OUT_OF_MEMORY. */
globset_status globset_raw_matcher_new(globset_lent *glob, globset_owned *out);

/* Whether the matcher's glob matches the path: GLOBSET_YES or GLOBSET_NO. GLOBSET_WRONG_KIND, GLOBSET_OUT_OF_MEMORY. */
globset_status globset_raw_matcher_is_match_plain(globset_lent *matcher, const uint8_t *path, size_t path_len);

/* Makes a searcher of a matcher. It shares the matcher's automaton and has a copy of the glob, so the matcher may be
 * freed. If the glob needs an automaton, it also takes two bits for each of its states, and up to 4 MiB for its rows, or
 * more if it has hundreds of thousands of states. GLOBSET_DONE, GLOBSET_WRONG_KIND, GLOBSET_OUT_OF_MEMORY. */
globset_status globset_raw_matcher_searcher_new(globset_lent *matcher, globset_owned *out);

/* Whether the glob of the searcher's matcher matches the path: GLOBSET_YES or GLOBSET_NO, the same as of
 * globset_raw_matcher_is_match_plain. It takes no memory. GLOBSET_WRONG_KIND: the object is no searcher of a matcher,
 * and is as it was. */
globset_status globset_raw_matcher_searcher_is_match(globset_owned *searcher, const uint8_t *path, size_t path_len);

/* Makes a builder without globs. GLOBSET_DONE, GLOBSET_OUT_OF_MEMORY. */
globset_status globset_raw_builder_new(globset_owned *out);

/* Adds a copy of a glob after those that the builder has. GLOBSET_DONE; GLOBSET_WRONG_KIND and GLOBSET_OUT_OF_MEMORY,
 * and then the builder has the globs that it had. */
globset_status globset_raw_builder_add(globset_owned *builder, globset_lent *glob);

/* Sets how many bytes of rows of automata a set may keep, for the sets that the builder makes from then on, as
 * globset_builder_set_dfa_size_limit of globset.h does. GLOBSET_DONE, GLOBSET_WRONG_KIND. It takes no memory. */
globset_status globset_raw_builder_set_dfa_size_limit(globset_owned *builder, size_t bytes);

/* Makes the set of the builder's globs, in the order in which they were added: the first has index 0. GLOBSET_DONE: the
 * builder has no globs any more, and their memory is given back; the set has what it needs to match. GLOBSET_WRONG_KIND
 * and GLOBSET_OUT_OF_MEMORY, and then the builder has the globs that it had. */
globset_status globset_raw_builder_build(globset_owned *builder, globset_owned *out);

/* Makes the set of globs that are lent, in their order: the first has index 0. Each element of the array is the handle
 * of one glob, and several may be of the same. The globs are read, and not copied: they may be freed, and the set has
 * what it needs to match. It may keep 16 MiB of rows. GLOBSET_DONE: `out` owns the set. GLOBSET_WRONG_KIND: an object
 * is no glob. GLOBSET_OUT_OF_MEMORY. */
globset_status globset_raw_set_of_globs(globset_lent *globs, size_t globs_len, globset_owned *out);

/* The number of globs of a set. GLOBSET_DONE: it is in `len`. GLOBSET_WRONG_KIND. It takes no memory. */
globset_status globset_raw_set_len(globset_lent *set, size_t *len);

/* Whether some glob of the set matches the path: GLOBSET_YES or GLOBSET_NO. A glob that is read as `**` followed by
 * `/..` matches no path in a set. GLOBSET_WRONG_KIND, GLOBSET_OUT_OF_MEMORY. */
globset_status globset_raw_set_is_match_plain(globset_lent *set, const uint8_t *path, size_t path_len);

/* Whether all globs of the set match the path, as globset_raw_set_is_match_plain. */
globset_status globset_raw_set_matches_all_plain(globset_lent *set, const uint8_t *path, size_t path_len);

/* Writes the indexes of the globs of the set that match the path, ascending. GLOBSET_DONE: the first `*needed` numbers
 * of `room` are the indexes, and the others are as they were. GLOBSET_TOO_SMALL: `*needed` is how many indexes there
 * are, and `room` is as it was. GLOBSET_WRONG_KIND, GLOBSET_OUT_OF_MEMORY. */
globset_status globset_raw_set_matches_plain(globset_lent *set, const uint8_t *path, size_t path_len, size_t *room,
                                             size_t room_len, size_t *needed);

/* Makes a searcher of a set. It shares what the set matches with, so the set may be freed. It takes the memory that
 * questions about one path need: eight bytes and a bit for each glob, two bits for each state of the largest automaton,
 * and for rows of automata as many bytes as globset_builder_set_dfa_size_limit of globset.h says. GLOBSET_DONE,
 * GLOBSET_WRONG_KIND, GLOBSET_OUT_OF_MEMORY. */
globset_status globset_raw_searcher_new(globset_lent *set, globset_owned *out);

/* Whether some glob of the searcher's set matches the path: GLOBSET_YES or GLOBSET_NO, the same as of
 * globset_raw_set_is_match_plain. It takes no memory. GLOBSET_WRONG_KIND: the object is no searcher, and is as it was. */
globset_status globset_raw_searcher_is_match(globset_owned *searcher, const uint8_t *path, size_t path_len);

/* Whether all globs of the searcher's set match the path: GLOBSET_YES or GLOBSET_NO. Otherwise as
 * globset_raw_searcher_is_match. */
globset_status globset_raw_searcher_matches_all(globset_owned *searcher, const uint8_t *path, size_t path_len);

/* Finds the indexes of the globs of the searcher's set that match the path, ascending. It takes no memory.
 * GLOBSET_DONE: the searcher has them in place of those that it found before, and `count` tells how many they are.
 * GLOBSET_WRONG_KIND: the object is no searcher, and is as it was. */
globset_status globset_raw_searcher_find(globset_owned *searcher, const uint8_t *path, size_t path_len, size_t *count);

/* Lends the indexes that the last globset_raw_searcher_find found, or the last globset_raw_searcher_matches_many of its
 * last path, or none if there was no such call. It takes no memory. GLOBSET_DONE: they may be read until the next call
 * that the searcher is passed to, globset_raw_free too. The caller writes nothing there. GLOBSET_WRONG_KIND: the object
 * is no searcher, and `indexes` has the count 0. */
globset_status globset_raw_searcher_found(globset_owned *searcher, globset_indexes *indexes);

/* Asks globset_raw_searcher_is_match of many paths. Path number i is the bytes from ends[i - 1] (from 0 for the first) up
 * to ends[i], without that one. GLOBSET_DONE: answers[i] is 1 if some glob matches path number i, and else 0. Otherwise
 * no answer was written: GLOBSET_BAD_ENDS, also if `answers` has not one number for each path; GLOBSET_WRONG_KIND. The
 * call takes no memory. Bytes after the last end belong to no path. */
globset_status globset_raw_searcher_is_match_many(globset_owned *searcher, const uint8_t *paths, size_t paths_len,
                                                  const size_t *ends, size_t ends_len, uint8_t *answers,
                                                  size_t answers_len);

/* Finds the indexes of each of many paths, as globset_raw_searcher_find finds those of one, with ends as at
 * globset_raw_searcher_is_match_many. GLOBSET_DONE: the first `*needed` numbers of `room` are the indexes, those of the
 * first path first, and the others are as they were; the indexes of path number i are those from index_ends[i - 1]
 * (from 0 for the first) up to index_ends[i], without that one. GLOBSET_TOO_SMALL: `*needed` is how many indexes there
 * are, and `room` and `index_ends` are as they were. GLOBSET_BAD_ENDS, also if `index_ends` has not one number for each
 * path; GLOBSET_WRONG_KIND; GLOBSET_OUT_OF_MEMORY: the call takes some bytes for each path and each index, and gives them
 * back. After GLOBSET_BAD_ENDS and GLOBSET_WRONG_KIND the object is as it was. Otherwise the searcher has the indexes
 * of the last path, if there is one, in place of those that it found before. */
globset_status globset_raw_searcher_matches_many(globset_owned *searcher, const uint8_t *paths, size_t paths_len,
                                                 const size_t *ends, size_t ends_len, size_t *index_ends,
                                                 size_t index_ends_len, size_t *room, size_t room_len, size_t *needed);

/* Whether some glob of the searcher's set matches some path below the directory: the directory, a `/`, and any
 * bytes, perhaps none: GLOBSET_YES or GLOBSET_NO. A walk need not open a directory whose answer is GLOBSET_NO.
 * Otherwise as globset_raw_searcher_is_match. */
globset_status globset_raw_searcher_can_match_below(globset_owned *searcher, const uint8_t *folder, size_t folder_len);

/* Writes the text with each of `?`, `*`, `[`, `]`, `{` and `}` in brackets: a glob that matches this text and no other,
 * if its options are the default and the text has no `\`. GLOBSET_DONE and GLOBSET_TOO_SMALL as at
 * globset_raw_error_text. GLOBSET_NOT_UTF8, GLOBSET_OUT_OF_MEMORY. */
globset_status globset_raw_escape(const uint8_t *text, size_t text_len, uint8_t *room, size_t room_len, size_t *needed);

/* Decides whether globs cover a glob: whether some of the globs `by` matches each path of the domain that the glob
 * matches. Each element of the array is the handle of one glob, and several may be of the same. The globs are copied.
 * Globs match as their matchers do. GLOBSET_DONE: `out` owns the answer, which has the index 0. Its path is a shortest
 * path of the domain that the glob matches and none of the others does. If they cover the glob, there is no path, and
 * there are no indexes. Otherwise paths lead to more than `limit` rows, of which globset.h says what they are.
 * GLOBSET_UNKNOWN_OPTION: there is no such domain. GLOBSET_WRONG_KIND, GLOBSET_OUT_OF_MEMORY. */
globset_status globset_raw_covering(globset_lent *glob, globset_lent *by, size_t by_len, uint32_t domain, size_t limit,
                                    globset_owned *out);

/* Decides whether two globs match some path in common. GLOBSET_DONE: `out` owns the answer, which has the index 0. Its
 * path is a shortest path of the domain that both match. If they match none in common, there is no path, and there are
 * no indexes. Otherwise as globset_raw_covering. */
globset_status globset_raw_overlap(globset_lent *a, globset_lent *b, uint32_t domain, size_t limit, globset_owned *out);

/* Decides for each glob of a list whether it ever decides: whether it matches a path of the domain that no glob before
 * it matches, or no glob after it if the last match decides. GLOBSET_DONE: `out` owns an answer for each glob, in their
 * order. Its path is a shortest path of that kind. If there is none, the indexes are those of such globs that cover the
 * glob together: without any of them they do not, and there are several only if none covers it alone.
 * GLOBSET_UNKNOWN_OPTION: there is no such choice, or no such domain. Otherwise as globset_raw_covering. */
globset_status globset_raw_unreachable(globset_lent *globs, size_t globs_len, uint32_t decides, uint32_t domain,
                                       size_t limit, globset_owned *out);

/* Lends what the answer of an index tells. It takes no memory. GLOBSET_YES: there is a path, which is in `path`.
 * GLOBSET_NO: there is none, and `indexes` has the indexes. GLOBSET_BELOW_IGNORED, only of a rule of an ignore file: such
 * paths are below ignored directories, and `indexes` has one index. GLOBSET_LIMIT_REACHED: the search had more rows than
 * its limit. GLOBSET_BAD_INDEX: there is no such answer. GLOBSET_WRONG_KIND: the object is no answers. `path` has the
 * count 0 after each status but GLOBSET_YES, and `indexes` after each but GLOBSET_NO and GLOBSET_BELOW_IGNORED. Both may
 * be read until the next call that the answers are passed to, globset_raw_free too. The caller writes nothing there. */
globset_status globset_raw_answers_at(globset_owned *answers, size_t index, globset_bytes *path,
                                      globset_indexes *indexes);

/* Lends the numbers of the lines of the rules, from 1, of answers that globset_raw_ignore_unreachable made: one for each
 * answer. Other answers have none. It takes no memory. GLOBSET_DONE: they may be read as long as what
 * globset_raw_answers_at lends. The caller writes nothing there. GLOBSET_WRONG_KIND: `lines` has the count 0. */
globset_status globset_raw_answers_lines(globset_owned *answers, globset_indexes *lines);

/* Makes a walk in its top directory, without ignore files. The only bit of options is GLOBSET_IGNORE_CASE.
 * GLOBSET_DONE, GLOBSET_UNKNOWN_OPTION, GLOBSET_OUT_OF_MEMORY. */
globset_status globset_raw_ignore_new(uint32_t options, globset_owned *out);

/* Sets how many bytes of rows of its automaton an ignore file may keep, for the files that are added from then on, as
 * globset_ignore_set_dfa_size_limit of globset.h does. GLOBSET_DONE, GLOBSET_WRONG_KIND. It takes no memory. */
globset_status globset_raw_ignore_set_dfa_size_limit(globset_owned *ignore, size_t bytes);

/* Adds an ignore file of the directory that the walk is in, by its bytes, which are copied. It takes precedence over those
 * that are there. GLOBSET_DONE; GLOBSET_WRONG_KIND and GLOBSET_OUT_OF_MEMORY, and then nothing changed. */
globset_status globset_raw_ignore_add_file(globset_owned *ignore, const uint8_t *file, size_t file_len);

/* Goes down into the directory of this name: one component, or several with `/` between them. GLOBSET_DONE;
 * GLOBSET_WRONG_KIND and GLOBSET_OUT_OF_MEMORY, and then nothing changed. */
globset_status globset_raw_ignore_enter(globset_owned *ignore, const uint8_t *name, size_t name_len);

/* Goes up to where the walk was before the last globset_raw_ignore_enter, without the files that were added since. In the
 * top directory it does nothing. It takes no memory. GLOBSET_DONE, GLOBSET_WRONG_KIND. */
globset_status globset_raw_ignore_leave(globset_owned *ignore);

/* Whether the path, which is below the directory that the walk is in, is ignored, as `by` says. `is_directory` is 0 if it
 * is no directory. GLOBSET_YES: a rule ignores it. GLOBSET_NO: a rule keeps it, or no rule decides. Then `*line` is the
 * number of the line of the rule that decides, from 1, and 0 if none does; `*file` is the index of its file among those
 * that are there, in the order in which they were added, and 0 if no rule decides. GLOBSET_UNKNOWN_OPTION: globset.h has
 * no such `by`. GLOBSET_WRONG_KIND, GLOBSET_OUT_OF_MEMORY. */
globset_status globset_raw_ignore_decide(globset_owned *ignore, const uint8_t *path, size_t path_len,
                                         uint32_t is_directory, uint32_t by, size_t *file, size_t *line);

/* Decides about many paths, as globset_raw_ignore_decide about one, with ends as at globset_raw_searcher_is_match_many. A
 * path that ends with `/` is of a directory, and is decided about without that `/`. GLOBSET_DONE: answers[i] is 0 if no rule
 * decides about path number i, 1 if a rule ignores it, and 2 if a rule keeps it. Otherwise no answer was written:
 * GLOBSET_UNKNOWN_OPTION, which is looked at first, GLOBSET_BAD_ENDS, GLOBSET_WRONG_KIND, GLOBSET_OUT_OF_MEMORY: the call
 * takes a few bytes for each path, and gives them back. */
globset_status globset_raw_ignore_decide_many(globset_owned *ignore, const uint8_t *paths, size_t paths_len,
                                              const size_t *ends, size_t ends_len, uint32_t by, uint8_t *answers,
                                              size_t answers_len);

/* Finds the rules that decide about many paths, which are passed as to globset_raw_ignore_decide_many. GLOBSET_DONE:
 * rules[i] has the decision that globset_raw_ignore_decide_many writes of path number i, and the file and the line that
 * globset_raw_ignore_decide writes. Otherwise no rule was written: as at globset_raw_ignore_decide_many, but that the call
 * takes a few times as many bytes as there are in `rules`. */
globset_status globset_raw_ignore_rules_many(globset_owned *ignore, const uint8_t *paths, size_t paths_len,
                                             const size_t *ends, size_t ends_len, uint32_t by, globset_told_rule *rules,
                                             size_t rules_len);

/* Lends the numbers of the lines of a file that git cannot read, ascending, from 1. The file is that of an index as
 * globset_raw_ignore_decide tells it. Blank lines and comments are not among them. It takes no memory. GLOBSET_DONE: they
 * may be read until the next call that the walk is passed to, globset_raw_free too. The caller writes nothing there.
 * GLOBSET_BAD_INDEX, GLOBSET_WRONG_KIND: `lines` has the count 0. */
globset_status globset_raw_ignore_unread_lines(globset_owned *ignore, size_t file, globset_indexes *lines);

/* Lends the text of a line of a file: the line without a carriage return at its end, up to its first NUL, and without the
 * spaces at its end. The file is that of an index, and the line that of a number, as globset_raw_ignore_decide tells them.
 * It takes no memory. GLOBSET_DONE: the text may be read until the next call that the walk is passed to, globset_raw_free
 * too. The caller writes nothing there. GLOBSET_BAD_INDEX: there is no such file, or it has no such line.
 * GLOBSET_WRONG_KIND. After these two `text` has the count 0. */
globset_status globset_raw_ignore_line_text(globset_owned *ignore, size_t file, size_t line, globset_bytes *text);

/* Decides for each rule of an ignore file whether it ever decides about a path of the domain: each line of the file with a
 * pattern is a rule, and its index counts these from 0. The file is that of an index as globset_raw_ignore_decide tells it.
 * Its rules are taken without those of other files, and paths begin in its directory. GLOBSET_DONE: `out` owns an answer
 * for each rule, in the order of the lines, which globset_raw_answers_lines lends. A rule decides about a path alone if it
 * applies to it and no later rule does. The answer's path is a shortest such path with no ignored directory above it. If
 * the rule decides about no path alone, the indexes are those of later rules that cover it together, as at
 * globset_raw_unreachable. If each such path is below an ignored directory, the answer is GLOBSET_BELOW_IGNORED, and its
 * index that of a rule that ignores a directory above one. GLOBSET_BAD_INDEX: there is no such file.
 * GLOBSET_UNKNOWN_OPTION: there is no such domain. Otherwise as globset_raw_covering. */
globset_status globset_raw_ignore_unreachable(globset_owned *ignore, size_t file, uint32_t domain, size_t limit,
                                              globset_owned *out);

/* Frees an object of any kind. The caller owns it, it is lent to nobody, and what it lends is not read any more. */
void globset_raw_free(globset_owned object);

#ifdef __cplusplus
}
#endif

#endif
