//! What the public items do, by rows whose answers come from the documentation of the library.

use std::{ffi::OsStr, path::Path, path::PathBuf, sync::Arc, thread};

use globset::{escape, ext, ext::Searcher, Candidate, Error, ErrorKind, Glob, GlobBuilder, GlobSet, GlobSetBuilder};

fn set(texts: &[&str]) -> GlobSet {
    let globs: Vec<Glob> = texts.iter().map(|text| Glob::new(text).expect("a glob")).collect();
    GlobSet::new(globs).expect("a set")
}

#[test]
fn sets_answer_by_index() {
    let three = set(&["*.rs", "src/lib.rs", "src/**/foo.rs"]);
    assert_eq!(three.matches("src/bar/baz/foo.rs"), [0, 2]);
    assert_eq!(three.matches("src/lib.rs"), [0, 1]);
    assert_eq!(three.matches("a.c"), []);
    assert_eq!((three.len(), three.is_empty()), (3, false));
}

#[test]
fn the_empty_set_matches_nothing_and_all() {
    for empty in [GlobSet::empty(), GlobSet::default(), set(&[]), GlobSet::builder().build().expect("a set")] {
        assert_eq!((empty.len(), empty.is_empty()), (0, true));
        assert!(!empty.is_match(""));
        assert!(empty.matches_all("a"));
        assert_eq!(empty.matches("a"), []);
        let mut indexes = vec![1];
        empty.matches_into("a", &mut indexes);
        assert_eq!(indexes, []);
    }
}

#[test]
fn matches_all_asks_every_glob() {
    assert!(set(&["**/foo/bar"]).matches_all("a/foo/bar"));
    assert!(!set(&["a/*.rs", "a/*.c"]).matches_all("a/x.rs"));
    assert!(set(&["*.rs", "**/m*.rs", "a/*.rs"]).matches_all("a/main.rs"));
    assert!(!set(&["*.rs", "**/m*.rs", "a/*.rs"]).matches_all("main.rs"));
}

#[test]
fn only_a_set_leaves_out_the_parent_folder() {
    let parent = Glob::new("**/..").expect("a glob");
    assert!(parent.compile_matcher().is_match("parent/.."));
    assert_eq!(set(&["**/..", "**/[.][.]", "*."]).matches("parent/.."), [1, 2]);
}

#[test]
fn indexes_replace_what_the_vector_has_and_keep_its_room() {
    let one = set(&["*.c"]);
    let mut indexes = Vec::with_capacity(8);
    indexes.extend([9, 9]);
    let room = indexes.as_ptr();
    one.matches_into("a.c", &mut indexes);
    assert_eq!((indexes.as_slice(), indexes.as_ptr()), ([0].as_slice(), room));
    one.matches_candidate_into(&Candidate::new("a.rs"), &mut indexes);
    assert_eq!((indexes.as_slice(), indexes.as_ptr()), ([].as_slice(), room));
}

#[test]
fn paths_are_given_in_all_forms() {
    let matcher = Glob::new("a/*.c").expect("a glob").compile_matcher();
    let path = PathBuf::from("a/b.c");
    assert!(matcher.is_match("a/b.c") && matcher.is_match(String::from("a/b.c")));
    assert!(matcher.is_match(&path) && matcher.is_match(Path::new("a/b.c")) && matcher.is_match(OsStr::new("a/b.c")));
    assert!(matcher.is_match_candidate(&Candidate::new(&path)));
    assert!(matcher.is_match_candidate(&Candidate::new("a/b.c")));
    assert!(matcher.is_match_candidate(&Candidate::from_bytes("a/b.c")));
    assert!(matcher.is_match_candidate(&Candidate::from_bytes(&b"a/\xff\0.c".to_vec())));
}

#[test]
fn globs_are_given_owned_borrowed_and_by_a_builder() {
    let globs = ["a", "b"].map(|text| Glob::new(text).expect("a glob"));
    let sets = [
        GlobSet::new(&globs),
        GlobSet::new(globs.iter()),
        GlobSet::new(globs.clone()),
        GlobSetBuilder::new().add(globs[0].clone()).add(globs[1].clone()).build(),
    ];
    for set in sets {
        assert_eq!(set.expect("a set").matches("b"), [1]);
    }
}

#[test]
fn errors_have_their_kind_and_their_glob() {
    let rows = [
        ("[", ErrorKind::UnclosedClass),
        ("[z-a]", ErrorKind::InvalidRange('z', 'a')),
        ("[ü-é]", ErrorKind::InvalidRange('ü', 'é')),
        ("[😀-a", ErrorKind::InvalidRange('😀', 'a')),
        ("{a,b}}", ErrorKind::UnopenedAlternates),
        ("{a,{b,c}", ErrorKind::UnclosedAlternates),
        ("a\\", ErrorKind::DanglingEscape),
    ];
    for (text, kind) in rows {
        let error: Error = Glob::new(text).unwrap_err();
        assert_eq!((error.glob(), error.kind()), (Some(text), &kind));
        assert_eq!(error.to_string(), format!("error parsing glob '{text}': {kind}"));
        assert_eq!(error, text.parse::<Glob>().unwrap_err());
    }
}

#[test]
fn errors_have_their_place() {
    let rows = [("a[b", 1), ("é[a-z][z-a][y-b]", 7), ("é{a,b}}", 7), ("é/{*.c,*.{h,hpp}", 3), ("é\\", 2)];
    for (text, offset) in rows {
        assert_eq!(ext::offset(&Glob::new(text).unwrap_err()), offset, "{text}");
    }
    let open = GlobBuilder::new("[a{").allow_unclosed_class(true).build().unwrap_err();
    assert_eq!(ext::offset(&open), 2);
}

#[test]
fn many_paths_have_the_indexes_of_each() {
    let texts = ["*.c", "src/*", "**/..", "*a*b*", "*"];
    let globs: Vec<Glob> = texts.iter().map(|text| Glob::new(text).expect("a glob")).collect();
    let paths = ["", "a.c", "src/ab.c", "x/..", "src/h", ""];
    for count in 0..=globs.len() {
        let set = GlobSet::new(&globs[..count]).expect("a set");
        let found = Searcher::new(&set).matches_many(paths);
        assert_eq!((found.len(), found.is_empty(), found.get(paths.len())), (paths.len(), false, None));
        for (number, path) in paths.iter().enumerate() {
            assert_eq!(found.get(number), Some(&set.matches(path)[..]));
        }
        assert!(found.iter().eq(paths.iter().enumerate().filter_map(|(number, _)| found.get(number))));
    }
}

#[test]
fn a_limit_changes_no_answer() {
    let mut builder = GlobSetBuilder::new();
    for text in ["src/**/*a?[bc]", "*a*b*", "*.c"] {
        builder.add(Glob::new(text).expect("a glob"));
    }
    let set = builder.build().expect("a set");
    for limit in [0, 1, 4096, usize::MAX] {
        let limited = ext::build_with_dfa_size_limit(&builder, limit);
        for path in ["src/x/axb", "src/x/ab.c", "axb", "b"] {
            assert_eq!(limited.matches(path), set.matches(path), "{limit} {path}");
        }
    }
    assert!(ext::build_with_dfa_size_limit(&GlobSetBuilder::new(), 0).is_empty());
}

#[test]
fn options_change_what_matches() {
    let matches = |builder: &GlobBuilder<'_>, path| builder.build().expect("a glob").compile_matcher().is_match(path);
    assert!(matches(GlobBuilder::new("aBcDeFg").case_insensitive(true), "ABCDEFG"));
    assert!(!matches(GlobBuilder::new("abc?def").literal_separator(true), "abc/def"));
    assert!(matches(GlobBuilder::new("\\*").backslash_escape(false), "\\\\"));
    assert!(matches(GlobBuilder::new("foo{,.txt}").empty_alternates(true), "foo"));
    assert!(!matches(&GlobBuilder::new("foo{,.txt}"), "foo"));
    assert!(matches(GlobBuilder::new("[abc").allow_unclosed_class(true), "[abc"));
    let mut builder = GlobBuilder::new("A");
    builder.case_insensitive(true);
    let before = builder.clone();
    builder.case_insensitive(false);
    assert!(matches(&before, "a") && !matches(&builder, "a"));
}

#[test]
fn regular_expressions_are_those_of_the_globs() {
    let rows = [
        ("", "(?-u)^$"),
        ("**/**/*", "(?-u)^(?:/?|.*/).*$"),
        ("a/**/b", "(?-u)^a(?:/|/.*/)b$"),
        ("{a,{b,c}}", "(?-u)^(?:a|(?:b|c))$"),
        ("☃", r"(?-u)^\xe2\x98\x83$"),
        ("[!a-z-]", r"(?-u)^[^a-z\-]$"),
    ];
    for (text, regex) in rows {
        let glob = Glob::new(text).expect("a glob");
        assert_eq!((glob.glob(), glob.regex(), glob.clone().regex()), (text, regex, regex));
    }
}

#[test]
fn escaped_texts_match_themselves() {
    let rows = [("src/**/*.rs", "src/[*][*]/[*].rs"), ("bar[!!]!baz", "bar[[]!![]]!baz"), ("", ""), ("a\\b", "a\\b")];
    for (text, escaped) in rows {
        assert_eq!(escape(text), escaped);
    }
    let glob = Glob::new(&escape("{a,b}[?]*")).expect("a glob");
    assert!(glob.compile_matcher().is_match("{a,b}[?]*"));
}

#[test]
fn matchers_and_sets_outlive_what_they_were_made_of() {
    let (matcher, set) = {
        let glob = Glob::new("*.c").expect("a glob");
        let mut builder = GlobSetBuilder::new();
        (glob.compile_matcher(), builder.add(glob).build().expect("a set"))
    };
    let (other_matcher, other_set) = (matcher.clone(), set.clone());
    drop((matcher, set));
    assert!(other_matcher.is_match("a.c") && other_set.is_match("a.c"));
    assert_eq!(other_matcher.glob().glob(), "*.c");
}

#[test]
fn threads_share_sets_and_matchers_of_every_size() {
    let sets: Vec<GlobSet> = (0..40)
        .map(|size| GlobSet::new((0..size).map(|i| Glob::new(&format!("**/*{i}?[a-z]x{i}*")).expect("a glob"))))
        .map(|set| set.expect("a set"))
        .collect();
    let (sets, matcher) = (Arc::new(sets), Glob::new("*7*").expect("a glob").compile_matcher());
    let threads: Vec<_> = (0..8)
        .map(|first| {
            let (sets, matcher) = (Arc::clone(&sets), matcher.clone());
            thread::spawn(move || {
                for round in 0..400 {
                    let (size, wanted) = ((first * 7 + round * 11) % 40, round % 40);
                    let path = format!("a/b{wanted}-zx{wanted}.c");
                    let expected: Vec<usize> = (0..size)
                        .filter(|i| {
                            wanted.to_string().ends_with(&i.to_string())
                                && wanted.to_string().starts_with(&i.to_string())
                        })
                        .collect();
                    assert_eq!(sets[size].matches(&path), expected, "{size} globs and {path}");
                    assert_eq!(sets[size].is_match(&path), !expected.is_empty());
                    assert_eq!(matcher.is_match(&path), path.contains('7'));
                }
            })
        })
        .collect();
    for thread in threads {
        thread.join().expect("a thread ends");
    }
}

#[test]
fn searchers_answer_as_their_sets_in_any_thread() {
    for size in [0, 1, 3, 33, 100] {
        let texts: Vec<String> = (0..size).map(|i| format!("**/*{i}?[a-z]x*")).collect();
        let set = set(&texts.iter().map(String::as_str).collect::<Vec<_>>());
        let (mut searcher, kept) = (Searcher::new(&set), set.clone());
        drop(set);
        for thread in 0..3 {
            let set = kept.clone();
            let asked = thread::spawn(move || {
                for path in ["1-zx", "a/32-zx", "a", "", "a/7-bx/99-zx", "7.x"] {
                    let wanted = set.matches(path);
                    assert_eq!(searcher.matches(path), wanted, "{size} globs and {path} in thread {thread}");
                    assert_eq!(searcher.is_match(path), !wanted.is_empty());
                    assert_eq!(searcher.matches_all(path), set.matches_all(path));
                    assert_eq!(searcher.can_match_below(path), size > 0);
                }
                searcher
            });
            searcher = asked.join().expect("a thread ends");
        }
        assert_eq!(searcher.set().len(), size);
    }
}

#[test]
fn folders_below_which_nothing_can_match() {
    let mut searcher = Searcher::new(&set(&["src/**", "doc/*.txt"]));
    let answers = ["src", "src/a", "doc", "target", "doc/a"].map(|folder| searcher.can_match_below(folder));
    assert_eq!(answers, [true, true, true, false, true]);
}

#[test]
fn values_are_made_in_one_thread_and_dropped_in_another() {
    let glob = Glob::new("*.c").expect("a glob");
    let (matcher, set) = (glob.compile_matcher(), GlobSet::new([&glob]).expect("a set"));
    let moved = thread::spawn(move || {
        assert!(matcher.is_match("a.c") && set.is_match("a.c"));
        drop((matcher, set));
        glob
    });
    assert_eq!(moved.join().expect("a thread ends").regex(), r"(?-u)^.*\.c$");
}

#[test]
fn a_value_that_a_thread_drops_at_its_end_can_still_match() {
    struct Last(GlobSet);
    impl Drop for Last {
        fn drop(&mut self) {
            assert_eq!(self.0.matches("a.c"), [0]);
        }
    }
    thread_local! {
        static LAST: Last = Last(set(&["*.c"]));
    }
    // The memory that the thread matches with is made before `LAST` or after it, and so dropped after it or before it.
    for is_first in [true, false] {
        let ended = thread::spawn(move || {
            if is_first {
                set(&["a"]).is_match("a");
            }
            LAST.with(|last| assert!(last.0.is_match("b.c")));
        });
        ended.join().expect("a thread ends");
    }
}

#[test]
fn long_globs_and_large_sets() {
    let long = "a".repeat(100_000);
    let glob = Glob::new(&long).expect("a glob");
    assert!(glob.compile_matcher().is_match(&long));
    assert_eq!(glob.regex().len(), 100_000 + "(?-u)^$".len());
    let globs = (0..5_000).map(|i| Glob::new(&format!("**/{i}.*")).expect("a glob"));
    let many = GlobSet::new(globs).expect("a set");
    assert_eq!(many.matches("a/4321.c"), [4321]);
}
