//! Ignore files, by rows whose answers are those of `docs/GIT_IGNORE.md` of the repository.

use std::{ffi::OsStr, os::unix::ffi::OsStrExt, path::Path};

use globset::{
    ignore::{By, Decision, IgnoreStack, Reachability, Rule},
    relations::Domain,
};

fn stack(file: &str) -> IgnoreStack {
    let mut stack = IgnoreStack::new();
    stack.add_file(file);
    stack
}

/// Whether the only rule of a file ignores a path, alone. A path that ends with `/` is of a directory.
fn ignores(line: &str, path: &str) -> bool {
    stack(line).decide_many([path], By::Path) == [Decision::Ignored]
}

#[test]
fn patterns_match() {
    let rows: [(&str, &[&str], &[&str]); 13] = [
        ("a/**/b", &["a/b", "a/x/b", "a/x/y/b"], &["ab"]),
        ("a**/b", &["ab", "a/b", "ax/b", "a/x/b", "ax/y/b"], &["axb"]),
        ("[a]**/b", &["a/b", "ax/b"], &["ab", "a/x/b", "ax/y/b"]),
        ("/a**", &["a", "ab", "a/b", "ab/c"], &["ba"]),
        ("a**b/c", &["ab/c", "axb/c"], &["a/b/c"]),
        ("**/a", &["a", "b/a", "b/c/a"], &["ba"]),
        ("**\\/a", &["b/a"], &["a"]),
        ("a/**", &["a/b", "a/b/c"], &["a"]),
        ("a/**/", &["a/b/", "a/b/c/"], &["a/b", "a/"]),
        ("??", &["é", "ab", "x/ab"], &["a", "abc"]),
        ("[[:alpha]", &["[", ":", "a", "l", "p", "h"], &["b", "]"]),
        ("[z-a]", &["z"], &["a", "y"]),
        ("{a,b}", &["{a,b}"], &["a", "b"]),
    ];
    for (line, matches, others) in rows {
        for path in matches {
            assert!(ignores(line, path), "{line} does not match {path}");
        }
        for path in others {
            assert!(!ignores(line, path), "{line} matches {path}");
        }
    }
}

#[test]
fn lines_are_read() {
    let rows = [
        ("\u{feff}a", "a", true),
        ("a\r\n", "a", true),
        ("a\r\r", "a\r", true),
        ("a\0b", "a", true),
        ("a  ", "a", true),
        ("a\\ ", "a ", true),
        ("a\\\\ ", "a\\", true),
        ("#a", "#a", false),
        ("\\#a", "#a", true),
        ("\\!a", "!a", true),
        ("a/", "a", false),
        ("a/", "x/a/", true),
        ("/a", "x/a", false),
        ("[é", "é", false),
    ];
    for (file, path, is_ignored) in rows {
        assert_eq!(ignores(file, path), is_ignored, "{file:?}, {path:?}");
    }
    assert!(!stack("a\n\u{feff}b").is_ignored("b", false, By::Git));
}

#[test]
fn what_decides() {
    let mut stack = stack("/src\n!/src/a\n");
    let rows = [
        ("src", true, Some(1), Some(1), Some(1)),
        ("src/a", true, Some(1), Some(2), Some(2)),
        ("src/a/b", false, Some(1), Some(2), None),
        ("src/b", false, Some(1), Some(1), None),
        ("src/", false, Some(1), Some(1), Some(1)),
        ("src/a/", true, Some(1), Some(2), Some(2)),
        ("b", false, None, None, None),
    ];
    for (path, is_dir, by_git, nearest, alone) in rows {
        for (by, line) in [(By::Git, by_git), (By::Nearest, nearest), (By::Path, alone)] {
            let rule = line.map(|line| Rule { file: 0, line, is_ignored: line == 1 });
            assert_eq!(stack.decide(path, is_dir, by), rule, "{path} {by:?}");
            assert_eq!(stack.is_ignored(path, is_dir, by), line == Some(1), "{path} {by:?}");
        }
    }
}

#[test]
fn deeper_and_later_files_take_precedence() {
    let mut stack = stack("*.o\n");
    stack.add_file("# kept\n!a.o\n");
    stack.enter("src/b");
    stack.add_file("/a.o\n\n!*.o\n");
    let rule = |file, line, is_ignored| Some(Rule { file, line, is_ignored });
    assert_eq!(stack.decide("a.o", false, By::Git), rule(2, 3, false));
    assert_eq!(stack.decide("x/a.o", false, By::Git), rule(2, 3, false));
    assert_eq!((stack.file_count(), format!("{stack:?}")), (3, "IgnoreStack { depth: 1, files: 3 }".to_string()));
    stack.leave();
    assert_eq!(stack.decide("src/b/a.o", false, By::Git), rule(1, 2, false));
    assert_eq!(stack.decide("src/b/b.o", false, By::Git), rule(0, 1, true));
    stack.leave();
    assert_eq!((stack.file_count(), stack.decide("a.o", false, By::Git)), (2, rule(1, 2, false)));
}

#[test]
fn a_file_in_an_ignored_directory_has_no_effect_by_gits_rule() {
    let mut stack = stack("/out/\n");
    stack.enter("out");
    stack.add_file("!keep\n");
    assert_eq!(stack.decide("keep", false, By::Git), Some(Rule { file: 0, line: 1, is_ignored: true }));
    assert_eq!(stack.decide("keep", false, By::Nearest), Some(Rule { file: 1, line: 1, is_ignored: false }));
    assert_eq!(stack.decide("b", false, By::Nearest), Some(Rule { file: 0, line: 1, is_ignored: true }));
    assert_eq!(stack.decide("b", false, By::Path), None);
    stack.leave();
    stack.enter("out/");
    assert_eq!(stack.decide("b", false, By::Git), Some(Rule { file: 0, line: 1, is_ignored: true }));
}

#[test]
fn case_is_ignored_as_git_does() {
    let mut stack = IgnoreStack::new_ignoring_case();
    stack.add_file("ab\n\\C\n[d-e]x\n");
    let decisions = stack.decide_many(["AB", "aB", "C", "c", "DX", "ex"], By::Git);
    let (ignored, undecided) = (Decision::Ignored, Decision::Undecided);
    assert_eq!(decisions, [ignored, ignored, undecided, undecided, ignored, ignored]);
    assert!(!self::stack("ab").is_ignored("AB", false, By::Git));
}

#[test]
fn many_paths_are_decided_in_one_call() {
    let mut stack = stack("out/\n!out/a\n*.o\n");
    stack.add_file("# kept\n!k.o\n");
    let paths = ["out", "out/", "out/a", "b.o", "k.o", "", "x/out/"];
    for by in [By::Git, By::Nearest, By::Path] {
        let decisions = stack.decide_many(paths, by).into_iter().zip(stack.rules_many(paths, by));
        for (path, (decision, rule)) in paths.into_iter().zip(decisions) {
            let (name, is_dir) = path.strip_suffix('/').map_or((path, false), |name| (name, true));
            let decided = stack.decide(name, is_dir, by);
            assert_eq!(rule, decided, "{path} {by:?}");
            let wanted = match decided {
                None => Decision::Undecided,
                Some(Rule { is_ignored: true, .. }) => Decision::Ignored,
                Some(Rule { is_ignored: false, .. }) => Decision::Kept,
            };
            assert_eq!(decision, wanted, "{path} {by:?}");
        }
    }
    assert_eq!(stack.decide_many([""; 0], By::Git), []);
    assert_eq!(stack.rules_many([""; 0], By::Git), []);
}

#[test]
fn bytes_need_not_be_utf_8() {
    let mut stack = IgnoreStack::default();
    stack.add_file(b"\xff*\n".as_slice());
    let path = |bytes| Path::new(OsStr::from_bytes(bytes));
    assert!(stack.is_ignored(path(b"\xffa"), false, By::Git) && !stack.is_ignored(path(b"\xfea"), false, By::Git));
}

#[test]
fn unread_lines_are_told() {
    let mut stack = stack("a\n[b\n\n#[\nc\\\n[[:x:]]\n");
    stack.enter("d");
    stack.add_file("");
    assert_eq!(stack.unread_lines(0), Some(vec![2, 5, 6]));
    assert_eq!((stack.unread_lines(1), stack.unread_lines(2)), (Some(vec![]), None));
    stack.leave();
    assert_eq!((stack.unread_lines(1), stack.unread_lines(usize::MAX)), (None, None));
}

#[test]
fn lines_have_their_texts() {
    let mut stack = stack("\u{feff}*.o\r\n\n# text  \n!a\\ \\b  \n[c\n/d\0e");
    stack.add_file(b"\xff \n".as_slice());
    let wanted = ["*.o", "", "# text", "!a\\ \\b", "[c", "/d"];
    for (line, text) in (1..).zip(wanted) {
        assert_eq!(stack.line_text(0, line).as_deref(), Some(text.as_bytes()), "{line}");
    }
    assert_eq!((stack.line_text(1, 1), stack.line_text(1, 2)), (Some(vec![0xff]), Some(vec![])));
    for (file, line) in [(0, 0), (0, 7), (1, 3), (2, 1), (0, usize::MAX), (usize::MAX, 1)] {
        assert_eq!(stack.line_text(file, line), None, "{file} {line}");
    }
}

/// What is found out about the rules of a file, where another file is there.
fn reachable(file: &str, domain: Domain, limit: usize) -> Vec<(usize, Reachability)> {
    let mut stack = stack("*\n");
    stack.add_file(file);
    let mut rules = stack.unreachable(1, domain, limit).expect("a file");
    for (_, rule) in &mut rules {
        if let Reachability::Never(lines) = rule {
            lines.sort_unstable();
        }
    }
    rules
}

#[test]
fn rules_never_decide() {
    let decides = |path: &str| Reachability::Decides(path.as_bytes().to_vec());
    let never = |lines: &[usize]| Reachability::Never(lines.to_vec());
    let below = Reachability::BelowIgnored;
    let rows = [
        ("*.log\n# a\n!kept.log\n\n*.log", vec![(1, never(&[5])), (3, never(&[5])), (5, decides(".log"))]),
        ("[x\n/src\n!/src/a", vec![(2, decides("src")), (3, below(2))]),
        ("out/\n!out/keep\nout/*.o", vec![(1, decides("out")), (2, below(1)), (3, below(1))]),
        ("/src/[bc]\n!/src/b\n/src/b/c", vec![(1, decides("src/c")), (2, decides("src/b")), (3, decides("src/b/c"))]),
        ("[ab]\nb\n!a", vec![(1, never(&[2, 3])), (2, decides("b")), (3, decides("a"))]),
        ("a/\n!a", vec![(1, never(&[2])), (2, decides("a"))]),
        ("a\n!a/", vec![(1, decides("a")), (2, decides("a"))]),
        ("a//b\n..\na", vec![(1, never(&[])), (2, never(&[])), (3, decides("a"))]),
        ("é", vec![(1, decides("é"))]),
        ("# a\n[", vec![]),
    ];
    for (file, wanted) in rows {
        let unknown: Vec<_> = wanted.iter().map(|(line, _)| (*line, Reachability::Unknown)).collect();
        assert_eq!(reachable(file, Domain::RelativePaths, 100_000), wanted, "{file:?}");
        assert_eq!(reachable(file, Domain::RelativePaths, 0), unknown, "{file:?}");
    }
    assert_eq!(reachable("..", Domain::AllPaths, 100_000), [(1, decides(".."))]);
    let mut ignoring_case = IgnoreStack::new_ignoring_case();
    assert_eq!(ignoring_case.unreachable(0, Domain::AllPaths, 100_000), None);
    ignoring_case.add_file("ab\nAB\n");
    let rules = ignoring_case.unreachable(0, Domain::AllPaths, 100_000).expect("a file");
    assert_eq!((rules.len(), &rules[0]), (2, &(1, never(&[2]))));
    assert_eq!(ignoring_case.unreachable(usize::MAX, Domain::AllPaths, 100_000), None);
}

#[test]
fn a_walk_can_go_to_another_thread() {
    fn sent<T: Send + Sync>() {}
    sent::<IgnoreStack>();
    let mut stack = stack("a");
    let thread = std::thread::spawn(move || stack.is_ignored("a", false, By::Git));
    assert!(thread.join().expect("a thread ends"));
}
