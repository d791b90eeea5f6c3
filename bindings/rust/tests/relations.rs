//! Questions about all paths, by rows whose answers follow from the meaning of the globs, and by the answers of matchers.

use std::{ffi::OsStr, os::unix::ffi::OsStrExt, path::Path};

use globset::{
    relations::{covering, overlap, unreachable, Coverage, Decides, Domain, Intersection, Reachability},
    Glob, GlobBuilder, GlobSet,
};

const LIMIT: usize = 100_000;

fn glob(text: &str) -> Glob {
    GlobBuilder::new(text).literal_separator(true).build().expect("a glob")
}

fn globs(texts: &[&str]) -> Vec<Glob> {
    texts.iter().map(|text| glob(text)).collect()
}

fn is_match(glob: &Glob, path: &[u8]) -> bool {
    glob.compile_matcher().is_match(Path::new(OsStr::from_bytes(path)))
}

/// Whether globs cover a glob. A path that they miss has to show it.
fn is_covered(text: &str, by: &[&str], domain: Domain) -> bool {
    let (glob, by) = (glob(text), globs(by));
    match covering(&glob, &by, domain, LIMIT) {
        Coverage::Covered => true,
        Coverage::Not(path) => {
            assert!(is_match(&glob, &path) && !by.iter().any(|other| is_match(other, &path)), "{path:?}");
            false
        }
        Coverage::Unknown => panic!("the limit was reached at {text}"),
    }
}

#[test]
fn globs_cover() {
    let rows: [(&str, &[&str], bool, bool); 8] = [
        ("*.c", &["*"], true, true),
        ("*", &["*.c"], false, false),
        ("**/a", &["a", "?*/**/a"], false, true),
        ("src/**", &["src/*", "src/*/**"], true, true),
        ("", &[], false, true),
        ("[.]", &[], false, true),
        ("a[!b]", &["a[a-z]", "a[!a-z]"], true, true),
        ("a[!b]", &["a[a-y]", "a[!a-z]"], false, false),
    ];
    for (text, by, all, relative) in rows {
        assert_eq!(is_covered(text, by, Domain::AllPaths), all, "{text} by {by:?}");
        assert_eq!(is_covered(text, by, Domain::RelativePaths), relative, "{text} by {by:?}");
    }
}

#[test]
fn paths_are_shortest_and_are_bytes() {
    let missed = |text, by: &[&str]| covering(&glob(text), globs(by), Domain::AllPaths, LIMIT);
    assert_eq!(missed("", &[]), Coverage::Not(vec![]));
    assert_eq!(missed("{abc,de}", &["x"]), Coverage::Not(b"de".to_vec()));
    assert_eq!(missed("é", &["e"]), Coverage::Not("é".as_bytes().to_vec()));
    assert_eq!(missed("\0", &["a"]), Coverage::Not(vec![0]));
    let but_ff: String = ('\u{1}'..='\u{7f}').filter(|c| !"[]!^-\\".contains(*c)).collect();
    let Coverage::Not(path) = missed("?", &[&format!("[{but_ff}]")]) else { panic!("it is not covered") };
    assert_eq!(path.len(), 1);
}

#[test]
fn globs_overlap() {
    let rows: [(&str, &str, bool, bool); 5] = [
        ("*.c", "*.h", true, true),
        ("a*", "*b", false, false),
        ("a/..", "a/*", false, true),
        ("a/b", "a//b", true, true),
        ("{a,b}/**", "**/[b-d]/c", false, false),
    ];
    for (a, b, all, relative) in rows {
        for (domain, disjoint) in [(Domain::AllPaths, all), (Domain::RelativePaths, relative)] {
            match overlap(&glob(a), &glob(b), domain, LIMIT) {
                Intersection::Disjoint => assert!(disjoint, "{a} and {b}"),
                Intersection::Both(path) => {
                    assert!(!disjoint && is_match(&glob(a), &path) && is_match(&glob(b), &path), "{a} and {b}");
                }
                Intersection::Unknown => panic!("the limit was reached at {a} and {b}"),
            }
        }
    }
}

#[test]
fn globs_never_decide() {
    let never = |indexes: &[usize]| Some(indexes.to_vec());
    let told = |texts: &[&str], decides| -> Vec<Option<Vec<usize>>> {
        let answers = unreachable(globs(texts), decides, Domain::RelativePaths, LIMIT);
        answers
            .into_iter()
            .map(|answer| match answer {
                Reachability::Decides(_) => None,
                Reachability::Never(mut indexes) => {
                    indexes.sort_unstable();
                    Some(indexes)
                }
                Reachability::Unknown => panic!("the limit was reached"),
            })
            .collect()
    };
    assert_eq!(told(&["*", "a", "*"], Decides::Last), [never(&[2]), never(&[2]), None]);
    assert_eq!(told(&["a*", "*", "ab"], Decides::First), [None, None, never(&[0])]);
    assert_eq!(told(&["a[!b]", "a[a-z]", "b", "a[!a-z]"], Decides::Last), [never(&[1, 3]), None, None, None]);
    assert_eq!(told(&["..", "a//b", "a"], Decides::Last), [never(&[]), never(&[]), None]);
    assert_eq!(told(&[], Decides::First), []);
}

#[test]
fn limits_are_told() {
    let a = glob("a");
    assert_eq!(covering(&a, [&a], Domain::AllPaths, 0), Coverage::Unknown);
    assert_eq!(overlap(&a, &a, Domain::AllPaths, 0), Intersection::Unknown);
    let both = unreachable([&a, &a], Decides::First, Domain::AllPaths, 0);
    assert_eq!(both, [Reachability::Unknown, Reachability::Unknown]);
}

/// A set leaves out `**/..`, and matchers do not.
#[test]
fn globs_match_as_their_matchers_do() {
    let (up, dots) = (Glob::new("**/..").expect("a glob"), Glob::new("..").expect("a glob"));
    assert!(!GlobSet::new([&up]).expect("a set").is_match(".."));
    assert_eq!(covering(&dots, [&up], Domain::AllPaths, LIMIT), Coverage::Covered);
}

#[test]
fn options_count() {
    let (plain, any_case) = (glob("a"), GlobBuilder::new("A").case_insensitive(true).build().expect("a glob"));
    assert_eq!(covering(&plain, [&any_case], Domain::AllPaths, LIMIT), Coverage::Covered);
    assert_eq!(covering(&any_case, [&plain], Domain::AllPaths, LIMIT), Coverage::Not(b"A".to_vec()));
}
