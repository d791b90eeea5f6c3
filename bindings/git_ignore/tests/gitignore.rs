//! The matchers, by rows whose answers are those of `docs/GIT_IGNORE.md` of the repository and of what the crate `ignore` says of
//! its calls.

use std::{env, fs, path::Path, path::PathBuf, process, thread};

use git_ignore::{
    gitignore::{Gitignore, GitignoreBuilder, Glob},
    Error, Match, Reachability,
};

fn builder(root: &str, lines: &[&str]) -> GitignoreBuilder {
    let mut builder = GitignoreBuilder::new(root);
    for line in lines {
        builder.add_line(None, line).expect("a line that git can read");
    }
    builder
}

fn matcher(root: &str, lines: &[&str]) -> Gitignore {
    builder(root, lines).build().expect("a matcher")
}

/// `-` if no rule decides, and otherwise the rule that does.
fn line<'m>(found: &'m Match<&Glob>) -> &'m str {
    found.inner().map_or("-", |glob| glob.original())
}

#[test]
fn each_call_has_its_rule() {
    let matcher = matcher("", &["/src", "!/src/a", "*.o", "out/"]);
    let rows = [
        ("src", true, "/src", "/src", "/src"),
        ("src/a", true, "!/src/a", "!/src/a", "/src"),
        ("src/a/b", false, "-", "!/src/a", "/src"),
        ("src/b", false, "-", "/src", "/src"),
        ("src/a/b.o", false, "*.o", "*.o", "/src"),
        ("x/b.o", false, "*.o", "*.o", "*.o"),
        ("x/out", false, "-", "-", "-"),
        ("x/out", true, "out/", "out/", "out/"),
        ("x/out/b", false, "-", "out/", "out/"),
    ];
    for (path, is_dir, alone, nearest, by_git) in rows {
        assert_eq!(line(&matcher.matched(path, is_dir)), alone, "{path}");
        assert_eq!(line(&matcher.matched_path_or_any_parents(path, is_dir)), nearest, "{path}");
        assert_eq!(line(&matcher.matched_by_git(path, is_dir)), by_git, "{path}");
    }
    assert!(matcher.matched("src/a", true).is_whitelist() && matcher.matched_by_git("src/a", true).is_ignore());
}

#[test]
fn rules_never_decide() {
    let lines = ["*.log", "# a", "!kept.log", "/src", "!/src/a", "[ab]c", "//d", "ac", "", "bc", "*.log"];
    let matcher = matcher("/r", &lines);
    let told = |limit| {
        let rules = matcher.unreachable(limit).into_iter().map(|(glob, told)| {
            let told = match told {
                Reachability::Decides(path) => format!("decides {}", path.display()),
                Reachability::Never(mut rules) => {
                    rules.sort_by_key(|rule| rule.original());
                    rules.iter().fold("never".to_string(), |said, rule| said + " " + rule.original())
                }
                Reachability::BelowIgnored(rule) => format!("below {}", rule.original()),
                Reachability::Unknown => "unknown".to_string(),
            };
            format!("{}: {told}", glob.original())
        });
        rules.collect::<Vec<_>>()
    };
    let wanted = [
        "*.log: never *.log",
        "!kept.log: never *.log",
        "/src: decides src",
        "!/src/a: below /src",
        "[ab]c: never ac bc",
        "//d: never",
        "ac: decides ac",
        "bc: decides bc",
        "*.log: decides .log",
    ];
    assert_eq!(told(100_000), wanted);
    assert!(told(0).iter().all(|rule| rule.ends_with(": unknown")));
    assert!(Gitignore::empty().unreachable(9).is_empty());
}

#[test]
fn paths_are_taken_from_the_root() {
    let rows = [
        ("/r", "/r/a", true),
        ("/r", "a", true),
        ("/r", "./a", true),
        ("/r", "/r//a/", true),
        ("/r", "/r/b/a", false),
        ("/r", "/x/a", false),
        ("/r", "/r", false),
        ("/r", "", false),
        ("./r", "r/a", true),
        ("r", "./r/a", true),
        ("r", "b/a", false),
        (".", "a", true),
        (".", ".a", false),
        ("", "/a", false),
        ("/", "/a", true),
        ("a", "a", true),
        ("a", "a/a", true),
    ];
    for (root, path, is_ignored) in rows {
        assert_eq!(matcher(root, &["/a"]).matched(path, false).is_ignore(), is_ignored, "{path} from {root}");
    }
    assert_eq!(matcher("/r", &["a"]).path(), Path::new("/r"));
}

#[test]
#[should_panic(expected = "/x/a is not below /r")]
fn a_path_beside_the_root_has_no_directories_above_it() {
    let _ = matcher("/r", &["a"]).matched_path_or_any_parents("/x/a", false);
}

#[test]
fn rules_are_counted() {
    let matcher = matcher("", &["a", "!b", "# c", "", "   ", "/", "!", "d/"]);
    assert_eq!((matcher.len(), matcher.num_ignores(), matcher.num_whitelists()), (3, 2, 1));
    assert!(!matcher.is_empty());
    let empty = Gitignore::empty();
    assert!(empty.is_empty() && empty.matched("a", false).is_none() && empty.matched_by_git("a/b", true).is_none());
    assert!(empty.matched_path_or_any_parents("/x/a", false).is_none());
    assert_eq!((empty.len(), empty.num_ignores(), empty.num_whitelists()), (0, 0, 0));
    assert_eq!(empty.path(), Path::new(""));
}

#[test]
fn rules_tell_what_they_are() {
    let rows = [
        ("a", "**/a", false, false),
        ("!a/", "**/a", true, true),
        ("/a/b", "a/b", false, false),
        ("a/**/", "a/**", false, true),
    ];
    for (text, actual, is_whitelist, is_only_dir) in rows {
        let mut builder = GitignoreBuilder::new("");
        builder.add_line(Some(PathBuf::from("from")), &format!("{text}  \r")).expect("a line");
        let matcher = builder.build().expect("a matcher");
        let path = if text.starts_with('/') { "a/b" } else { "a" };
        let found = matcher.matched(if text == "a/**/" { "a/c" } else { path }, true);
        let glob = *found.inner().expect("a rule");
        assert_eq!((glob.original(), glob.actual()), (text, actual));
        assert_eq!((glob.is_whitelist(), glob.is_only_dir()), (is_whitelist, is_only_dir));
        assert_eq!(glob.from(), Some(Path::new("from")));
    }
}

#[test]
fn a_line_that_git_cannot_read_is_an_error() {
    for line in ["[a", "a\\", "[[:x:]]"] {
        let mut builder = builder("", &["b"]);
        match builder.add_line(None, line) {
            Err(Error::Glob { glob: Some(glob), .. }) => assert_eq!(glob, line),
            other => panic!("{other:?}"),
        }
        assert_eq!(builder.build().expect("a matcher").len(), 1);
    }
    let err = GitignoreBuilder::new("").add_line(None, "[a").expect_err("an error").clone();
    assert!(err.to_string().starts_with("error parsing glob '[a': a class is not closed"));
    assert!(!err.is_io() && !err.is_partial() && err.io_error().is_none());
}

#[test]
fn a_text_of_several_lines_is_read_as_these() {
    let matcher = matcher("", &["a\n!b\r\n\n# c\n"]);
    assert_eq!(matcher.len(), 2);
    assert!(matcher.matched("a", false).is_ignore() && matcher.matched("b", false).is_whitelist());
    let mut builder = GitignoreBuilder::new("");
    let Err(Error::Partial(errs)) = builder.add_line(None, "[a\nb\n[c") else { panic!("two lines cannot be read") };
    assert_eq!((errs.len(), builder.build().expect("a matcher").len()), (2, 1));
}

#[test]
fn the_first_line_keeps_a_byte_order_mark() {
    let matcher = matcher("", &["\u{feff}a"]);
    assert!(matcher.matched("a", false).is_none() && matcher.matched("\u{feff}a", false).is_ignore());
}

#[test]
fn case_is_one_choice_for_all_lines() {
    let mut builder = GitignoreBuilder::new("");
    builder.case_insensitive(true).expect("no line was added").add_line(None, "ab").expect("a line");
    assert!(matches!(builder.case_insensitive(false), Err(Error::LateOption)));
    assert!(builder.case_insensitive(true).is_ok());
    assert!(builder.build().expect("a matcher").matched("AB", false).is_ignore());
    assert!(matcher("", &["ab"]).matched("AB", false).is_none());
    assert_eq!(Error::LateOption.to_string(), "an option was changed after a line had been added");
}

/// A new directory, which is removed at the end.
struct Folder(PathBuf);

impl Folder {
    fn new(name: &str) -> Folder {
        let folder = env::temp_dir().join(format!("git_ignore-{name}-{}", process::id()));
        fs::create_dir_all(&folder).expect("a directory");
        Folder(folder)
    }
}

impl Drop for Folder {
    fn drop(&mut self) {
        let _ = fs::remove_dir_all(&self.0);
    }
}

#[test]
fn files_are_read() {
    let folder = Folder::new("files");
    let file = folder.0.join(".gitignore");
    fs::write(&file, b"\xef\xbb\xbf*.o\r\n[a\n!k.o\n\xff\n").expect("a file");
    let (matcher, err) = Gitignore::new(&file);
    assert_eq!((matcher.path(), matcher.len()), (folder.0.as_path(), 3));
    let err = err.expect("a line cannot be read");
    assert_eq!(err.to_string().split(": error").next(), Some(&*format!("{}: line 2", file.display())));
    assert!(matcher.matched(folder.0.join("src/a.o"), false).is_ignore());
    let found = matcher.matched("k.o", false);
    assert!(found.is_whitelist() && found.inner().and_then(|glob| glob.from()) == Some(file.as_path()));

    let mut builder = GitignoreBuilder::new(&folder.0);
    assert!(builder.add(&file).is_some());
    fs::write(&file, "\u{feff}!a.o\n").expect("a file");
    assert!(builder.add(&file).is_none());
    let both = builder.build().expect("a matcher");
    assert!(both.matched("a.o", false).is_whitelist() && both.matched("b.o", false).is_ignore());

    fs::write(&file, "[a\nb\n[c\n").expect("a file");
    let Some(Error::Partial(errs)) = builder.add(&file) else { panic!("two lines cannot be read") };
    for (err, wanted) in errs.iter().zip([1, 3]) {
        let Error::WithPath { path, err } = err else { panic!("{err:?}") };
        assert!(*path == file && matches!(**err, Error::WithLineNumber { line, .. } if line == wanted));
    }
    assert_eq!(errs.len(), 2);
}

#[test]
fn a_file_that_is_not_there_is_an_error_of_add_alone() {
    let folder = Folder::new("missing");
    let file = folder.0.join("missing");
    let (matcher, err) = Gitignore::new(&file);
    assert!(matcher.is_empty() && err.is_none());
    let err = GitignoreBuilder::new(&folder.0).add(&file).expect("the file is not there");
    assert!(err.is_io() && matches!(&err, Error::WithPath { path, .. } if *path == file));
    assert_eq!(err.clone().io_error().map(|err| err.kind()), Some(std::io::ErrorKind::NotFound));
}

#[test]
fn matches_can_be_changed() {
    let (ignore, whitelist, none) = (Match::Ignore(1), Match::Whitelist(2), Match::<i32>::None);
    assert!(ignore.is_ignore() && whitelist.is_whitelist() && none.is_none());
    assert!(ignore.clone().invert().is_whitelist() && whitelist.clone().invert().is_ignore());
    assert!(none.clone().invert().is_none() && none.inner().is_none());
    assert_eq!(ignore.clone().map(|inner| inner + 4).inner(), Some(&5));
    assert_eq!(none.clone().or(whitelist.clone()).inner(), Some(&2));
    assert_eq!(ignore.or(whitelist).inner(), Some(&1));
}

#[test]
fn threads_share_a_matcher() {
    fn shared<T: Send + Sync + Clone>() {}
    shared::<Gitignore>();
    shared::<GitignoreBuilder>();
    let matcher = matcher("", &["*a*b*", "!/k*"]);
    thread::scope(|scope| {
        for _ in 0..4 {
            scope.spawn(|| {
                for number in 0..200 {
                    assert!(matcher.matched(format!("xa{number}b"), false).is_ignore());
                    assert!(matcher.matched(format!("ka{number}b"), false).is_whitelist());
                }
            });
        }
    });
    assert!(format!("{:?}", matcher.clone()).contains("*a*b*"));
}

/// As cargo and precious call the crate `ignore`.
#[test]
fn programs_call_it() -> Result<(), Error> {
    let mut exclude = GitignoreBuilder::new("/project");
    for rule in ["/target/", "*.log"] {
        exclude.add_line(None, rule)?;
    }
    let exclude = exclude.build()?;
    assert!(exclude.matched_path_or_any_parents("target/debug/a", false).is_ignore());
    assert!(!exclude.matched_path_or_any_parents("src/lib.rs", false).is_ignore());
    let matched = exclude.matched("a.log", false);
    assert!(!matched.is_none() && !matched.is_whitelist());
    Ok(())
}
