//! Which traits the public types have: those of the crate globset.

use std::{
    collections::HashSet,
    error::Error as StdError,
    fmt::{Debug, Display},
    hash::Hash,
    panic::{RefUnwindSafe, UnwindSafe},
    str::FromStr,
};

use globset::{ext::Searcher, Candidate, Error, ErrorKind, Glob, GlobBuilder, GlobMatcher, GlobSet, GlobSetBuilder};

fn is_plain<T: Clone + Debug + Send + Sync + Unpin + UnwindSafe + RefUnwindSafe>() {}

#[test]
fn all_types_are_cloned_shown_and_shared_between_threads() {
    is_plain::<Glob>();
    is_plain::<GlobBuilder<'_>>();
    is_plain::<GlobMatcher>();
    is_plain::<GlobSet>();
    is_plain::<GlobSetBuilder>();
    is_plain::<Candidate<'_>>();
    is_plain::<Error>();
    is_plain::<ErrorKind>();
}

#[test]
fn searchers_are_shown_and_go_to_other_threads() {
    fn is_sent<T: Debug + Send + Sync + Unpin + UnwindSafe + RefUnwindSafe>() {}
    is_sent::<Searcher>();
    assert_eq!(format!("{:?}", Searcher::new(&GlobSet::empty())), "Searcher { set: GlobSet { len: 0, .. }, .. }");
}

#[test]
fn globs_and_errors_have_the_other_traits() {
    fn is_glob<T: Eq + Hash + Display + FromStr<Err = Error> + AsRef<Glob>>() {}
    fn is_kind<T: Eq + Display>() {}
    fn is_error<T: Eq + Display + StdError + 'static>() {}
    fn has_default<T: Default>() {}
    is_glob::<Glob>();
    is_kind::<ErrorKind>();
    is_error::<Error>();
    has_default::<GlobSet>();
    has_default::<GlobSetBuilder>();
}

// What can change in a glob is that its regular expression is made, which is no part of its hash.
#[allow(clippy::mutable_key_type)]
#[test]
fn globs_are_equal_by_text_and_options() -> Result<(), Error> {
    let glob = Glob::new("*.rs")?;
    let same = GlobBuilder::new("*.rs").case_insensitive(true).case_insensitive(false).build()?;
    let others = [Glob::new("*.rS")?, GlobBuilder::new("*.rs").case_insensitive(true).build()?];
    assert_eq!(glob, same);
    assert_eq!(glob, glob.clone());
    for other in &others {
        assert_ne!(&glob, other);
    }
    let all: HashSet<Glob> = others.into_iter().chain([glob, same]).collect();
    assert_eq!(all.len(), 3);
    Ok(())
}

#[allow(clippy::mutable_key_type)]
#[test]
fn each_option_makes_another_glob() -> Result<(), Error> {
    type Setter = for<'a> fn(&'a mut GlobBuilder<'static>, bool) -> &'a mut GlobBuilder<'static>;
    let setters: [(Setter, bool); 6] = [
        (GlobBuilder::case_insensitive, true),
        (GlobBuilder::literal_separator, true),
        (GlobBuilder::backslash_escape, false),
        (GlobBuilder::empty_alternates, true),
        (GlobBuilder::allow_unclosed_class, true),
        (GlobBuilder::whole_character, true),
    ];
    let mut all = HashSet::from([Glob::new("a")?]);
    for (setter, yes) in setters {
        let mut builder = GlobBuilder::new("a");
        all.insert(setter(&mut builder, yes).build()?);
        assert_eq!(setter(&mut builder, !yes).build()?, Glob::new("a")?);
    }
    assert_eq!(all.len(), 7);
    Ok(())
}

#[test]
fn globs_show_their_text() -> Result<(), Error> {
    let glob: Glob = "a*".parse()?;
    assert_eq!(format!("{glob}|{glob:4}|{glob:>4}|{glob:.1}"), "a*|a*  |  a*|a");
    assert_eq!(format!("{glob:?}"), r#"Glob("a*")"#);
    let mut builder = GlobSetBuilder::new();
    builder.add(glob.clone()).add(Glob::new("b")?);
    assert_eq!(format!("{builder:?}"), r#"GlobSetBuilder { pats: [Glob("a*"), Glob("b")] }"#);
    assert_eq!(format!("{:?}", glob.compile_matcher()), r#"GlobMatcher { pat: Glob("a*"), .. }"#);
    assert_eq!(format!("{:?}", builder.build()?), "GlobSet { len: 2, .. }");
    let error = r#"Error { glob: Some("["), kind: UnclosedClass }"#;
    assert_eq!(format!("{:?}", Glob::new("[").unwrap_err()), error);
    Ok(())
}

#[test]
fn a_glob_shows_more_of_itself_on_request() -> Result<(), Error> {
    let shown = format!("{:#?}", GlobBuilder::new("a*").literal_separator(true).build()?);
    for part in [r#"glob: "a*""#, r#"re: "(?-u)^a[^/]*$""#, "literal_separator: true", "backslash_escape: true"] {
        assert!(shown.contains(part), "{part} in {shown}");
    }
    Ok(())
}
