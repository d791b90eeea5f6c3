//! The lines of `docs/DIFFERENCES.md` under which a difference can fall, and when it does.

use crate::pair::{Pair, SetPair};

/// A line of the table of behaviours. The text is the beginning of its first column.
#[derive(Clone, Copy, Debug, Eq, Ord, PartialEq, PartialOrd)]
pub enum Line {
    LostEscape,
    RejectedRange,
    EscapedCharacters,
    NeverMatchesAll,
    OtherExtension,
    EndingDot,
}

pub const LINES: [Line; 6] = [
    Line::LostEscape,
    Line::RejectedRange,
    Line::EscapedCharacters,
    Line::NeverMatchesAll,
    Line::OtherExtension,
    Line::EndingDot,
];

impl Line {
    pub fn text(self) -> &'static str {
        match self {
            Line::LostEscape => r"inside braces `\,` or `\{` is lost if `**` follows it",
            Line::RejectedRange => "`[z-a` is rejected for its range also with `allow_unclosed_class`",
            Line::EscapedCharacters => "`regex()` escapes the characters of its engine's table",
            Line::NeverMatchesAll => "a set with a glob such as `**/foo/bar`",
            Line::OtherExtension => {
                "`matches_all` can be true though a glob that requires another extension does not match"
            }
            Line::EndingDot => "in a set, globs that require the ending `.`",
        }
    }
}

/// Under which line it falls that only one of the crates rejects a text, or that they reject it for different reasons.
pub fn of_errors(options: [bool; 5], other: Option<&other::ErrorKind>) -> Option<Line> {
    let allows_unclosed_class = options[4];
    match other {
        Some(other::ErrorKind::InvalidRange(..)) if allows_unclosed_class => Some(Line::RejectedRange),
        _ => None,
    }
}

/// Under which line it falls that the regular expressions of a glob differ.
pub fn of_regexes(pair: &Pair) -> Option<Line> {
    if loses_an_escape(pair.ours.glob(), !pair.options[2]) {
        return Some(Line::LostEscape);
    }
    let same = without_escapes(pair.ours.regex()) == without_escapes(pair.other.regex());
    same.then_some(Line::EscapedCharacters)
}

/// Under which line it falls that the matchers of a glob answer differently.
pub fn of_matchers(pair: &Pair) -> Option<Line> {
    let differ = pair.ours.regex() != pair.other.regex();
    (differ && loses_an_escape(pair.ours.glob(), !pair.options[2])).then_some(Line::LostEscape)
}

/// Under which line it falls that a set's answers about one glob differ: `ours` and `other` are whether its index was found.
pub fn of_index(pair: &Pair, path: &[u8], ours: bool, other: bool) -> Option<Line> {
    let is_parent = path == b".." || path.ends_with(b"/..");
    if ours && !other && is_parent && pair.ours.regex().ends_with(r"\.$") && !pair.options[0] {
        return Some(Line::EndingDot);
    }
    of_matchers(pair)
}

/// Under which line it falls that `matches_all` differs though the indexes are the same.
pub fn of_all(set: &SetPair, indexes: &[usize], ours: bool) -> Option<Line> {
    if ours {
        let is_such = |pair: &Pair| {
            let literals = pair.ours.regex().strip_prefix("(?-u)^(?:/?|.*/)").and_then(|rest| rest.strip_suffix('$'));
            literals.is_some_and(|literals| are_literals(literals) && literals.contains('/'))
        };
        return set.pairs.iter().any(is_such).then_some(Line::NeverMatchesAll);
    }
    let mut others = set.pairs.iter().enumerate().filter(|(index, _)| !indexes.contains(index)).map(|(_, pair)| pair);
    let all_require_an_extension = others.all(|pair| {
        let literals =
            pair.ours.regex().strip_suffix('$').and_then(|text| text.rfind(r"\.").map(|dot| &text[dot + 2..]));
        !pair.options[0] && literals.is_some_and(|literals| are_literals(literals) && !literals.contains('/'))
    });
    all_require_an_extension.then_some(Line::OtherExtension)
}

/// Whether a part of a regular expression is made of characters that stand for themselves alone.
fn are_literals(regex: &str) -> bool {
    let mut characters = regex.chars();
    while let Some(character) = characters.next() {
        match character {
            '\\' => drop(characters.next()),
            '.' | '*' | '?' | '[' | ']' | '(' | ')' | '|' | '^' | '$' | '+' => return false,
            _ => {}
        }
    }
    true
}

/// A regular expression without the `\` before characters that are no letters.
fn without_escapes(regex: &str) -> String {
    let mut text = String::new();
    let mut characters = regex.chars().peekable();
    while let Some(character) = characters.next() {
        if character != '\\' || characters.peek().is_some_and(char::is_ascii_alphanumeric) {
            text.push(character);
        } else {
            text.extend(characters.next());
        }
    }
    text
}

/// Whether inside braces an escaped `,` or `{` stands before two stars that end the branch or stand before `/`.
fn loses_an_escape(glob: &str, escapes: bool) -> bool {
    let characters: Vec<char> = glob.chars().collect();
    let (mut depth, mut at) = (0_usize, 0);
    while let Some(&character) = characters.get(at) {
        at += 1;
        match character {
            '\\' if escapes => {
                let escaped = characters.get(at);
                at += 1;
                let follows = characters.get(at..).unwrap_or_default();
                let is_lost = depth > 0 && matches!(escaped, Some(',' | '{')) && follows.starts_with(&['*', '*']);
                if is_lost && matches!(follows.get(2), None | Some(',' | '}' | '/')) {
                    return true;
                }
            }
            '[' => at = after_class(&characters, at),
            '{' => depth += 1,
            '}' => depth = depth.saturating_sub(1),
            _ => {}
        }
    }
    false
}

/// Where the class ends whose `[` is before `at`; `at` if no `]` closes it.
fn after_class(characters: &[char], at: usize) -> usize {
    let first = at + usize::from(matches!(characters.get(at), Some('!' | '^')));
    let rest = characters.get(first + 1..).unwrap_or_default();
    rest.iter().position(|&character| character == ']').map_or(at, |closing| first + 1 + closing + 1)
}

#[cfg(test)]
mod tests {
    use super::*;

    #[test]
    fn escapes_are_lost_inside_braces_before_two_stars() {
        for glob in [r"{a\,**}", r"{a\,**/b}", r"{\{**}", r"{a,\,**,b}", r"{[}]\,**}", r"{{a\,**},b}"] {
            assert!(loses_an_escape(glob, true) && !loses_an_escape(glob, false), "{glob}");
        }
        let others = [
            r"a\,**",
            r"a\,**{b}",
            r"{a}\,**",
            r"{a\,**b}",
            r"{a\,***}",
            r"{a\}**}",
            r"{a\\,**}",
            r"[{\,**]",
            "{a,**}",
        ];
        for glob in others {
            assert!(!loses_an_escape(glob, true), "{glob}");
        }
    }

    #[test]
    fn regular_expressions_are_compared_without_escapes() {
        assert_eq!(without_escapes(r"^a\-\xc3\.$"), r"^a-\xc3.$");
    }

    #[test]
    fn literals_have_nothing_special() {
        assert!(are_literals(r"a/b\.c") && are_literals(r"\xe2\*"));
        assert!(!are_literals("a.*") && !are_literals("[ab]") && !are_literals("(?:a|b)"));
    }
}
