//! What a line of an ignore file says beside its pattern. Whether git can read the pattern, and what it matches, the library says.

/// A line that has a pattern.
#[derive(Debug, Eq, PartialEq)]
pub(crate) struct Parts<'l> {
    /// Whether the line begins with `!`.
    pub(crate) is_whitelist: bool,
    /// Whether the pattern ends with a `/`.
    pub(crate) is_only_dir: bool,
    /// Whether the pattern is matched against whole paths, since it has another `/`.
    pub(crate) is_whole: bool,
    /// The pattern without `!`, without a `/` at its end, and without one at its start.
    pub(crate) pattern: &'l [u8],
}

/// The line as git reads it: without a CR at its end, then up to a NUL, then without spaces at its end that no `\` escapes.
pub(crate) fn text(line: &[u8]) -> &[u8] {
    let line = line.strip_suffix(b"\r").unwrap_or(line);
    let line = line.split(|byte| *byte == 0).next().unwrap_or(line);
    let (mut at, mut end) = (0, 0);
    while at < line.len() {
        let is_space = line[at] == b' ';
        at += if line[at] == b'\\' { 2 } else { 1 };
        if !is_space {
            end = at.min(line.len());
        }
    }
    &line[..end]
}

/// The parts of a line, or `None` if it has no pattern, as a comment and a blank line.
pub(crate) fn parts(line: &[u8]) -> Option<Parts<'_>> {
    let text = text(line);
    if text.starts_with(b"#") {
        return None;
    }
    let (is_whitelist, rest) = match text.strip_prefix(b"!") {
        Some(rest) => (true, rest),
        None => (false, text),
    };
    let (is_only_dir, rest) = match rest.strip_suffix(b"/") {
        Some(rest) => (true, rest),
        None => (false, rest),
    };
    let is_whole = rest.contains(&b'/');
    let pattern = rest.strip_prefix(b"/").unwrap_or(rest);
    (!pattern.is_empty()).then_some(Parts { is_whitelist, is_only_dir, is_whole, pattern })
}

#[cfg(test)]
mod tests {
    use super::*;
    use globset::ignore::IgnoreStack;

    /// The text of a line, as the library says it.
    fn told(line: &[u8]) -> Option<Vec<u8>> {
        let mut stack = IgnoreStack::new();
        stack.add_file([b"\n", line].concat());
        stack.line_text(0, 2)
    }

    #[test]
    fn what_git_removes_at_the_end_of_a_line() {
        let rows: [(&[u8], &[u8]); 14] = [
            (b"a", b"a"),
            (b"a\r", b"a"),
            (b"a\r\r", b"a\r"),
            (b"a\rb", b"a\rb"),
            (b"a\0b", b"a"),
            (b"a \0b", b"a"),
            (b"a  \r", b"a"),
            (b" a", b" a"),
            (b"a\t", b"a\t"),
            (b"a\\ ", b"a\\ "),
            (b"a\\  ", b"a\\ "),
            (b"a\\\\ ", b"a\\\\"),
            (b"a b \\", b"a b \\"),
            (b"  ", b""),
        ];
        for (line, wanted) in rows {
            assert_eq!((text(line), told(line).as_deref()), (wanted, Some(wanted)), "{line:?}");
        }
    }

    #[test]
    fn lines_have_parts() {
        let found = |line: &'static str| {
            parts(line.as_bytes()).map(|parts| (parts.is_whitelist, parts.is_only_dir, parts.is_whole, parts.pattern))
        };
        assert_eq!(found("a"), Some((false, false, false, &b"a"[..])));
        assert_eq!(found("!a/"), Some((true, true, false, &b"a"[..])));
        assert_eq!(found("/a"), Some((false, false, true, &b"a"[..])));
        assert_eq!(found("a/b/"), Some((false, true, true, &b"a/b"[..])));
        assert_eq!(found("!!a"), Some((true, false, false, &b"!a"[..])));
        assert_eq!(found("\\#a"), Some((false, false, false, &b"\\#a"[..])));
        for line in ["", "#a", "  ", "/", "//", "!", "!/", "\r"] {
            assert_eq!(found(line), None, "{line:?}");
        }
    }
}
