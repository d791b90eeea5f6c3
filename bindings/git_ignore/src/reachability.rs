use std::path::PathBuf;

/// Whether a rule ever decides.
#[derive(Clone, Debug, Eq, PartialEq)]
pub enum Reachability<T> {
    /// It decides about this path, and about no shorter path.
    Decides(PathBuf),
    /// It decides about no path: these later rules cover it. None of them can be left out. It is one if one of them covers the
    /// rule alone, and none if the rule matches no path.
    Never(Vec<T>),
    /// It decides about no path: each that it would decide about lies below an ignored directory. This rule ignores one.
    BelowIgnored(T),
    /// A search has more rows than the limit.
    Unknown,
}
