/// What a matcher says of a path.
#[derive(Clone, Debug)]
pub enum Match<T> {
    /// No rule decides.
    None,
    /// A rule ignores the path.
    Ignore(T),
    /// A rule keeps the path: its line begins with `!`.
    Whitelist(T),
}

impl<T> Match<T> {
    /// Whether no rule decides.
    pub fn is_none(&self) -> bool {
        matches!(self, Match::None)
    }

    /// Whether a rule ignores the path.
    pub fn is_ignore(&self) -> bool {
        matches!(self, Match::Ignore(_))
    }

    /// Whether a rule keeps the path.
    pub fn is_whitelist(&self) -> bool {
        matches!(self, Match::Whitelist(_))
    }

    /// The opposite: [`Match::Whitelist`] for [`Match::Ignore`], and the other way round.
    pub fn invert(self) -> Match<T> {
        match self {
            Match::None => Match::None,
            Match::Ignore(inner) => Match::Whitelist(inner),
            Match::Whitelist(inner) => Match::Ignore(inner),
        }
    }

    /// What the match has, or `None` if no rule decides.
    pub fn inner(&self) -> Option<&T> {
        match self {
            Match::None => None,
            Match::Ignore(inner) | Match::Whitelist(inner) => Some(inner),
        }
    }

    /// The same kind of match, with what `map` makes of what it has.
    pub fn map<U, F: FnOnce(T) -> U>(self, map: F) -> Match<U> {
        match self {
            Match::None => Match::None,
            Match::Ignore(inner) => Match::Ignore(map(inner)),
            Match::Whitelist(inner) => Match::Whitelist(map(inner)),
        }
    }

    /// This match, or the other one if no rule decides here.
    pub fn or(self, other: Self) -> Self {
        if self.is_none() {
            other
        } else {
            self
        }
    }
}
