from globset.pathspec import GitIgnorePattern, GitWildMatchPattern, GitWildMatchPatternError

__all__ = ["GitIgnorePattern", "GitWildMatchPattern", "GitWildMatchPatternError"]
