from globset.pathspec import GitIgnorePattern, GitWildMatchPattern

from . import gitwildmatch

__all__ = ["GitIgnorePattern", "GitWildMatchPattern", "gitwildmatch"]
