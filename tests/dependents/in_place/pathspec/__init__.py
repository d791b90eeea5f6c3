"""The package ``pathspec`` as programs import it, over ``globset.pathspec``."""

from globset.pathspec import GitIgnoreSpec, PathSpec

from . import gitignore, pathspec, patterns, util

__all__ = ["GitIgnoreSpec", "PathSpec", "gitignore", "pathspec", "patterns", "util"]
