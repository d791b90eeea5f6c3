from globset.pathspec import GitIgnoreSpec

__all__ = ["GitIgnoreSpec"]
