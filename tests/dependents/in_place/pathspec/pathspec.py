from globset.pathspec import PathSpec

__all__ = ["PathSpec"]
