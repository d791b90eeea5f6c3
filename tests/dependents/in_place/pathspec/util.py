from globset.pathspec import util

__all__ = util.__all__
globals().update({name: getattr(util, name) for name in __all__})
