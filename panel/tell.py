"""The panel's standard output."""


def tell(words):
    """Prints a line at once.  Whoever read it may be gone: that is no reason to end."""
    try:
        print("panel: " + words, flush=True)
    except OSError:
        pass
