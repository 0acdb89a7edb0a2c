"""Which word was surely meant."""

import difflib


def near(word, known, least=0.7):
    """The known word that was surely meant, or None."""
    found = difflib.get_close_matches(word.lower(), known, 1, least)
    return found[0] if found else None
