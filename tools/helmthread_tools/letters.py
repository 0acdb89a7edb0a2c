"""Letters and digits of ASCII; the texts here are bytes, of which Python takes others for letters,
too.
"""


def is_digits(text):
    return text.isascii() and text.isdigit()


def is_alnum(text):
    return text.isascii() and text.isalnum()


def is_alpha(text):
    return text.isascii() and text.isalpha()
