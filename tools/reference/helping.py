"""The help of a program: what stands at its head."""

import sys


def is_helped(words):
    """Whether help was asked for; it is printed then."""
    if not {"-h", "--help"} & set(words):
        return False
    print(sys.modules["__main__"].__doc__.strip())
    return True
