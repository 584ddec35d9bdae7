"""Requests: a tag question, a text write, a number write, or bare."""

TAG_QUESTION = 11
TAG_LENGTH = 6
TEXT_WRITES = (17, 18)
NUMBER_WRITES = (6, 19, 59, 236)


def kind(command, data):
    """Which of the four a request is; the codes judge a write's count."""
    if command == TAG_QUESTION and len(data) == TAG_LENGTH:
        return "tag"
    if command in TEXT_WRITES:
        return "text"
    if command in NUMBER_WRITES:
        return "number"
    return "bare"
