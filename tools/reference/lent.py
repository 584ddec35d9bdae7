"""The buffer a caller lends for a result."""

from refusal import short_buffer


def fill(buffer, result):
    """Write the result at the buffer's front and give its length.

    Called once the whole result is known, so that the buffer's length is
    tried last and a refused call has written nothing.
    """
    if len(buffer) < len(result):
        raise short_buffer()
    buffer[:len(result)] = result
    return len(result)
