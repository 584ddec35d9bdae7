"""What the lines that a recording prints show: codes, refusals and the rest."""

from history import content


def result(line):
    """What one line shows, in words."""
    words = line.split(" ")
    if line in ("silent", "set up") or words[0] == "refused":
        return line
    if len(words) == 1:
        return "record"
    _, status, *_ = content(bytes.fromhex(words[1]))
    return f"code {status}" if status < 128 else f"communication error {status}"


def results(printed):
    return {result(line) for line in printed.decode("ascii").splitlines()}
