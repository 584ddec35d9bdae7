"""What is wrong with a command, a file or a line: one message, and the exit status 1."""

import argparse
import os
import sys
from pathlib import Path


class Wrong(Exception):
    """In words."""


class Parser(argparse.ArgumentParser):
    """Of a tool's words; its help is the tool's own text."""

    def error(self, message):
        raise Wrong(f"{message}; see --help")


def parser(name, text):
    return Parser(prog=name, description=text, allow_abbrev=False,
                  formatter_class=argparse.RawDescriptionHelpFormatter)


def read(path):
    """All bytes of a file, or of standard input where the path is -."""
    try:
        return sys.stdin.buffer.read() if path == "-" else Path(path).read_bytes()
    except OSError as error:
        raise Wrong(f"{path}: {error.strerror}") from None


def taken(path, take):
    """What is made of a file's bytes; what is wrong with them is told with its name."""
    some = read(path)
    try:
        return take(some)
    except Wrong as wrong:
        raise Wrong(f"{path}: {wrong}") from None


def write(path, some):
    """All bytes into a file, or to standard output where the path is -."""
    try:
        if path == "-":
            sys.stdout.buffer.write(some)
        else:
            Path(path).write_bytes(some)
    except OSError as error:
        raise Wrong(f"{path}: {error.strerror}") from None


def run(name, work, words):
    """The exit status of a tool's work on the words of its command."""
    try:
        work(words)
        sys.stdout.flush()
    except BrokenPipeError:
        # Who read the output, such as `head`, has enough of it.
        os.dup2(os.open(os.devnull, os.O_WRONLY), sys.stdout.fileno())
        return 1
    except Wrong as wrong:
        print(f"{name}: {wrong}", file=sys.stderr)
        return 1
    return 0
