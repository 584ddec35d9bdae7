"""The worked example: one channel is asked for its assembly number."""

from some_channels import WORKED
from some_events import sent


def rack():
    return WORKED


def events():
    return sent(bytes.fromhex("FFFF0281100093"))
