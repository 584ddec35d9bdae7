"""The channels of a rack, which is a list of records numbered from 0."""

from refusal import no_channel

MOST_CHANNELS = 15


def told(rack):
    """The number a rack tells: 16 stands for every number above 15."""
    return min(len(rack), MOST_CHANNELS + 1)


def record_of(rack, channel):
    if channel >= told(rack) or channel >= MOST_CHANNELS:
        raise no_channel()
    return rack[channel]
