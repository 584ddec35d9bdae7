"""Elements of an SVG file as text."""

from xml.sax.saxutils import escape, quoteattr


def element(name, content="", **values):
    """Content is elements; underscores in the names of values stand for hyphens."""
    said = "".join(f" {key.strip('_').replace('_', '-')}={quoteattr(str(value))}"
                   for key, value in values.items())
    return f"<{name}{said}>{content}</{name}>" if content else f"<{name}{said}/>"


def text(words, x, y, **values):
    return element("text", escape(words), x=tenth(x), y=tenth(y), **values)


def titled(words):
    """What a browser shows where the pointer rests on the element around it."""
    return element("title", escape(words))


def tenth(number):
    return f"{number:.1f}".removesuffix(".0")


def steps(places):
    """A path's commands along places, first sideways and then up or down."""
    (x, y), *more = places
    return f"M{tenth(x)},{tenth(y)}" + "".join(f"H{tenth(x)}V{tenth(y)}" for x, y in more)
