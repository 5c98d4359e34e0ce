"""Pieces of SVG and their words."""

from html import escape


def number(value):
    """A coordinate, to a tenth of a pixel."""
    return ("%.1f" % value).removesuffix(".0")


def counted(count, noun):
    return "%s %s%s" % (format(count, ","), noun, "" if count == 1 else "s")


def exact(value):
    """A float as the shortest decimal that reads back to the same bits."""
    return repr(value).replace("inf", "infinity")


def title(*lines):
    """What a browser shows when one points at a mark."""
    return "<title>%s</title>" % "&#10;".join(escape(line, quote=False) for line in lines if line)


def line(start, end):
    """A piece of a path's data."""
    return "M%s %sL%s %s" % (number(start[0]), number(start[1]), number(end[0]), number(end[1]))


def svg(name, left, width, height, content, label=""):
    """A drawing of the stretch from `left` on. What crosses its edges is drawn too."""
    about = ' role="img" aria-label="%s"' % escape(label) if label else ""
    box = "%s 0 %s %s" % (number(left), number(width), number(height))
    return '<svg class="%s" x="%s" viewBox="%s" width="%s" height="%s"%s>%s</svg>' % (name, number(left), box, number(width), number(height), about, content)
