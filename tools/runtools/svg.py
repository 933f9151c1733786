"""A small writer of SVG: elements as text, whole numbers where they are whole."""

from xml.sax.saxutils import escape, quoteattr

FONT = "DejaVu Sans, Verdana, Arial, sans-serif"


def number(value):
    return f"{value:.1f}".rstrip("0").rstrip(".") if isinstance(value, float) else str(value)


def element(name, content="", **attributes):
    """An element; _ in an attribute's name stands for -."""
    given = "".join(f" {key.replace('_', '-')}={quoteattr(value if isinstance(value, str) else number(value))}"
                    for key, value in attributes.items() if value is not None)
    return f"<{name}{given}>{content}</{name}>" if content else f"<{name}{given}/>"


def rect(x, y, width, height, **attributes):
    return element("rect", x=x, y=y, width=width, height=height, **attributes)


def line(x1, y1, x2, y2, **attributes):
    return element("line", x1=x1, y1=y1, x2=x2, y2=y2, **attributes)


def polygon(points, **attributes):
    return element("polygon", points=" ".join(f"{number(x)},{number(y)}" for x, y in points), **attributes)


def text(x, y, content, size=12, **attributes):
    return element("text", escape(content), x=x, y=y, font_size=size, **attributes)


def group(parts, title=None, **attributes):
    """A group; its title is shown by a browser under the pointer."""
    content = (element("title", escape(title)) if title else "") + "".join(parts)
    return element("g", content, **attributes)


# Widths of letters in the font above, bold, as parts of its size; OTHER is a small letter or a digit.
WIDTHS = {letter: width for letters, width in (("mwMW@%…", 1.11), ("frt()-–/", 0.5), ("ijlI.,:;!|' \u00a0", 0.4)) for letter in letters}
CAPITAL, OTHER = 0.85, 0.7
NOT_BOLD = 0.91


def text_width(content, size=12, bold=False):
    """About the width of a text in the font above, rather too wide than too narrow."""
    bold_width = sum(WIDTHS.get(letter, CAPITAL if letter.isupper() else OTHER) for letter in content) * size
    return bold_width if bold else bold_width * NOT_BOLD


def document(width, height, definitions, parts):
    head = (f'<svg xmlns="http://www.w3.org/2000/svg" width="{number(width)}" height="{number(height)}" '
            f'viewBox="0 0 {number(width)} {number(height)}" font-family="{FONT}" fill="#000">')
    body = [element("defs", definitions), rect(0, 0, width, height, fill="#fff"), *parts]
    return "\n".join([head, *body, "</svg>"]) + "\n"
