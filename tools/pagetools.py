"""Pages of docs/ with a part that a tool writes, between two markers. For tools/believed and tools/wrongprograms."""
import os
import re
import sys

ROOT = os.path.normpath(os.path.join(os.path.dirname(os.path.abspath(__file__)), ".."))


def read(*path):
    with open(os.path.join(ROOT, *path), encoding="utf-8") as file:
        return file.read()


def put(page, tool, part):
    """The text of a page with this part between the markers of a tool; ValueError if it has no such markers."""
    begin, end = "<!-- %s: begin -->\n" % tool, "<!-- %s: end -->" % tool
    if page.count(begin) != 1 or page.count(end) != 1 or page.index(end) < page.index(begin):
        raise ValueError("no part between '%s' and '%s'" % (begin.strip(), end))
    between = re.compile(re.escape(begin) + ".*?" + re.escape(end), re.S)
    return between.sub(lambda _: begin + part + end, page)


def write_or_check(page, tool, part, write):
    """Writes the part into the page, or, if it is another one, ends with a word about how to write it anew."""
    try:
        now = read(page)
        wanted = put(now, tool, part)
    except ValueError as wrong:
        sys.exit("%s: %s: %s" % (tool, page, wrong))
    if not write:
        if now != wanted:
            sys.exit("%s: %s does not have what the sources say; write it anew with: tools/%s --write" % (tool, page, tool))
        return
    with open(os.path.join(ROOT, page), "w", encoding="utf-8") as file:
        file.write(wanted)
