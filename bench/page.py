"""docs/BENCH.md, of which each measure writes its own parts and leaves the rest as it stands.

A part stands between the lines <!-- NAME --> and <!-- end of NAME -->.
"""

PAGE = "docs/BENCH.md"


def read():
    with open(PAGE, encoding="utf-8") as page:
        return page.read()


def ends(text, name):
    """Where a part begins and ends."""
    first, last = f"<!-- {name} -->\n", f"<!-- end of {name} -->"
    return text.index(first) + len(first), text.index(last)


def part(name):
    text = read()
    begin, end = ends(text, name)
    return text[begin:end]


def write(parts):
    """Writes parts anew, each by its name."""
    text = read()
    for name, table in parts.items():
        begin, end = ends(text, name)
        text = text[:begin] + "\n" + table.strip("\n") + "\n\n" + text[end:]
    with open(PAGE, "w", encoding="utf-8") as page:
        page.write(text)
