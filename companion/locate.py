"""Where a key of a problem file stands in its text."""

import re


def place_of(text: str, table: str, index: int, key: str) -> tuple[int, int] | None:
    """The line and the column of a key's value, or of a table's heading where no key is named; counted from 1."""
    seen: dict[str, int] = {}
    here = ("", 0)
    heading = None
    for number, line in enumerate(text.split("\n"), start=1):
        header = re.match(r"\s*(\[\[?)\s*[\"']?(\w+)[\"']?\s*\]", line)
        if header:
            name = header[2]
            seen[name] = seen.get(name, -1) + 1 if header[1] == "[[" else 0
            here = (name, seen[name])
            if here == (table, index):
                heading = (number, header.start(1) + 1)
            continue
        value = re.match(r"\s*[\"']?([\w-]+)[\"']?\s*=\s*", line)
        if value and here == (table, index) and value[1] == key:
            return number, value.end() + 1
    return heading
