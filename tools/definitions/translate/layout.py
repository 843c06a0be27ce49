"""Layout by indentation: a file as items, each with its lines or with a block of items below it."""
import re
from dataclasses import dataclass, field

MARKS = {'pub', 'unfoldable', 'abbrev'}
_OPENS = re.compile(r'^(?:(?:pub|unfoldable|abbrev)\s+)*(?:mutual$|(?:data|module)\s.*\swhere$)')


@dataclass
class Item:
    lines: list  # (number, text)
    block: list = field(default_factory=list)


def _plain_lines(text):
    """The numbered lines that are more than comment, with their indentation."""
    text = re.sub(r'\{-.*?-\}', lambda c: '\n' * c.group().count('\n'), text, flags=re.S)
    for number, line in enumerate(text.splitlines(), 1):
        line = re.sub(r'(^|\s)--.*$', '', line).rstrip()
        if line:
            yield number, len(line) - len(line.lstrip()), line.strip()


def _items(lines):
    found = []
    while lines:
        number, indent, text = lines[0]
        size = 1
        while size < len(lines) and lines[size][1] > indent:
            size += 1
        below, lines = lines[1:size], lines[size:]
        if _OPENS.match(text):
            found.append(Item([(number, text)], _items(below)))
        else:
            found.append(Item([(number, text)] + [(n, t) for n, _, t in below]))
    return found


def items(text):
    return _items(list(_plain_lines(text)))
