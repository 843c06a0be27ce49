"""The words of antt text."""
import re
from dataclasses import dataclass

# a name is any run of characters other than spaces and these
_PLAIN = r'[^\s(){}.;,@"«»]+'
_WORD = re.compile(
    rf'(?P<name>{_PLAIN}(?:\.{_PLAIN})*)'  # `tag.year` is one name of two parts
    rf'|(?P<field>(?<=\))\.{_PLAIN})'      # `(f x).0`
    r'|(?P<sign>[(){}.;,])')


@dataclass(frozen=True)
class Token:
    kind: str  # name, field or sign
    text: str
    line: int


class Trouble(Exception):
    """Text that is not understood here: nothing is guessed."""


def tokens(lines):
    """The tokens of numbered lines."""
    found = []
    for number, text in lines:
        at = 0
        while at < len(text):
            if text[at].isspace():
                at += 1
                continue
            word = _WORD.match(text, at)
            if not word:
                raise Trouble(f'line {number}: no word starts at {text[at:]!r}')
            found.append(Token(word.lastgroup, word.group(), number))
            at = word.end()
    return found
