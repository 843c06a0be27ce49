"""Clauses as a tree of case distinctions, each on a column where every clause still in play has a constructor."""
from dataclasses import dataclass

from .core import Case, Constructor
from .tokens import Trouble


@dataclass(frozen=True)
class Built:
    """A pattern: a constructor with a pattern for each field. The pattern of a variable is its name."""
    constructor: Constructor
    fields: tuple


def tree(places, rows, fresh, finish):
    """`places` are the variables matched on, a row is patterns and a body; `finish` makes a term of a body and the places of its names."""
    column = next((i for i in range(len(places)) if all(isinstance(patterns[i], Built) for patterns, _ in rows)), None)
    if column is None:
        patterns, body = rows[0]
        if len(rows) != 1 or any(isinstance(p, Built) for p in patterns):
            raise Trouble('these clauses do not split exactly')
        return finish(dict(zip(patterns, places)), body)
    branches = []
    for constructor in rows[0][0][column].constructor.data.constructors:
        chosen = [(patterns, body) for patterns, body in rows if patterns[column].constructor == constructor]
        if not chosen:
            raise Trouble(f'no clause for {constructor.name}')
        opened = [(_opened(patterns, column, patterns[column].fields), body) for patterns, body in chosen]
        fields = tuple(fresh(f if isinstance(f, str) else 'part') for f in chosen[0][0][column].fields)
        branches.append((constructor, fields, tree(_opened(places, column, fields), opened, fresh, finish)))
    return Case(places[column], tuple(branches))


def _opened(row, column, fields):
    """The row with the constructor's fields in place of the constructor."""
    return row[:column] + fields + row[column + 1:]
