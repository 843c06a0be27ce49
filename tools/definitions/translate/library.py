"""What the definitions take from the libraries, each with its meaning here. runtime/library.js holds the native functions."""
from dataclasses import dataclass

from .core import Call, Case, Data, Let


@dataclass(frozen=True)
class Native:
    """A function of runtime/library.js; `takes` has a letter for each argument: v where its value is always needed, l where it may wait."""
    name: str
    takes: str
    cheap: bool = False  # worth computing at once where its arguments are known

    @property
    def arity(self):
        return len(self.takes)


@dataclass(frozen=True)
class Written:
    """A function that is replaced by a term."""
    arity: int
    term: object


NAT = Data('ℕ', 'nat')
ZERO, SUC = NAT.add('zero', 0), NAT.add('suc', 1)
BOOL = Data('Bool', 'bool')
TRUE, FALSE = BOOL.add('true', 0), BOOL.add('false', 0)
LIST = Data('List', 'list')
NIL, CONS = LIST.add('[]', 0), LIST.add('◌∷◌', 2)


def _test(fresh, condition, yes, no):
    name = fresh('test')
    return Let(name, condition, Case(name, ((TRUE, (), yes), (FALSE, (), no))))


MEANING = {
    'Rattle.std.specs.Prelude': {
        'ℕ': NAT, 'zero': ZERO, 'suc': SUC,
        '◌+◌': Native('add', 'vv', cheap=True),
        '◌-◌': Native('monus', 'vv', cheap=True),  # 0 where it would be below
        '◌*◌': Native('times', 'vv'),
        '◌/◌': Native('quotient', 'vv'),           # x / 0 = 0
        '◌%◌': Native('remainder', 'vv'),          # x % 0 = x
        '◌^◌': Native('power', 'vv'),
        'max': Native('largest', 'vv'),
        'min': Native('smallest', 'vv'),
        'Bool': BOOL, 'true': TRUE, 'false': FALSE,
        'cond': Written(3, _test),
        '◌&&◌': Written(2, lambda fresh, a, b: _test(fresh, a, b, Call(FALSE, ()))),
        '◌||◌': Written(2, lambda fresh, a, b: _test(fresh, a, Call(TRUE, ()), b)),
        'leb': Native('leb', 'vv'),
        'ltb': Native('ltb', 'vv'),
        'eqb': Native('eqb', 'vv'),
        'List': LIST, '[]': NIL, '◌∷◌': CONS,
        '◌++◌': Native('append', 'vl'),
        'length': Native('length', 'v'),
        'drop': Native('drop', 'vv'),
        'get_or': Native('getOr', 'vvl'),
    },
    'Rattle.std.specs.Int.Bits': {
        'bit_or': Native('bitOr', 'vv'),
    },
}

FIXITY = {
    'Rattle.std.specs.Prelude': {
        '◌+◌': ('infixl', 65), '◌-◌': ('infixl', 65),
        '◌*◌': ('infixl', 70), '◌/◌': ('infixl', 70), '◌%◌': ('infixl', 70), '◌^◌': ('infixr', 75),
        '◌&&◌': ('infixl', 35), '◌||◌': ('infixl', 30),
        '◌∷◌': ('infixr', 67), '◌++◌': ('infixl', 65),
    },
}
