"""Terms and patterns as they are written, with the operators put in their places."""
from dataclasses import dataclass

from .tokens import Trouble

RESERVED = {'λ', 'let', 'in', 'elim', '=', ':', '→', '↦', '|', '[', ']', 'where', 'do', 'record', 'rw', 'simp', 'as', 'unfold'}


@dataclass(frozen=True)
class Name:
    text: str
    line: int


@dataclass(frozen=True)
class Numeral:
    value: int


@dataclass(frozen=True)
class Applied:
    head: object
    args: tuple


@dataclass(frozen=True)
class Lambda:
    names: tuple
    body: object


@dataclass(frozen=True)
class LetIn:
    name: str
    value: object
    body: object


@dataclass(frozen=True)
class Cases:
    value: object
    cases: tuple  # (pattern, term)


@dataclass(frozen=True)
class Listed:
    """A tuple."""
    items: tuple


@dataclass(frozen=True)
class Field:
    value: object
    place: int


class Parser:
    """Reads one term; `operators` gives the side and the strength of each infix sign."""

    def __init__(self, tokens, operators):
        self.tokens = tokens
        self.at = 0
        self.operators = operators

    # ---------------------------------------------------------------- tokens

    def text(self):
        return self.tokens[self.at].text if self.at < len(self.tokens) else ''

    def line(self):
        return self.tokens[min(self.at, len(self.tokens) - 1)].line

    def take(self, text=None):
        if self.at == len(self.tokens) or text not in (None, self.text()):
            raise Trouble(f'line {self.line()}: {text or "more"} expected at {self.text() or "the end"!r}')
        self.at += 1
        return self.tokens[self.at - 1].text

    def whole(self):
        term = self.term()
        if self.at < len(self.tokens):
            raise Trouble(f'line {self.line()}: {self.text()!r} is not understood here')
        return term

    # ---------------------------------------------------------------- terms

    def term(self):
        if self.text() == 'λ':
            return self.function()
        if self.text() == 'let':
            return self.let_in()
        if self.text() == 'elim':
            return self.cases()
        return self.operation(0)

    def function(self):
        self.take('λ')
        names = []
        while self.text() != '.':
            names += self.binder()
        self.take('.')
        return Lambda(tuple(names), self.term())

    def binder(self):
        """A name, or names with their type in parentheses."""
        if self.text() != '(':
            return [self.plain_name()]
        self.take('(')
        names = [self.plain_name()]
        while self.text() != ':':
            names.append(self.plain_name())
        self.skip_to(')')
        self.take(')')
        return names

    def plain_name(self):
        token = self.tokens[self.at]
        if token.kind != 'name' or token.text in RESERVED or '.' in token.text:
            raise Trouble(f'line {token.line}: a name is expected at {token.text!r}')
        return self.take()

    def let_in(self):
        self.take('let')
        name = self.plain_name()
        self.skip_to('=')
        self.take('=')
        value = self.term()
        self.take('in')
        return LetIn(name, value, self.term())

    def skip_to(self, end):
        """Over a type."""
        depth = 0
        while depth or self.text() != end:
            depth += {'(': 1, '{': 1, ')': -1, '}': -1}.get(self.take(), 0)

    def cases(self):
        self.take('elim')
        value = self.application()
        self.take('[')
        found = []
        while self.text() != ']':
            pattern = self.operation(0)
            self.take('↦')
            found.append((pattern, self.term()))
            if self.text() != ']':
                self.take('|')
        self.take(']')
        return Cases(value, tuple(found))

    # ---------------------------------------------------------------- operators and applications

    def operation(self, least):
        left = self.operand()
        while self.text() in self.operators:
            side, strength = self.operators[self.text()]
            if strength < least:
                break
            sign = Name(f'◌{self.text()}◌', self.line())
            self.take()
            right = self.operation(strength if side == 'infixr' else strength + 1)
            left = Applied(sign, (left, right))
        return left

    def operand(self):
        return self.term() if self.text() in ('λ', 'let', 'elim') else self.application()

    def application(self):
        head, args = self.atom(), []
        while self.at < len(self.tokens):
            token = self.tokens[self.at]
            if token.text in ('λ', 'let'):
                args.append(self.term())  # the last argument needs no parentheses
                break
            elif self.starts_atom(token):
                args.append(self.atom())
            else:
                break
        return Applied(head, tuple(args)) if args else head

    def closed(self):
        """What stands behind an opening parenthesis, with the closing one."""
        items = [self.term()]
        while self.text() == ',':
            self.take(',')
            items.append(self.term())
        self.take(')')
        return items[0] if len(items) == 1 else Listed(tuple(items))

    def projected(self, value):
        """With the fields that are taken of it, which bind tighter than application."""
        while self.at < len(self.tokens) and self.tokens[self.at].kind == 'field':
            value = Field(value, self.place(self.take()[1:]))
        return value

    def place(self, text):
        if not text.isdigit():
            raise Trouble(f'line {self.line()}: the field {text!r} of a record is not understood')
        return int(text)

    def starts_atom(self, token):
        if token.kind == 'name':
            return token.text not in RESERVED and token.text not in self.operators
        return token.text == '('

    def atom(self):
        if self.at == len(self.tokens) or not self.starts_atom(self.tokens[self.at]):
            raise Trouble(f'line {self.line()}: a term is expected at {self.text()!r}')
        line, text = self.line(), self.take()
        if text == '(':
            return self.projected(self.closed())
        if text[0].isdigit():
            return Numeral(int(text, 0))
        name, _, last = text.rpartition('.')
        return Field(Name(name, line), int(last)) if last.isdigit() else Name(text, line)
