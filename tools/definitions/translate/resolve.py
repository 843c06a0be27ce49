"""From the text of a definition to the term that is translated."""
from . import matching
from .core import Apply, Call, Constructor, Function, Let, Number, Project, Tuple, Variable
from .library import Native, Written
from .modules import Definition
from .syntax import Applied, Cases, Field, Lambda, LetIn, Listed, Name, Numeral
from .tokens import Trouble


class Resolver:
    """A definition as `names` of arguments and a `body`, and the definitions that it `called`."""

    def __init__(self, definition):
        self.module = definition.module
        self.made = 0
        self.called = []
        self.names = tuple(self.fresh(f'a{i}') for i in range(definition.arity))
        clauses = [(tuple(self.pattern(p) for p in patterns), body) for patterns, body in definition.parsed()]
        if clauses and not any(isinstance(p, matching.Built) for p in clauses[0][0]):
            self.names = tuple(self.fresh(p) for p in clauses[0][0])
        self.body = matching.tree(self.names, clauses, self.fresh, lambda names, body: self.term(body, names))

    def fresh(self, name):
        self.made += 1
        return f'{name}_{self.made}'  # no name of the text has such an end

    # ---------------------------------------------------------------- patterns

    def pattern(self, written):
        head, args = (written.head, written.args) if isinstance(written, Applied) else (written, ())
        if not isinstance(head, Name):
            raise Trouble(f'{self.module.path}: the pattern {written} is not understood')
        meaning = self.module.meaning(head.text)
        if isinstance(meaning, Constructor):
            if len(args) != meaning.arity:
                raise Trouble(f'{self.module.path}, line {head.line}: {head.text} takes {meaning.arity} arguments')
            return matching.Built(meaning, tuple(self.pattern(a) for a in args))
        if args or '.' in head.text:
            raise Trouble(f'{self.module.path}, line {head.line}: {head.text} is no constructor')
        return head.text

    # ---------------------------------------------------------------- terms

    def term(self, written, scope):
        if isinstance(written, Numeral):
            return Number(written.value)
        if isinstance(written, Name):
            return self.applied(written, (), scope)
        if isinstance(written, Applied):
            return self.applied(written.head, tuple(self.term(a, scope) for a in written.args), scope)
        if isinstance(written, Lambda):
            names = tuple(self.fresh(n) for n in written.names)
            return Function(names, self.term(written.body, {**scope, **dict(zip(written.names, names))}))
        if isinstance(written, LetIn):
            name = self.fresh(written.name)
            return Let(name, self.term(written.value, scope), self.term(written.body, {**scope, written.name: name}))
        if isinstance(written, Cases):
            name = self.fresh('case')
            rows = [((self.pattern(p),), body) for p, body in written.cases]
            return Let(name, self.term(written.value, scope),
                       matching.tree((name,), rows, self.fresh, lambda names, body: self.term(body, {**scope, **names})))
        if isinstance(written, Listed):
            return Tuple(tuple(self.term(i, scope) for i in written.items))
        if isinstance(written, Field):
            return Project(self.term(written.value, scope), written.place)
        raise Trouble(f'{self.module.path}: {written} is not understood')

    def applied(self, head, args, scope):
        if not isinstance(head, Name):
            return Apply(self.term(head, scope), args)
        if head.text in scope:
            return Apply(Variable(scope[head.text]), args) if args else Variable(scope[head.text])
        meaning = self.module.meaning(head.text)
        if not isinstance(meaning, (Constructor, Definition, Native, Written)):
            raise Trouble(f'{self.module.path}, line {head.line}: {head.text} has no meaning as a term')
        return self.call(meaning, args)

    def call(self, target, args):
        """A call with fewer arguments is a function of the others; one with more applies what comes back."""
        if isinstance(target, Definition):
            self.called.append(target)
        if target.arity is None:
            raise Trouble(f'{self.module.path}: the arguments of {target.name} are not understood')
        missing = target.arity - len(args)
        if missing > 0:
            held = [(self.fresh('held'), a) for a in args]
            names = tuple(self.fresh('later') for _ in range(missing))
            made = Function(names, self.call(target, tuple(Variable(n) for n in [n for n, _ in held] + list(names))))
            for name, value in reversed(held):
                made = Let(name, value, made)
            return made
        if missing < 0:
            return Apply(self.call(target, args[:target.arity]), args[target.arity:])
        return target.term(self.fresh, *args) if isinstance(target, Written) else Call(target, args)
