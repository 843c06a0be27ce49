"""Which values are needed in any case: those need not wait.

Every function of the text ends on every argument, so to compute a value early never changes an answer; it only must not cost too much.
"""
from .core import Apply, Call, Case, Constructor, Function, Let, Number, Project, Tuple, Variable
from .library import Native


class Strictness:
    """Of each definition: for each argument, whether its value is needed in any case."""

    def __init__(self, bodies):
        """`bodies`: of each definition, the names of its arguments and its term."""
        self.takes = {d: [True] * len(names) for d, (names, _) in bodies.items()}
        self.known = {}
        changed = True
        while changed:
            changed = False
            self.known.clear()
            for definition, (names, body) in bodies.items():
                needed = self.needs(body)
                takes = [n in needed for n in names]
                if takes != self.takes[definition]:
                    self.takes[definition] = takes
                    changed = True
        self.known.clear()

    def of(self, target):
        """Of each argument of a call."""
        if isinstance(target, Native):
            return [letter == 'v' for letter in target.takes]
        if isinstance(target, Constructor):
            return [target.data.kind == 'nat'] * target.arity
        return self.takes[target]

    def needs(self, term):
        """The variables whose values are needed to know which constructor, number or function the term is."""
        if id(term) not in self.known:
            self.known[id(term)] = self._needs(term), term
        return self.known[id(term)][0]

    def _needs(self, term):
        if isinstance(term, Variable):
            return frozenset([term.name])
        if isinstance(term, (Number, Function, Tuple)):
            return frozenset()
        if isinstance(term, Call):
            return frozenset().union(*(self.needs(a) for a, now in zip(term.args, self.of(term.target)) if now))
        if isinstance(term, Apply):
            return self.needs(term.function)
        if isinstance(term, Project):
            return self.needs(term.value)
        if isinstance(term, Let):
            body = self.needs(term.body)
            return (body - {term.name}) | (self.needs(term.value) if term.name in body else frozenset())
        if isinstance(term, Case):
            branches = [self.needs(body) - set(fields) for _, fields, body in term.branches]
            return frozenset([term.name]) | frozenset.intersection(*branches)
        raise TypeError(term)
