"""The files of definitions: what each declares, and what a name means in it."""
import re
from pathlib import Path

from . import layout, library
from .core import Data
from .syntax import Applied, Name, Parser
from .tokens import Trouble, tokens

_OURS = re.compile(r'Rattle\.(?!std\.)(\w+)\.specs\.(\S+)$')
_INFIX = re.compile(r'◌[^◌]+◌$')
_USE_NAMES = re.compile(r'(?:pub )?use (\S+)\.\{(.*)\}$')
_USE_MODULE = re.compile(r'(?:pub )?use (\S+?)(?: as (\S+))?$')


class Definition:
    """A function by its clauses, each a list of tokens; `marks` are those of its signature and of the blocks around it."""

    def __init__(self, module, name, marks):
        self.module = module
        self.name = name
        self.marks = marks
        self.clauses = []

    def parsed(self):
        """Each clause as the patterns and the body."""
        found = []
        for words in self.clauses:
            cut = _first(words, '=')
            left = self.module.parse(words[:cut])
            patterns = left.args if isinstance(left, Applied) else ()
            if (left.head if patterns else left) != Name(self.name, words[0].line):
                raise Trouble(f'{self.module.path}, line {words[0].line}: this clause of {self.name} is not understood')
            found.append((patterns, self.module.parse(words[cut + 1:])))
        return found

    @property
    def arity(self):
        if not self.clauses:
            raise Trouble(f'{self.module.path}: {self.name} has no clauses')
        words = self.clauses[0]
        left = self.module.parse(words[:_first(words, '=')])
        return len(left.args) if isinstance(left, Applied) else 0


def _first(words, *signs):
    """The place of the first of these signs outside parentheses."""
    depth = 0
    for place, word in enumerate(words):
        if word.kind == 'sign':
            depth += {'(': 1, '{': 1, ')': -1, '}': -1}.get(word.text, 0)
        elif depth == 0 and word.text in signs:
            return place
    return len(words)


class Module:
    def __init__(self, repository, path, file):
        self.repository = repository
        self.path = path
        self.uses = {}     # name: (path, name)
        self.aliases = {}  # prefix: path
        self.fixity = {}   # sign of ours: (side, strength)
        self.names = {}    # name: Constructor, Data or Definition
        for item in layout.items(file.read_text(encoding='utf-8')):
            self.declare(item)

    # ---------------------------------------------------------------- declarations

    def declare(self, item, marks=frozenset()):
        line = ' '.join(text for _, text in item.lines)
        words = line.split()
        while words[0] in layout.MARKS:
            marks |= {words.pop(0)}
        if words[0] == 'use':
            self.use(line)
        elif words[0] in ('infix', 'infixl', 'infixr'):
            self.fixity.update({sign: (words[0], int(words[1])) for sign in words[2:]})
        elif words[0] == 'data':
            if not item.block:
                raise Trouble(f'{self.path}, line {item.lines[0][0]}: no constructor is found')
            self.data(words[1], item.block)
        elif words[0] in ('mutual', 'module'):
            if words[0] == 'module' and '(' in line:
                raise Trouble(f'{self.path}: a section with explicit parameters is not understood')
            for below in item.block:
                self.declare(below, marks)
        elif words[0] not in ('mod', 'unfolding', 'ruleset'):
            self.signature_or_clause(tokens(item.lines), marks)

    def use(self, line):
        if named := _USE_NAMES.match(line):
            path, names = named.groups()
            for entry in names.split(','):
                name, _, other = entry.strip().partition(' as ')
                self.uses[other or name] = (path, name)
        else:
            path, other = _USE_MODULE.match(line).groups()
            self.aliases[other or path.rpartition('.')[2]] = path

    def data(self, name, block):
        made = self.names[name] = Data(name)
        for item in block:
            words = tokens(item.lines)
            colon = _first(words, ':')
            for word in words[:colon]:
                self.names[word.text] = made.add(word.text, _arrows(words[colon + 1:]))

    def signature_or_clause(self, words, marks):
        while words[0].text in layout.MARKS:
            words = words[1:]
        name = words[0].text
        sign = _first(words, ':', '=')
        if sign == len(words):
            raise Trouble(f'{self.path}, line {words[0].line}: neither a signature nor a clause')
        if words[sign].text == ':':
            self.names[name] = Definition(self, name, marks)
        elif isinstance(self.names.get(name), Definition):
            self.names[name].clauses.append(words)
        else:
            raise Trouble(f'{self.path}, line {words[0].line}: {name} has no signature')

    # ---------------------------------------------------------------- what a name means

    def parse(self, words):
        try:
            return Parser(words, self.operators()).whole()
        except Trouble as trouble:
            raise Trouble(f'{self.path}, {trouble}') from None

    def operators(self):
        """The infix signs: those declared here, and those that a used operator brings."""
        if not hasattr(self, '_operators'):
            found = dict(self.fixity)
            for name, (path, other) in self.uses.items():
                if fixity := self.repository.fixity(path).get(other):
                    found[name] = fixity
            self._operators = {name[1:-1]: fixity for name, fixity in found.items() if _INFIX.match(name)}
        return self._operators

    def meaning(self, name):
        """What a name stands for, or None where it is none of this file's."""
        prefix, _, last = name.rpartition('.')
        if prefix in self.aliases:
            return self.repository.meaning(self.aliases[prefix], last)
        if prefix:
            data = self.meaning(prefix)  # a constructor behind its type, `ℕ.suc`
            return next((c for c in data.constructors if c.name == last), None) if isinstance(data, Data) else None
        if name in self.names:
            return self.names[name]
        return self.repository.meaning(*self.uses[name]) if name in self.uses else None


def _arrows(words):
    """How many arguments the type of a constructor takes, or None where it names one of them."""
    if (arrow := _first(words, '→')) == len(words):
        return 0
    more = _arrows(words[arrow + 1:])
    return None if more is None or any(w.text in ('{', ':') for w in words[:arrow]) else 1 + more


class Repository:
    """The modules by their paths; those of the libraries are in library.py."""

    def __init__(self, root):
        self.root = Path(root)
        self.modules = {}

    def module(self, path):
        ours = _OURS.match(path)
        if not ours:
            return None
        crate, name = ours.groups()
        key = f'{crate}.{name}'
        if key not in self.modules:
            file = self.root / 'crates' / crate / 'specs' / (name.replace('.', '/') + '.antt')
            self.modules[key] = Module(self, key, file)
        return self.modules[key]

    def fixity(self, path):
        ours = self.module(path)
        return ours.fixity if ours else library.FIXITY.get(path, {})

    def meaning(self, path, name):
        ours = self.module(path)
        found = ours.meaning(name) if ours else library.MEANING.get(path, {}).get(name)
        if found is None:
            raise Trouble(f'{path}.{name} has no meaning here: see translate/library.py')
        return found
