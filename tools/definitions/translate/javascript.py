"""Terms as JavaScript.

A value is held as a number, a boolean, an array (a tuple), a function of one argument, or an object of its data type's class.
What may wait is a `Thunk`: a variable is `known` once it surely holds a value and no thunk.
"""
import re

from .core import Apply, Call, Case, Constructor, Function, Let, Number, Project, Tuple, Variable
from .library import SUC, Native
from .modules import Definition

SAFE = 2 ** 53


def identifier(text):
    return re.sub(r'[^A-Za-z0-9_]', lambda c: '$' if c.group() == '-' else f'${ord(c.group()):x}$', text)


class Writer:
    def __init__(self, strictness):
        self.strictness = strictness
        self.datas = {}
        self.natives = {'Thunk', 'force', 'ready', 'nil', 'Cons', 'add', 'pred'}

    # ---------------------------------------------------------------- names

    def definition(self, definition):
        return identifier(f'{definition.module.path}_{definition.name}'.replace('.', '_'))

    def data(self, data):
        """The name of a data type's class."""
        if data not in self.datas:
            self.datas[data] = f'{identifier(data.name)}_{len(self.datas)}'
        return self.datas[data]

    def taken(self):
        """What the translation takes from runtime/library.js."""
        return sorted(self.natives)

    def classes(self):
        """A class for each declared data type, and its constructors without arguments."""
        text = []
        for data, name in self.datas.items():
            fields = [f'a{i}' for i in range(max(c.arity for c in data.constructors))]
            text.append(f'class {name} {{ constructor({", ".join(["tag"] + fields)}) {{ {" ".join(f"this.{f} = {f};" for f in ["tag"] + fields)} }} }}')
            text.append(f'{name}.names = {[c.name for c in data.constructors]};')
            text += [f'const {name}_{c.index} = new {name}({c.index});' for c in data.constructors if c.arity == 0]
        return text

    # ---------------------------------------------------------------- definitions

    def write(self, definition, names, body):
        name = self.definition(definition)
        if not names:
            return f'const {name} = new Thunk(() => {self.block(body, {}, set())});'
        known = {n for n, now in zip(names, self.strictness.of(definition)) if now}
        return f'function {name}({", ".join(identifier(n) for n in names)}) {self.block(body, {}, known)}'

    # ---------------------------------------------------------------- statements

    def block(self, term, held, known):
        """Statements in braces that return the term's value. `held`: the variables that are read under another name."""
        return '{ ' + ' '.join(self.statements(term, held, known)) + ' }'

    def statements(self, term, held, known):
        text = []
        held, known = dict(held), set(known)
        for name in sorted(self.strictness.needs(term) - known):
            forced = f'{identifier(name)}_'
            text.append(f'const {forced} = force({held.get(name, identifier(name))});')
            held[name] = forced
            known.add(name)
        if isinstance(term, Let):
            now = term.name in self.strictness.needs(term.body)
            value = self.value(term.value, held, known) if now else self.waiting(term.value, held, known)
            text.append(f'const {identifier(term.name)} = {value};')
            return text + self.statements(term.body, held, known | ({term.name} if now else set()))
        if isinstance(term, Case):
            return text + self.case(term, held, known)
        return text + [f'return {self.value(term, held, known)};']

    def case(self, term, held, known):
        kind = term.branches[0][0].data.kind
        value = held.get(term.name, identifier(term.name))
        if kind == 'declared':
            text = [f'switch ({value}.tag) {{']
            for constructor, fields, body in term.branches:
                parts = [f'const {identifier(f)} = {value}.a{i};' for i, f in enumerate(fields)]
                text += [f'case {constructor.index}: {{'] + parts + self.statements(body, held, known) + ['}']
            return text + ['}', 'throw new Error("no case");']
        test, parts = {
            'bool': (value, []),
            'nat': (f'{value} === 0', [f'pred({value})']),
            'list': (f'{value} === nil', [f'{value}.head', f'{value}.tail']),
        }[kind]
        (_, _, first), (_, fields, second) = term.branches
        opened = [f'const {identifier(f)} = {part};' for f, part in zip(fields, parts)]
        more = known | set(fields) if kind == 'nat' else known
        return [f'if ({test}) {{'] + self.statements(first, held, known) + ['}'] + opened + self.statements(second, held, more)

    # ---------------------------------------------------------------- expressions

    def value(self, term, held, known):
        """The term's value, computed now."""
        if isinstance(term, Variable):
            name = held.get(term.name, identifier(term.name))
            return name if term.name in known else f'force({name})'
        if isinstance(term, Number):
            return str(term.value) if term.value < SAFE else f'{term.value}n'
        if isinstance(term, Tuple):
            return '[' + ', '.join(self.waiting(i, held, known) for i in term.items) + ']'
        if isinstance(term, Function):
            return ' => '.join(identifier(n) for n in term.names) + ' => ' + self.block(term.body, held, known)
        if isinstance(term, Project):
            return f'force({self.value(term.value, held, known)}[{term.place}])'
        if isinstance(term, Apply):
            function = self.value(term.function, held, known)
            function = f'({function})' if isinstance(term.function, Function) else function
            return function + ''.join(f'({self.waiting(a, held, known)})' for a in term.args)
        if isinstance(term, Call):
            return self.call(term, held, known)
        return f'(() => {self.block(term, held, known)})()'

    def call(self, term, held, known):
        target = term.target
        args = [self.value(a, held, known) if now else self.waiting(a, held, known) for a, now in zip(term.args, self.strictness.of(target))]
        if isinstance(target, Definition):
            name = self.definition(target)
            return f'{name}({", ".join(args)})' if args else f'force({name})'
        if isinstance(target, Native):
            self.natives.add(target.name)
            return f'{target.name}({", ".join(args)})'
        if target.data.kind == 'declared':
            name = self.data(target.data)
            return f'new {name}({", ".join([str(target.index)] + args)})' if args else f'{name}_{target.index}'
        return {'zero': '0', 'suc': 'add({}, 1)', 'true': 'true', 'false': 'false', '[]': 'nil', '◌∷◌': 'new Cons({}, {})'}[target.name].format(*args)

    def waiting(self, term, held, known):
        """The term's value or a thunk of it: what costs next to nothing is computed at once."""
        if isinstance(term, Variable):
            return held.get(term.name, identifier(term.name))
        if isinstance(term, (Number, Tuple, Function)) or self.is_built(term):
            return self.value(term, held, known)
        if isinstance(term, Call) and isinstance(term.target, Definition) and not term.args:
            return self.definition(term.target)
        body = self.block(term, held, known) if isinstance(term, (Let, Case)) else self.value(term, held, known)
        thunk = f'new Thunk(() => {body})'
        if (used := self.cheap(term)) is None:
            return thunk
        now = f'{self.value(term.value, held, known)}[{term.place}]' if isinstance(term, Project) else body
        tests = [f'ready({held.get(n, identifier(n))})' for n in sorted(used - known)]
        return f'({" && ".join(tests)} ? {now} : {thunk})' if tests else now

    def is_built(self, term):
        """A constructor whose arguments may wait."""
        return isinstance(term, Call) and isinstance(term.target, Constructor) and not any(self.strictness.of(term.target))

    def cheap(self, term):
        """The variables that a cheap term looks at, or None."""
        if isinstance(term, Variable):
            return {term.name}
        if isinstance(term, Number):
            return set()
        if isinstance(term, Project) and isinstance(term.value, Variable):
            return {term.value.name}
        if isinstance(term, Call) and (term.target == SUC or isinstance(term.target, Native) and term.target.cheap):
            used = [self.cheap(a) if not isinstance(a, Project) else None for a in term.args]
            return None if None in used else set().union(*used)
        return None
