"""The definitions of the repository as JavaScript."""
from .javascript import Writer
from .modules import Repository
from .resolve import Resolver
from .strictness import Strictness
from .tokens import Trouble


def needed(wanted):
    """The definitions and all that they call, each resolved."""
    found = {}
    waiting = list(wanted)
    while waiting:
        definition = waiting.pop()
        if definition not in found:
            found[definition] = resolved(definition)
            waiting += found[definition].called
    return found


def resolved(definition):
    try:
        return Resolver(definition)
    except Trouble as trouble:
        raise Trouble(f'{definition.name}: {trouble}') from None


def translation(root, path, names):
    """A script that gives the functions `names` of the module `path`, with all that they need."""
    module = Repository(root).module(path)
    wanted = {name: module.meaning(name) for name in names}
    bodies = {d: (r.names, r.body) for d, r in needed(wanted.values()).items()}
    writer = Writer(Strictness(bodies))
    functions = [writer.write(definition, *body) for definition, body in bodies.items()]
    given = ', '.join(f'{name!r}: {writer.definition(d)}' for name, d in wanted.items())
    return '\n'.join([
        "'use strict';",
        'module.exports = library => {',
        f'const {{ {", ".join(writer.taken())} }} = library;',
        *writer.classes(),
        *functions,
        f'return {{ {given} }};',
        '};'])
