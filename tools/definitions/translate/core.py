"""The terms that are translated: names resolved, each variable with a name of its own, every call with all its arguments."""
from dataclasses import dataclass, field


@dataclass(frozen=True)
class Constructor:
    name: str
    data: object
    index: int
    arity: int


@dataclass(eq=False)
class Data:
    """A data type; `kind` says how its values are held: declared, nat, bool or list."""
    name: str
    kind: str = 'declared'
    constructors: list = field(default_factory=list)

    def add(self, name, arity):
        made = Constructor(name, self, len(self.constructors), arity)
        self.constructors.append(made)
        return made


@dataclass(frozen=True)
class Variable:
    name: str


@dataclass(frozen=True)
class Number:
    value: int


@dataclass(frozen=True)
class Call:
    """A function of the text, a native one or a constructor, with as many arguments as it takes."""
    target: object
    args: tuple


@dataclass(frozen=True)
class Apply:
    """A function that is a value."""
    function: object
    args: tuple


@dataclass(frozen=True)
class Function:
    names: tuple
    body: object


@dataclass(frozen=True)
class Let:
    name: str
    value: object
    body: object


@dataclass(frozen=True)
class Case:
    name: str
    branches: tuple  # (constructor, names of its fields, term)


@dataclass(frozen=True)
class Tuple:
    items: tuple


@dataclass(frozen=True)
class Project:
    value: object
    place: int
