"""Records: what `dataclass` of the standard library makes of a class, made some ten times as quickly. A start of `mm` makes
forty of them, and most of its time went there."""

from __future__ import annotations

import sys
from operator import attrgetter
from typing import TYPE_CHECKING

if TYPE_CHECKING:
    from dataclasses import dataclass as dataclass
    from dataclasses import field as field
    from dataclasses import replace as replace
else:
    NOTHING = object()
    FIELDS = "__record_fields__"

    class Field:
        """What a class says of one of its fields: a default, or what makes one; and whether it counts when records are compared."""

        def __init__(self, default, default_factory, compare):
            self.default, self.make, self.compare = default, default_factory, compare

    def field(*, default=NOTHING, default_factory=None, compare=True):
        return Field(default, default_factory, compare)

    def dataclass(cls=None, *, frozen=False):
        """Makes a class a record of the fields that it annotates. It may be used with and without parentheses."""
        return (lambda named: _record(named, frozen)) if cls is None else _record(cls, frozen)

    def replace(record, **changes):
        """A record with other values in some fields; also one that the standard library has made."""
        fields = getattr(record, FIELDS, None) or record.__dataclass_fields__
        return type(record)(**{**{name: getattr(record, name) for name in fields}, **changes})

    def _record(cls, frozen):
        fields = dict(getattr(cls, FIELDS, {}))
        own = cls.__dict__.get("__annotations__") or (cls.__annotations__ if sys.version_info >= (3, 14) else {})
        for name in own:
            said = cls.__dict__.get(name, NOTHING)
            fields[name] = said if isinstance(said, Field) else Field(said, None, True)
            if said is fields[name] and said.default is not NOTHING:
                setattr(cls, name, said.default)
            elif said is fields[name]:
                delattr(cls, name)
        setattr(cls, FIELDS, fields)

        def begin(self, *given, **named):
            """Is there up to the first record of the class: the function for its fields is made only then."""
            cls.__init__ = _beginning(fields, frozen)
            cls.__init__(self, *given, **named)

        for name, made in {"__init__": begin, **_shared(fields, frozen)}.items():
            if name not in cls.__dict__:
                setattr(cls, name, made)
        return cls

    def _beginning(fields, frozen):
        """The function that fills a new record, as it would be written by hand."""
        names, head, body = {"_nothing": NOTHING, "_set": object.__setattr__}, ["self"], []
        for name, each in fields.items():
            names[f"_{name}"] = each.make or each.default
            default = "" if each.make is None and each.default is NOTHING else f" = {'_nothing' if each.make else f'_{name}'}"
            head.append(f"{name}{default}")
            value = f"_{name}() if {name} is _nothing else {name}" if each.make else name
            body.append(f" _set(self, {name!r}, {value})" if frozen else f" self.{name} = {value}")
        exec("\n".join([f"def __init__({', '.join(head)}):", *(body or [" pass"])]), names)
        return names["__init__"]

    def _shared(fields, frozen):
        """What all records do: they are compared and written by their fields, and those that are frozen do not change."""
        compared = [name for name, each in fields.items() if each.compare]
        key = attrgetter(*compared) if compared else lambda record: ()

        def equal(self, other):
            return key(self) == key(other) if other.__class__ is self.__class__ else NotImplemented

        def written(self):
            return f"{type(self).__qualname__}({', '.join(f'{name}={getattr(self, name)!r}' for name in fields)})"

        def refuse(self, name, *value):
            raise AttributeError(f"a {type(self).__qualname__} does not change, nor its field {name}")

        shared = {"__eq__": equal, "__repr__": written, "__hash__": None}
        if frozen:
            shared |= {"__hash__": lambda self: hash(key(self)), "__setattr__": refuse, "__delattr__": refuse}
        return shared
