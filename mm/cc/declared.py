"""Names that files declare: what is said of one that another file defines otherwise, and of one that no file defines."""

from __future__ import annotations

from difflib import get_close_matches
from typing import Iterable, Optional, Union

from mm.cc.ir import VOID, ArrayType, Function, GlobalObject, IntType, Layouts, StructType, Type

Declared = Union[Function, GlobalObject]
# How near a name must be to one that nothing defines, to be what may have been meant.
NEAR = 0.8
# How C calls integers, by their bits.
WIDTHS = {1: "bool", 8: "char", 16: "short", 32: "int", 64: "long", 128: "__int128"}
IN_A_HEADER = "put its declaration into a header, and include that in both files"


def warning(place: str, begins: str, said: tuple[str, str]) -> str:
    """What is said of a name that is declared at one place otherwise than it is defined at another."""
    return f"{place}: warning: `{said[0]}` is used here, and {begins} defines `{said[1]}`\n    {IN_A_HEADER}"


def contradiction(name: str, one: tuple[Declared, Layouts], other: tuple[Declared, Layouts]) -> Optional[tuple[str, str]]:
    """How a name is declared and how it is defined, in words of C, if these contradict each other."""
    (here, layouts), (there, further) = one, other
    if isinstance(here, Function) and isinstance(there, Function):
        own, defined = _signature(here), _signature(there)
        return (own, defined) if own != defined and not (here.variadic and not here.parameters) else None
    if isinstance(here, GlobalObject) and isinstance(there, GlobalObject) and _contradict((here.type, layouts), (there.type, further)):
        return f"{_in_c(here.type)} {name}", f"{_in_c(there.type)} {name}"
    return None


def elsewhere(name: str, public: Iterable[str], files: list[str]) -> str:
    """What can be done for a name that may be a typing error, or that a file beside these may define."""
    near = get_close_matches(name, [known for known in public if not known.startswith("_")], 1, NEAR)
    said = [f"do you mean `{near[0]}`?"] if near else []
    if files:
        said.append(f"if another file defines `{name}`, name that too: `mm cc {' '.join(files)} FILE.c > SOURCE.asm`")
    return " Or ".join(said)


def _signature(function: Function) -> str:
    """A function's parameters and its result, in words of C."""
    given = [_in_c(parameter.type) for parameter in function.parameters] + ["..."] * function.variadic
    return f"{_in_c(function.result)} {function.name}({', '.join(given)})"


def _in_c(type_: Type) -> str:
    counts = ""
    while isinstance(type_, ArrayType):
        counts += f"[{type_.count or ''}]"
        type_ = type_.element
    return (WIDTHS.get(type_.bits, str(type_)) if isinstance(type_, IntType) else str(type_)) + counts


def _contradict(one: tuple[Type, Layouts], other: tuple[Type, Layouts]) -> bool:
    """Whether a global cannot be declared with one type and defined with the other. An array may be declared without its
    length, a structure without what is in it; of one with an initial value the fields are others, or it is longer."""
    (first, layouts), (second, further) = one, other
    first, second = layouts.plain(first), further.plain(second)
    if isinstance(first, ArrayType) and isinstance(second, ArrayType):
        longer = first.count and second.count and first.count != second.count
        return bool(longer) or _contradict((first.element, layouts), (second.element, further))
    if isinstance(first, StructType) and isinstance(second, StructType):
        return layouts.size(first) > further.size(second)
    return VOID not in (first, second) and first != second
