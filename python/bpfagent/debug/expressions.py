"""Expressions of C, as far as a debugger needs them: names, members, elements, pointers, casts, sums and comparisons."""
from __future__ import annotations

import operator
import re
from dataclasses import dataclass
from typing import Callable, Mapping, Optional, Protocol, Sequence

from ..limits import LONGEST, WORD
from .types import ARRAY, INTEGER, POINTER, UNSIGNED, VOID_TYPE, Member, Type, member_bytes, number_of, pointer_to, shown

TOKEN = re.compile(r"\s*(?:(0[xX][0-9a-fA-F]+|[0-9]+)|(\$?[A-Za-z_]\w*)|(->|[=!<>]=|&&|\|\||[-+*/%&.()\[\]<>!]))")
# The digits of the greatest word, in each base.
DIGITS = {10: 20, 16: 16}
COMPARISONS: dict[str, Callable[[int, int], bool]] = {
    "==": operator.eq,
    "!=": operator.ne,
    "<": operator.lt,
    "<=": operator.le,
    ">": operator.gt,
    ">=": operator.ge,
}
# The names of registers, and of what is like one.
REGISTERS = (*(f"$r{number}" for number in range(11)), "$slot", "$pc", "$fuel")
# A name behind one of these is that of a type.
TAGS = ("struct", "union", "enum")
# How deeply brackets and operators of one operand may be nested.
NESTED = 50


class Invalid(Exception):
    """Why an expression has no value."""


@dataclass(frozen=True)
class Value:
    """A value: its type and bytes, and where it is: at an address, or else in no memory. Without bytes, why there are none."""

    type: Type
    content: Optional[bytes] = None
    address: Optional[int] = None
    why: str = ""
    is_part: bool = False

    @property
    def number(self) -> int:
        """The value as a number."""
        return number_of(self.type, self.bytes)

    @property
    def bytes(self) -> bytes:
        """The bytes of the value."""
        if self.content is None:
            raise Invalid(self.why)
        return self.content

    def __str__(self) -> str:
        return f"<{self.why}>" if self.content is None else shown(self.type, self.content)


class Context(Protocol):
    """What names mean in a frame, and its memory."""

    def named(self, name: str) -> Value:
        """The variable or register of this name."""

    def type_named(self, name: str) -> Optional[Type]:
        """The type of this name, as `struct pair` or `uint32_t`."""

    def memory(self, address: int, length: int) -> bytes:
        """Bytes of memory."""


def integer(number: int) -> Value:
    """A number as a value."""
    return Value(INTEGER if number < 1 << 63 else UNSIGNED, (number & WORD).to_bytes(8, "little"))


def literal(token: str) -> Value:
    """The value of a number as it is written."""
    digits, base = (token[2:], 16) if token[:2].lower() == "0x" else (token, 10)
    digits = digits.lstrip("0") or "0"
    if len(digits) > DIGITS[base] or int(digits, base) > WORD:
        raise Invalid(f"{token[:40]} has more than 64 bits")
    return integer(int(digits, base))


# The types of variables by their names; None where variables of one name have several.
Names = Mapping[str, Optional[Type]]
# What stands for a value of an unknown type while an expression is only parsed.
NOTHING = Value(VOID_TYPE, why="it isn't computed")


def unvalued(type_: Optional[Type]) -> Value:
    """What stands for a value of this type."""
    return Value(type_, why=NOTHING.why) if type_ else NOTHING


class Unvalued:
    """The context of an expression that is only parsed: it has types and names, and no values."""

    def __init__(self, types: Mapping[str, Type], names: Names) -> None:
        self._types, self._names = types, names

    def named(self, name: str) -> Value:
        """The name of something that is there, though its value isn't."""
        if name.startswith("$") and name.lower() in REGISTERS:
            return unvalued(UNSIGNED)
        if name.startswith("$") or name not in self._names:
            raise Invalid(f"nothing is called {name} there")
        return unvalued(self._names[name])

    def type_named(self, name: str) -> Optional[Type]:
        """The type of this name."""
        return self._types.get(name)

    def memory(self, address: int, length: int) -> bytes:
        """There is no memory."""
        raise Invalid(NOTHING.why)


class Parser:
    """Evaluates one expression in a context, or only parses it."""

    def __init__(self, text: str, context: Context, is_evaluated: bool = True) -> None:
        self._context, self._is_evaluated = context, is_evaluated
        self._tokens, at = [], 0
        text = text.strip()
        while at < len(text):
            found = TOKEN.match(text, at)
            if not found:
                raise Invalid(f"`{text[at:].strip()}` is no expression")
            self._tokens.append(found[0].strip())
            at = found.end()
        self._at = self._depth = 0

    def value(self) -> Value:
        """The value of the whole expression."""
        if not self._tokens:
            raise Invalid("there is no expression")
        found = self._either()
        if self._at < len(self._tokens):
            raise Invalid(f"`{self._tokens[self._at]}` isn't expected there")
        return found

    def _made(self, make: Callable[..., Value], *parts: object) -> Value:
        """What an operation makes of its operands, which are parsed; a value of its type alone if nothing is evaluated."""
        return make(*parts) if self._is_evaluated else self._typed(make, parts)

    def _typed(self, make: Callable[..., Value], parts: Sequence[object]) -> Value:
        """The same as far as the types of its operands are known."""
        first = parts[0]
        if make is converted and isinstance(parts[1], Type):
            return unvalued(parts[1])
        if first is NOTHING or not isinstance(first, Value):
            return NOTHING if first is NOTHING else unvalued(INTEGER)
        if make == self._pointed:
            return unvalued(target_of(first))
        if make == self._member:
            return unvalued(member_of(record_of(first, str(parts[1])), str(parts[2])).type)
        if make is pointer_at:
            return unvalued(pointer_to(first.type))
        bare = first.type.bare
        return unvalued(pointer_to(bare.target) if make is added and bare.kind in (POINTER, ARRAY) and bare.target else INTEGER)

    def _either(self) -> Value:
        return self._joined("||", self._both, either)

    def _both(self) -> Value:
        return self._joined("&&", self._comparison, both)

    def _joined(self, sign: str, operand: Callable[[], Value], join: Callable[[Value, Value], Value]) -> Value:
        found = operand()
        while self._takes(sign):
            found = self._made(join, found, operand())
        return found

    def _comparison(self) -> Value:
        found = self._sum()
        while self._next() in COMPARISONS:
            found = self._made(comparison, self._take(), found, self._sum())
        return found

    def _next(self) -> str:
        return self._tokens[self._at] if self._at < len(self._tokens) else ""

    def _take(self) -> str:
        found = self._next()
        self._at += 1
        return found

    def _takes(self, token: str) -> bool:
        if self._next() == token:
            self._at += 1
            return True
        return False

    def _expect(self, token: str) -> None:
        if not self._takes(token):
            raise Invalid(f"`{token}` is missing")

    def _sum(self) -> Value:
        found = self._product()
        while self._next() in ("+", "-"):
            sign = -1 if self._take() == "-" else 1
            found = self._made(added, found, self._product(), sign)
        return found

    def _product(self) -> Value:
        found = self._unary()
        while self._next() in ("*", "/", "%"):
            found = self._made(product, self._take(), found, self._unary())
        return found

    def _unary(self) -> Value:
        self._depth += 1
        if self._depth > NESTED:
            raise Invalid("the expression is nested too deeply")
        found = self._operand()
        self._depth -= 1
        return found

    def _operand(self) -> Value:
        if self._takes("*"):
            return self._made(self._pointed, self._unary())
        if self._takes("&"):
            return self._made(pointer_at, self._unary())
        if self._takes("!"):
            return self._made(lambda value: integer(int(not value.number)), self._unary())
        if self._takes("-"):
            return self._made(lambda value: integer(-value.number), self._unary())
        if self._next() == "(" and (cast := self._cast()):
            return self._made(converted, self._unary(), cast)
        return self._postfix()

    def _cast(self) -> Optional[Type]:
        """The type in brackets, if what comes next is one."""
        at = self._at
        self._take()
        words = []
        while re.match(r"[A-Za-z_]", self._next()):
            words.append(self._take())
        name, stars = " ".join(words), 0
        found = VOID_TYPE if name == "void" else self._context.type_named(name) if words else None
        while self._takes("*"):
            stars += 1
        is_closed = self._takes(")")
        if words and (len(words) > 1 or name in TAGS or (stars and is_closed)):
            # no value can be written like this
            if found is None:
                raise Invalid(f"the program has no type {name}")
            if not is_closed:
                raise Invalid("`)` is missing")
        if not found or not is_closed:
            self._at = at
            return None
        for _ in range(stars):
            found = pointer_to(found)
        return found

    def _postfix(self) -> Value:
        found = self._primary()
        while self._next() in (".", "->", "["):
            token = self._take()
            if token == "[":
                place = self._made(added, found, self._sum(), 1)
                self._expect("]")
                found = self._made(self._pointed, place)
            else:
                found = self._made(self._member, found, token, self._member_name())
        return found

    def _member_name(self) -> str:
        if not re.match(r"[A-Za-z_]", self._next()):
            raise Invalid("the name of a member is missing")
        return self._take()

    def _primary(self) -> Value:
        token = self._take()
        if token == "(":
            found = self._either()
            self._expect(")")
            return found
        if token[:1].isdecimal():
            return literal(token)
        if re.match(r"[$A-Za-z_]", token):
            return self._context.named(token)
        raise Invalid(f"`{token}` isn't expected there" if token else "the expression ends too early")

    def _pointed(self, pointer: Value) -> Value:
        """What a pointer points to."""
        type_, address = target_of(pointer), address_of(pointer)
        return Value(type_, self._context.memory(address, type_.size), address)

    def _member(self, value: Value, sign: str, name: str) -> Value:
        if record_of(value, sign) is not value.type:
            value = self._pointed(value)
        member = member_of(value.type, name)
        address = None if value.address is None else value.address + member.offset
        return Value(member.type, member_bytes(member, value.bytes), address, is_part=bool(member.bits))


def target_of(pointer: Value) -> Type:
    """The type of what a pointer points to."""
    bare = pointer.type.bare
    if bare.kind not in (POINTER, ARRAY) or not bare.target:
        raise Invalid(f"this is no pointer, but {pointer.type}: cast it, as in *(uint64_t *)")
    # no object has more bytes
    if not 0 < bare.target.size <= LONGEST:
        raise Invalid(f"{bare.target} has no size")
    return bare.target


def record_of(value: Value, sign: str) -> Type:
    """The struct or union that has the member behind a sign: that of the value, or of what it points to."""
    return target_of(value) if sign == "->" or value.type.bare.kind == POINTER else value.type


def member_of(record: Type, name: str) -> Member:
    """The member of a struct or union."""
    if not record.is_record:
        raise Invalid(f"{record} has no members")
    member = record.member(name)
    if not member:
        raise Invalid(f"{record} has no member {name}; it has {', '.join(member.name for member in record.bare.members if member.name)}")
    return member


def pointer_at(value: Value) -> Value:
    """The pointer to a value."""
    if value.address is None:
        raise Invalid("this value is in no memory, so it has no address")
    return Value(pointer_to(value.type), value.address.to_bytes(8, "little"))


def converted(value: Value, to: Type) -> Value:
    """A value cast to a type."""
    if to.is_record or to.bare.kind == ARRAY or not to.size:
        raise Invalid(f"a cast to {to} isn't possible: cast a pointer")
    return Value(to, (address_of(value) & ((1 << 8 * to.size) - 1)).to_bytes(to.size, "little"))


def either(first: Value, second: Value) -> Value:
    """Whether one of two values isn't 0."""
    return integer(int(bool(first.number or second.number)))


def both(first: Value, second: Value) -> Value:
    """Whether neither of two values is 0."""
    return integer(int(bool(first.number and second.number)))


def comparison(sign: str, first: Value, second: Value) -> Value:
    """Whether a comparison holds."""
    return integer(int(COMPARISONS[sign](*compared(first, second))))


def product(sign: str, first: Value, second: Value) -> Value:
    """A product, a quotient, or what a division leaves."""
    if sign == "*":
        return integer(first.number * second.number)
    whole = quotient(first.number, second.number)
    return integer(whole if sign == "/" else first.number - second.number * whole)


def address_of(value: Value) -> int:
    """The number of a pointer, or the address of an array's first element."""
    if value.type.bare.kind == ARRAY:
        if value.address is None:
            raise Invalid("this array is in no memory")
        return value.address
    return value.number


def compared(first: Value, second: Value) -> tuple[int, int]:
    """The numbers that C compares: a negative one is converted if the other is unsigned and has 64 bits."""
    numbers = first.number, second.number
    if any(value.type.size == 8 and not value.type.is_signed for value in (first, second)):
        return numbers[0] & WORD, numbers[1] & WORD
    return numbers


def quotient(first: int, second: int) -> int:
    """The whole part of a quotient, which C rounds towards 0."""
    if second == 0:
        raise Invalid("division by zero")
    whole = abs(first) // abs(second)
    return whole if (first < 0) == (second < 0) else -whole


def added(first: Value, second: Value, sign: int) -> Value:
    """A sum or a difference; an element's size is counted if the first is a pointer."""
    bare = first.type.bare
    if bare.kind in (POINTER, ARRAY) and bare.target:
        moved = address_of(first) + sign * second.number * max(bare.target.size, 1)
        return Value(pointer_to(bare.target), (moved & WORD).to_bytes(8, "little"))
    if bare.is_record or second.type.is_record:
        raise Invalid(f"{first.type} and {second.type} can't be added")
    return integer(first.number + sign * second.number)


def evaluate(text: str, context: Context) -> Value:
    """The value of an expression in a context."""
    return Parser(text, context).value()


def parse(text: str, types: Mapping[str, Type], names: Names) -> None:
    """Raises `Invalid` if an expression can't have a value: it can't be parsed, names what isn't there, or asks a type for what it hasn't."""
    Parser(text, Unvalued(types, names), is_evaluated=False).value()
