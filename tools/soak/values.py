"""What operators make of values. An int is a Python int, a bool a Python bool, a channel an object or None, a struct a dict."""

LEAST, MOST = -(1 << 63), (1 << 63) - 1


class Panic(Exception):
    """The number of the cause."""


def wrapped(number):
    """What 64 bits keep of a number, in two's complement."""
    return (number - LEAST) % (1 << 64) + LEAST


def quotient(left, right):
    """Truncated toward zero."""
    size = abs(left) // abs(right)
    return size if (left < 0) == (right < 0) else -size


def of_constants(sign, left, right):
    """The exact number that an operator makes of two constants, or None where it compares."""
    if sign == "/":
        return quotient(left, right)
    if sign == "%":
        return left - right * quotient(left, right)
    if sign == "<<":
        return left << right
    return exact(sign, left, right)


def exact(sign, left, right):
    """Operators that are the same for constants of any size and for ints, but for what 64 bits keep."""
    if sign == "+":
        return left + right
    if sign == "-":
        return left - right
    if sign == "*":
        return left * right
    if sign == "&":
        return left & right
    if sign == "|":
        return left | right
    if sign == "^":
        return left ^ right
    if sign == "&^":
        return left & ~right
    if sign == ">>":
        return left >> right
    return None


def of_ints(sign, left, right):
    """The int that an operator makes of two ints."""
    if sign in ("/", "%") and right == 0:
        raise Panic(1)
    if sign in ("<<", ">>"):
        if right < 0:
            raise Panic(5)
        # from 64 on nothing is left but the sign
        right = min(right, 64)
    return wrapped(of_constants(sign, left, right))


def compared(sign, left, right):
    """Two ints, two bools, or two channels, of which each is equal to itself alone, and nil to nil."""
    if sign == "==":
        return left is right if is_channel(left) or is_channel(right) else left == right
    if sign == "!=":
        return not compared("==", left, right)
    return {"<": left < right, "<=": left <= right, ">": left > right, ">=": left >= right}[sign]


def is_channel(value):
    return not isinstance(value, (int, dict))


def shown(value):
    """The bytes that are printed of an int or a bool."""
    if isinstance(value, bool):
        return b"true" if value else b"false"
    return str(value).encode()


def with_field(value, path, item):
    """A value with another one in the field of a field .. of it."""
    if not path:
        return item
    return {**value, path[0]: with_field(value[path[0]], path[1:], item)}
