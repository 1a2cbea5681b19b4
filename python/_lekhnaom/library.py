"""The archive's functions, from the shared object that `bash python/build` makes.

`library` has each function by the name and with the parameters of include/slash.h, which says what each does.
A call that is refused raises Stop. `number` tells the header's numbers.
"""

import ctypes
import operator
from ctypes import POINTER, byref, c_char_p, c_size_t, c_uint32, c_uint64
from functools import lru_cache
from pathlib import Path

from .stops import Stop

SHARED_OBJECT = "liblekhnaom.so"


def numbers_struct(name, fields):
    """A struct of the header, all of whose fields are 64 bits wide."""
    return type(name, (ctypes.Structure,), {"_fields_": [(field, c_uint64) for field in fields.split()]})


Value = numbers_struct("Value", "sign value_class numerator denominator mark")
NightState = numbers_struct("NightState", "rate breath inspiration whole")
Piece = numbers_struct("Piece", "used length ended")

# The parameters' types. Bytes are lent by their own memory, read or written; so are ctypes' arrays of numbers.
NUMBER, TICK, BYTES = c_uint64, c_uint32, c_char_p
STORED = POINTER(c_uint64)
NUMBERS = (POINTER(c_uint64), c_size_t)
QUOTIENTS = (POINTER(c_uint32), c_size_t)
TEXT = (c_char_p, c_size_t)
FORMAT = (NUMBER, NUMBER)

PARAMETERS = {
    "slash_width": (*FORMAT, STORED),
    "slash_largest": (*FORMAT, STORED),
    "slash_check": (*FORMAT, NUMBER),
    "slash_read": (*FORMAT, NUMBER, POINTER(Value)),
    "slash_write": (*FORMAT, POINTER(Value), STORED),
    "slash_round": (*FORMAT, NUMBER, NUMBER, STORED),
    "slash_binary": (*FORMAT, NUMBER, NUMBER, NUMBER, STORED),
    "slash_unary": (*FORMAT, NUMBER, NUMBER, STORED),
    "slash_compare": (*FORMAT, NUMBER, NUMBER, STORED),
    "slash_gcd": (*FORMAT, NUMBER, STORED),
    "slash_convert": (*FORMAT, *FORMAT, NUMBER, STORED),
    "slash_quotients": (*FORMAT, NUMBER, *QUOTIENTS, STORED),
    "slash_quotient_count": (*FORMAT, NUMBER, STORED),
    "slash_twist": (*FORMAT, NUMBER, STORED),
    "slash_untwist": (*FORMAT, NUMBER, STORED),
    "slash_binary_each": (*FORMAT, NUMBER, *NUMBERS, *NUMBERS, *NUMBERS),
    "slash_unary_each": (*FORMAT, NUMBER, *NUMBERS, *NUMBERS),
    "slash_convert_each": (*FORMAT, *FORMAT, *NUMBERS, *NUMBERS),
    "slash_twist_each": (*FORMAT, *NUMBERS, *NUMBERS),
    "slash_untwist_each": (*FORMAT, *NUMBERS, *NUMBERS),
    "slash_breath": (NUMBER, TICK, TICK, TICK, STORED),
    "slash_night": (*TEXT, BYTES, STORED),
    "slash_night_piece": (POINTER(NightState), *TEXT, NUMBER, *TEXT, POINTER(Piece)),
    "slash_load": (*TEXT, *NUMBERS, *NUMBERS, STORED, STORED),
    "slash_timings": (*TEXT, *NUMBERS),
}


def shared_object():
    """Where the shared object is: beside these files, if a copy was put there, or where it is built."""
    here = Path(__file__).resolve().parent
    for folder in (here, here.parents[1] / "target" / "python"):
        if (folder / SHARED_OBJECT).is_file():
            return folder / SHARED_OBJECT
    raise ImportError(f"{SHARED_OBJECT} is not built: run `bash python/build` in the repository")


def loaded():
    """The shared object, with the types of its functions."""
    opened = ctypes.CDLL(str(shared_object()))
    for name in ("lekhnaom_stop_number", "lekhnaom_stop_place"):
        typed(opened, name, c_uint64, [c_uint64])
    typed(opened, "lekhnaom_stop_text", c_char_p, [c_uint64])
    for name, parameters in PARAMETERS.items():
        typed(opened, name, c_uint64, parameters).errcheck = raise_stop
    return opened


def typed(opened, name, result, parameters):
    """A function of the shared object, with its types."""
    function = getattr(opened, name)
    function.restype, function.argtypes = result, parameters
    return function


def raise_stop(returned, _function, _arguments):
    """Raises what a call returned, unless that is 0."""
    if returned != 0:
        raise stop_of(returned)


def stop_of(returned):
    """The stop that a call returned, with its text."""
    text = library.lekhnaom_stop_text(returned).decode("ascii")
    return Stop(library.lekhnaom_stop_number(returned), library.lekhnaom_stop_place(returned), text)


def made_stop(name):
    """The header's stop SLASH_name, of place 0, for what is refused before it reaches the archive."""
    return stop_of(number(name))


@lru_cache(maxsize=None)
def number(name):
    """The header's SLASH_name; shared.c has a list of those that there are."""
    return c_uint64.in_dll(library, "lekhnaom_" + name).value


def stored(function, *arguments):
    """The number that a call stores behind its last pointer."""
    result = c_uint64()
    function(*arguments, byref(result))
    return result.value


def unsigned(value, bits=64):
    """The value, where it is a whole number of so many bits: ctypes would cut others to size and say nothing."""
    value = operator.index(value)
    if not 0 <= value < 1 << bits:
        raise OverflowError(f"{value} is not a number from 0 to 2^{bits} - 1")
    return value


library = loaded()

VERSION = ctypes.c_char_p(ctypes.addressof(ctypes.c_char.in_dll(library, "lekhnaom_version"))).value.decode("ascii")
