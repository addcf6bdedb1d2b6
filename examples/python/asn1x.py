"""Reads values in BER, CER or DER by the types of an ASN.1 module, over the shared library `libasn1x.so`.

    ty = asn1x.Type(module, "Certificate")
    der = ty.convert(octets)
    for text in ty.show_each(pieces):
        print(text, end="")

The library is looked for where the environment's ASN1X_LIBRARY says, else where the system's loader does. A Type
stays in the thread that made it.
"""

import ctypes
import os

BER, CER, DER = 0, 1, 2
TRUNCATED = 1


class _Held(ctypes.Structure):
    _fields_ = [("full", ctypes.c_bool), ("kept", ctypes.c_void_p)]


class _Fault(ctypes.Structure):
    _fields_ = [("number", ctypes.c_uint32), ("line", ctypes.c_uint32), ("column", ctypes.c_uint32)]


class _Done(ctypes.Structure):
    _fields_ = [("refusal", ctypes.c_uint32), ("values", ctypes.c_uint64), ("octets", ctypes.c_size_t)]


class _One(ctypes.Structure):
    _fields_ = [("refusal", ctypes.c_uint32), ("used", ctypes.c_size_t), ("octets", ctypes.c_size_t)]


def _call(name, result, *arguments):
    call = getattr(_library, name)
    call.restype = result
    call.argtypes = arguments
    return call


_library = ctypes.CDLL(os.environ.get("ASN1X_LIBRARY", "libasn1x.so.0"))
_held, _rule = ctypes.POINTER(_Held), ctypes.c_uint32
_octets = [ctypes.c_char_p, ctypes.c_size_t]
_type_from = _call("asn1x_type_from", _Fault, _held, *_octets, *_octets)
_type_free = _call("asn1x_type_free", None, _held)
_convert = _call("asn1x_convert", _Done, _held, _rule, _rule, *_octets, *_octets)
_show = _call("asn1x_show", _Done, _held, _rule, *_octets, *_octets)
_check = _call("asn1x_check", _Done, _held, _rule, *_octets)
_first = _call("asn1x_first", _Done, _held, _rule, *_octets)
_convert_first = _call("asn1x_convert_first", _One, _held, _rule, _rule, *_octets, *_octets)
_show_first = _call("asn1x_show_first", _One, _held, _rule, *_octets, *_octets)
_name = _call("asn1x_name", ctypes.c_size_t, ctypes.c_uint32, *_octets)


class ModuleRefused(Exception):
    """A module gives no type: `number`, `line` and `column` say why and where."""

    def __init__(self, fault):
        self.number, self.line, self.column = fault.number, fault.line, fault.column
        super().__init__(f"module refused {self.number} {name(self.number)} at {self.line}:{self.column}")


class Refused(Exception):
    """A call stopped: `number` says why, `values` after how many values, and `written` is what there is of those."""

    def __init__(self, number, values, written=b""):
        self.number, self.values, self.written = number, values, written
        super().__init__(f"refused {number} {name(number)} after {values} values")


def name(number):
    """The name of a refusal or of a fault of a module."""
    out = ctypes.create_string_buffer(16)
    length = _name(number, out, len(out))
    return out.raw[:length].decode()


def _counted(done, written=b""):
    if done.refusal:
        raise Refused(done.refusal, done.values, written)
    return done


def _with_room(call):
    """A call and what it writes. One that has too little room says how much it takes, and is made again."""
    out = ctypes.create_string_buffer(256)
    done = call(out, len(out))
    if done.octets > len(out):
        out = ctypes.create_string_buffer(done.octets)
        done = call(out, len(out))
    return done, out.raw[: done.octets]


def _written(call):
    done, written = _with_room(call)
    _counted(done, written)
    return written


def _one_by_one(pieces, first):
    """What `first` gives for each value in pieces of octets, with a value that is cut kept for the next piece."""
    rest, count = bytearray(), 0
    for piece in pieces:
        rest += piece
        at = 0
        while at < len(rest):
            refusal, used, written = first(ctypes.byref(ctypes.c_char.from_buffer(rest, at)), len(rest) - at)
            if refusal == TRUNCATED:
                break
            if refusal:
                raise Refused(refusal, count)
            yield rest[at : at + used] if written is None else written
            at, count = at + used, count + 1
        del rest[:at]
    if rest:
        raise Refused(TRUNCATED, count)


def _one(call):
    one, written = _with_room(call)
    return one.refusal, one.used, written


class Type:
    """The type that a module's text, as bytes, means by a name."""

    def __init__(self, module, name):
        self._held = _Held()
        name = name.encode()
        fault = _type_from(self._held, module, len(module), name, len(name))
        if fault.number:
            raise ModuleRefused(fault)

    def __del__(self):
        _type_free(self._held)

    def convert(self, octets, source=BER, to=DER):
        """The encodings of all values of the octets by the rule `to`."""
        return _written(lambda *out: _convert(self._held, source, to, octets, len(octets), *out))

    def show(self, octets, source=BER):
        """A line of text for each value."""
        return _written(lambda *out: _show(self._held, source, octets, len(octets), *out)).decode()

    def check(self, octets, source=BER):
        """How many values there are."""
        return _counted(_check(self._held, source, octets, len(octets))).values

    def first(self, octets, source=BER):
        """How many octets the first value has."""
        return _counted(_first(self._held, source, octets, len(octets))).octets

    def values(self, pieces, source=BER):
        """The encoding of each value in pieces of octets, as it stands there, as the value completes."""

        def first(*octets):
            done = _first(self._held, source, *octets)
            return done.refusal, done.octets, None

        return map(bytes, _one_by_one(pieces, first))

    def convert_each(self, pieces, source=BER, to=DER):
        """The encoding of each value by the rule `to`, likewise."""
        return _one_by_one(
            pieces, lambda *octets: _one(lambda *out: _convert_first(self._held, source, to, *octets, *out))
        )

    def show_each(self, pieces, source=BER):
        """A line of text for each value, likewise."""
        texts = _one_by_one(pieces, lambda *octets: _one(lambda *out: _show_first(self._held, source, *octets, *out)))
        return map(bytes.decode, texts)
