#!/usr/bin/env python3
"""Does what asn1x does with the same words, by the library:

    values.py check|show|convert MODULE TYPE FILE --hex [--from ber|cer|der] [--to cer|der]
    values.py each MODULE TYPE FILE --hex [--from ber|cer|der] [--to cer|der|text]

FILE is hexadecimal text. `show` and `each` take the octets in pieces, and write a line for each value as it completes.
The statuses are those of asn1x.
"""

import argparse
import binascii
import sys

import asn1x

PIECE = 50
SINK_FAULT, NO_MEMORY, MODULE_NO_MEMORY = 16, 17, 33


class Parser(argparse.ArgumentParser):
    def error(self, message):
        self.exit(64, f"asn1x: {message}\n")


def arguments():
    parser = Parser(description=__doc__, formatter_class=argparse.RawDescriptionHelpFormatter)
    parser.add_argument("task", choices=["check", "show", "convert", "each"])
    parser.add_argument("module")
    parser.add_argument("type")
    parser.add_argument("file")
    parser.add_argument("--hex", action="store_true", required=True)
    parser.add_argument("--from", dest="source", choices=["ber", "cer", "der"], default="ber")
    parser.add_argument("--to", choices=["cer", "der", "text"], default="der")
    words = parser.parse_args()
    if words.to == "text" and words.task != "each":
        parser.error("text is written by `each` alone")
    return words


def read(path):
    with open(path, "rb") as file:
        return file.read()


def unhex(text):
    """The octets that digits spell, with white space anywhere."""
    return binascii.unhexlify(text.translate(None, b" \t\n\r"))


def run(words):
    rules = {"ber": asn1x.BER, "cer": asn1x.CER, "der": asn1x.DER}
    source, to = rules[words.source], rules.get(words.to)
    ty = asn1x.Type(read(words.module), words.type)
    octets = unhex(read(words.file))
    pieces = (octets[at : at + PIECE] for at in range(0, len(octets), PIECE))
    if words.task == "check":
        print(f"ok {ty.check(octets, source)}")
    elif words.task == "show":
        for value in ty.values(pieces, source):
            print(ty.show(value, source), end="")
    elif words.task == "each" and to is None:
        for text in ty.show_each(pieces, source):
            print(text, end="")
    elif words.task == "each":
        for encoding in ty.convert_each(pieces, source, to):
            write_digits(encoding)
    else:
        write_digits(ty.convert(octets, source, to))


def write_digits(octets):
    if octets:
        print(octets.hex())


def fail(status, why):
    sys.stdout.flush()
    print(f"asn1x: {why}", file=sys.stderr)
    return status


def main():
    try:
        run(arguments())
    except asn1x.ModuleRefused as fault:
        return fail(4 if fault.number == MODULE_NO_MEMORY else 2, fault)
    except asn1x.Refused as refused:
        write_digits(refused.written)
        return fail({NO_MEMORY: 4, SINK_FAULT: 3}.get(refused.number, 1), refused)
    except binascii.Error:
        return fail(1, "not hexadecimal")
    except MemoryError:
        return fail(4, "out of memory")
    except OSError as fault:
        return fail(3, f"cannot read {fault.filename}")
    return 0


sys.exit(main())
