#!/usr/bin/env python3
"""Prints what `asn1x show` prints of values in DER, by the words of docs/PROFILE.md ("the text of a value") alone.

    examples/text.py MODULE.asn TYPE <FILE.hex

Standard input has the DER encoding of a value on each line, as hexadecimal text. The module is one that asn1x takes,
under EXPLICIT or IMPLICIT TAGS; that the encodings are DER is not judged. The code is written for this alone: it shares
nothing with asn1x.
"""

import re
import sys

UNIVERSAL = {
    'BOOLEAN': 1, 'INTEGER': 2, 'BIT STRING': 3, 'OCTET STRING': 4, 'NULL': 5, 'OBJECT IDENTIFIER': 6, 'ENUMERATED': 10,
    'UTF8String': 12, 'RELATIVE-OID': 13, 'SEQUENCE': 16, 'SET': 17, 'NumericString': 18, 'PrintableString': 19,
    'IA5String': 22, 'UTCTime': 23, 'GeneralizedTime': 24, 'VisibleString': 26, 'BMPString': 30,
}
CLASSES = {'APPLICATION': 1, 'PRIVATE': 3}


class Module:
    """The assignments of a module, each a tuple that begins with what kind of type it is."""

    def __init__(self, text):
        text = re.sub(r'/\*.*?\*/', ' ', text, flags=re.S)
        text = re.sub(r'--.*?(--|$)', ' ', text, flags=re.M)
        self.tokens = re.findall(r'::=|"[^"]*"|\'[0-9A-F]*\'[BH]|[A-Za-z][A-Za-z0-9-]*|[0-9]+|[^\s]', text)
        self.types = {}
        assert self.tokens[1] == 'DEFINITIONS' and self.tokens[2] in ('IMPLICIT', 'EXPLICIT', '::=')
        self.is_implicit = self.tokens[2] == 'IMPLICIT'
        self.tokens = self.tokens[self.tokens.index('BEGIN') + 1:]
        while self.tokens != ['END']:
            name = self.take()
            self.take('::=')
            self.types[name] = self.type()

    def take(self, *wanted):
        """Takes the next token, which must be one of these where any are given."""
        token = self.tokens.pop(0)
        assert not wanted or token in wanted, (token, wanted)
        return token

    def comes(self, token):
        """Takes the next token if it is this one, and says so."""
        if self.tokens[0] != token:
            return False
        self.take()
        return True

    def listed(self, item):
        """What stands between braces, with commas."""
        self.take('{')
        found = []
        while not self.comes('}'):
            found.append(item())
            if self.tokens[0] != '}':
                self.take(',')
        return found

    def type(self):
        word = self.take()
        if word == '[':
            return self.tagged()
        if word in ('SEQUENCE', 'SET'):
            if self.comes('OF'):
                return ('OF', word, self.type())
            return ('LIST', word, self.listed(self.component))
        if word == 'CHOICE':
            return ('CHOICE', self.listed(lambda: (self.take(), self.type())))
        if word == 'ENUMERATED':
            return ('ENUMERATED', numbered(self.listed(self.item)))
        if word in ('BIT', 'OCTET', 'OBJECT'):
            word = f'{word} {self.take()}'
        if word == 'BIT STRING' and self.tokens[0] == '{':
            self.listed(self.item)
        return ('SIMPLE', word) if word in UNIVERSAL else ('NAME', word)

    def tagged(self):
        class_ = CLASSES[self.take()] if self.tokens[0] in CLASSES else 2
        number = int(self.take())
        self.take(']')
        is_implicit = self.is_implicit
        if self.tokens[0] in ('IMPLICIT', 'EXPLICIT'):
            is_implicit = self.take() == 'IMPLICIT'
        return ('TAGGED', (class_, number), is_implicit, self.type())

    def component(self):
        name, type_ = self.take(), self.type()
        if not self.comes('OPTIONAL') and self.comes('DEFAULT'):
            self.comes('-')
            self.take()
        return (name, type_)

    def item(self):
        name, number = self.take(), None
        if self.comes('('):
            sign = -1 if self.comes('-') else 1
            number = sign * int(self.take())
            self.take(')')
        return (name, number)

    def plain(self, type_):
        """The type behind names."""
        while type_[0] == 'NAME':
            type_ = self.types[type_[1]]
        return type_

    def first_tags(self, type_):
        """The tags that an encoding of the type can begin with."""
        type_ = self.plain(type_)
        if type_[0] == 'CHOICE':
            return {tag for _, it in type_[1] for tag in self.first_tags(it)}
        if type_[0] == 'TAGGED':
            return {type_[1]}
        return {(0, UNIVERSAL[type_[1] if type_[0] != 'ENUMERATED' else 'ENUMERATED'])}

    def text(self, type_, encoding):
        """The text of the value whose tag and contents octets these are."""
        tag, contents = encoding
        type_ = self.plain(type_)
        assert tag in self.first_tags(type_), (tag, type_)
        if type_[0] == 'CHOICE':
            name, chosen = next(it for it in type_[1] if tag in self.first_tags(it[1]))
            return f'{name} : {self.text(chosen, encoding)}'
        if type_[0] == 'TAGGED':
            return self.text_within(type_, contents)
        return self.text_of(type_, contents)

    def text_within(self, type_, contents):
        _, _, is_implicit, inner = type_
        inner = self.plain(inner)
        # What is within a tag of a CHOICE is tagged explicitly (X.680 31.2.7).
        if not is_implicit or inner[0] == 'CHOICE':
            (only,) = encodings(contents)
            return self.text(inner, only)
        return self.text_within(inner, contents) if inner[0] == 'TAGGED' else self.text_of(inner, contents)

    def text_of(self, type_, contents):
        """The text of a value whose contents octets these are, whatever its tag."""
        kind = type_[0]
        if kind == 'OF':
            return braces(self.text(type_[2], it) for it in encodings(contents))
        if kind == 'LIST':
            return self.text_of_list(type_, contents)
        if kind == 'ENUMERATED':
            return type_[1][int.from_bytes(contents, 'big', signed=True)]
        return simple(type_[1], contents)

    def text_of_list(self, type_, contents):
        """The text of a SEQUENCE or SET: a SEQUENCE's components stand in order, a SET's go by their tags."""
        left, found = list(encodings(contents)), []
        for name, component in type_[2]:
            tags = self.first_tags(component)
            due = left[:1] if type_[1] == 'SEQUENCE' else left
            for stands in [it for it in due if it[0] in tags]:
                left.remove(stands)
                found.append(f'{name} {self.text(component, stands)}')
        assert not left, (type_, left)
        return braces(found)


def numbered(items):
    """The names of an ENUMERATED by their numbers: those without one get the least that are free (X.680 20.3)."""
    names = {number: name for name, number in items if number is not None}
    number = 0
    for name, given in items:
        if given is None:
            while number in names:
                number += 1
            names[number] = name
    return names


def encodings(octets):
    """The tag and the contents octets of each encoding, one behind another."""
    at = 0
    while at < len(octets):
        first, at = octets[at], at + 1
        number = first & 31
        if number == 31:
            number, more = 0, True
            while more:
                number, more, at = number << 7 | octets[at] & 127, octets[at] > 127, at + 1
        length, at = octets[at], at + 1
        if length > 127:
            count = length & 127
            length, at = int.from_bytes(octets[at:at + count], 'big'), at + count
        assert at + length <= len(octets)
        yield (first >> 6, number), octets[at:at + length]
        at += length


def braces(texts):
    joined = ', '.join(texts)
    return f'{{ {joined} }}' if joined else '{ }'


def hexadecimal(octets):
    return f"'{octets.hex().upper()}'H"


def arcs(contents, is_relative):
    found, number = [], 0
    for octet in contents:
        number = number << 7 | octet & 127
        if octet < 128:
            found.append(number)
            number = 0
    if not is_relative:
        first = min(found[0] // 40, 2)
        found[:1] = [first, found[0] - 40 * first]
    return '.'.join(map(str, found))


def simple(word, contents):
    """The text of a value of a type without parts."""
    if word == 'BOOLEAN':
        return 'TRUE' if contents != b'\0' else 'FALSE'
    if word == 'INTEGER':
        return str(int.from_bytes(contents, 'big', signed=True)) if len(contents) <= 16 else hexadecimal(contents)
    if word == 'BIT STRING':
        bits = ''.join(f'{it:08b}' for it in contents[1:])
        return f"'{bits[:len(bits) - contents[0]]}'B"
    if word == 'NULL':
        return 'NULL'
    if word in ('OBJECT IDENTIFIER', 'RELATIVE-OID'):
        return arcs(contents, word == 'RELATIVE-OID')
    if word in ('OCTET STRING', 'BMPString') or not all(32 <= it <= 126 for it in contents):
        return hexadecimal(contents)
    return '"' + contents.decode('ascii').replace('"', '""') + '"'


def main():
    module_file, name = sys.argv[1:]
    with open(module_file, encoding='utf-8') as it:
        module = Module(it.read())
    for line in sys.stdin:
        (only,) = encodings(bytes.fromhex(line))
        print(module.text(('NAME', name), only))


main()
