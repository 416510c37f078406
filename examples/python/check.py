"""Checks files by the library for C, through `ctypes`: whether each is the one DER encoding of a certificate.

python3 examples/python/check.py LIBRARY FILE.. -- docs/C.md says how the library is built.
"""

import ctypes, sys
from ctypes import POINTER, byref, c_bool, c_char_p, c_size_t, c_uint8, c_uint32

CERTIFICATE, SHORT_DATA = 1, 6


class Error(ctypes.Structure):
    """`struct asn1_error` of include/asn1.h."""

    _fields_ = [
        ("number", c_uint32),
        ("tag_number", c_uint32),
        ("tag_class", c_uint8),
        ("tag_constructed", c_bool),
        ("needed", c_size_t),
        ("min", c_size_t),
        ("max", c_size_t),
        ("actual", c_size_t),
    ]


class Element(ctypes.Structure):
    """`struct asn1_element` of include/asn1.h."""

    _fields_ = [
        ("number", c_uint32),
        ("class_number", c_uint8),
        ("constructed", c_bool),
        ("header_length", c_size_t),
        ("contents_length", c_size_t),
    ]


class Asn1:
    """The calls of the library. Octets are `bytes`, whose pointer is never null."""

    def __init__(self, path):
        self.library = ctypes.CDLL(path)
        octets, error = [c_char_p, c_size_t], POINTER(Error)
        text = [c_char_p, c_size_t, POINTER(c_size_t)]
        self.library.asn1_strip_tlv.argtypes = [*octets, POINTER(Element), error]
        self.library.pkix_check.argtypes = [c_uint32, *octets, *text, error]
        self.library.asn1_error_text.argtypes = [c_uint32, *text]
        self.library.pkix_error_octet.argtypes = [c_uint32, *octets, *text]
        self.library.pkix_error_octet.restype = c_bool
        for call in (self.library.asn1_strip_tlv, self.library.pkix_check, self.library.asn1_error_text):
            call.restype = c_uint32

    def strip_tlv(self, octets):
        """The element at the start, and the octets after it. `ValueError` has the error's struct."""
        element, error = Element(), Error()
        if self.library.asn1_strip_tlv(octets, len(octets), byref(element), byref(error)):
            raise ValueError(error)
        end = element.header_length + element.contents_length
        return element, octets[end:]

    def check(self, kind, octets):
        """The error and its location, or None if the octets are the one encoding of such an object."""
        place, length, error = ctypes.create_string_buffer(128), c_size_t(), Error()
        if not self.library.pkix_check(kind, octets, len(octets), place, len(place), byref(length), byref(error)):
            return None
        return self.text(error.number), place.raw[: length.value].decode()

    def error_octet(self, kind, octets):
        """At which octet the octets are rejected, or None if they aren't."""
        scratch, octet = ctypes.create_string_buffer(len(octets) or 1), c_size_t()
        found = self.library.pkix_error_octet(kind, octets, len(octets), scratch, len(octets), byref(octet))
        return octet.value if found else None

    def text(self, number):
        """What an error's number means."""
        text, length = ctypes.create_string_buffer(64), c_size_t()
        self.library.asn1_error_text(number, text, len(text), byref(length))
        return text.raw[: length.value].decode()


def main(path, *names):
    asn1, status = Asn1(path), 0
    for name in names:
        with open(name, "rb") as file:
            octets = file.read()
        found = asn1.check(CERTIFICATE, octets)
        if found is None:
            print(f"{name}: a certificate")
        else:
            status = 1
            print(f"{name}: {': '.join(filter(None, reversed(found)))} (octet {asn1.error_octet(CERTIFICATE, octets)})")
        # The last octet is still missing: the library says so.
        try:
            asn1.strip_tlv(octets[:-1])
        except ValueError as raised:
            (error,) = raised.args
            if error.number == SHORT_DATA:
                print(f"  without its last octet, {error.needed} is missing")
    return status


if __name__ == "__main__":
    sys.exit(main(*sys.argv[1:]))
