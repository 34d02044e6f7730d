#!/usr/bin/env python3
"""NIfTI-1 files for the tests, built from the field offsets of source document 003 alone; run as a program, it writes file A.

An order is struct's sign: "<" little, ">" big.
"""
import struct
import sys

SINGLE, PAIR = b"n+1\0", b"ni1\0"
NONE, SOME = bytes([0, 0, 0, 0]), bytes([1, 0, 0, 0])    # an extender without and with extensions, its reserved bytes zero


def header(order="<", magic=SINGLE, dim=(2, 3, 2), datatype=4, bitpix=16, offset=352.0, sizeof_hdr=348):
    """348 bytes; every field that is not named is zero."""
    h = bytearray(348)
    struct.pack_into(order + "i", h, 0, sizeof_hdr)
    struct.pack_into(f"{order}{len(dim)}h", h, 40, *dim)
    struct.pack_into(order + "2h", h, 70, datatype, bitpix)
    struct.pack_into(order + "f", h, 108, offset)
    h[344:348] = magic
    return bytes(h)


def extension(order="<", size=16, code=0):
    """An extension of the stated size, its payload as long as that size asks."""
    return struct.pack(order + "2i", size, code) + bytes(max(size - 8, 0))


# 01-scope.md, "Numbers on each side": 2 axes of 3 and 2, signed 16-bit voxels. Their values are free; here 0 to 5.
IMAGE_A = struct.pack("<6h", *range(6))
FILE_A = header() + NONE + IMAGE_A

if __name__ == "__main__":
    sys.stdout.buffer.write(FILE_A)
