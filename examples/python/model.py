#!/usr/bin/env python3
"""Reads a .zt file through libzt.so, with no other module, and gives each component as a memoryview of the mapped file.
usage: model.py PATH. LIBZT names the library, if it isn't where the loader looks."""
import ctypes
import mmap
import os
import sys
from ctypes import POINTER, c_size_t, c_uint8, c_uint64

# As in zt.h: widths, the columns that are used here, and for each storage code the letter that memoryview.cast takes (it has none for bf16).
OBJECT_WIDTH, OBJECT_NAME, OBJECT_RANK, OBJECT_SHAPE = 16, 0, 2, 3
COMPONENT_WIDTH, COMPONENT_NAME, COMPONENT_DTYPE, COMPONENT_OWNER = 12, 0, 2, 9
TABLE_MOST = (OBJECT_WIDTH + 16 * COMPONENT_WIDTH) * 1024
LETTERS = "d f e H q i h b Q I H B ?".split()


def struct(fields):
    return type("Struct", (ctypes.Structure,), {"_fields_": [(name, c_uint64) for name in fields.split()]})


library = ctypes.CDLL(os.environ.get("LIBZT", "libzt.so.1"))
library.zt_read.restype = struct("number object component objects components start place size")
library.zt_read.argtypes = [POINTER(c_uint8), c_size_t, POINTER(c_uint64), c_size_t]
library.zt_view.restype = struct("number offset length")
library.zt_view.argtypes = [POINTER(c_uint8), c_size_t, POINTER(c_uint64), c_size_t, c_uint64, c_uint64, c_uint64]
library.zt_refusal_name.restype = ctypes.c_char_p
library.zt_refusal_name.argtypes = [c_uint64]


def components(path):
    """Object, component, shape and memoryview of each component. The bytes are the file's own: they stay right as long as nobody changes it."""
    with open(path, "rb") as file:
        empty = os.fstat(file.fileno()).st_size == 0
        mapped = bytearray() if empty else mmap.mmap(file.fileno(), 0, access=mmap.ACCESS_COPY)
    lent, table = (c_uint8 * len(mapped)).from_buffer(mapped), (c_uint64 * TABLE_MOST)()
    answer = library.zt_read(lent, len(mapped), table, TABLE_MOST)
    if answer.number:
        name = library.zt_refusal_name(answer.number).decode()
        raise ValueError(f"refused {answer.number} {name}, object {answer.object}, component {answer.component}")
    whole = memoryview(mapped).toreadonly()
    for index in range(answer.components):
        at = OBJECT_WIDTH * answer.objects + COMPONENT_WIDTH * index
        row = table[at : at + COMPONENT_WIDTH]
        owner = table[OBJECT_WIDTH * row[COMPONENT_OWNER] :][:OBJECT_WIDTH]
        texts = [bytes(whole[r[c] : r[c] + r[c + 1]]).decode() for r, c in ((owner, OBJECT_NAME), (row, COMPONENT_NAME))]
        range_ = library.zt_view(lent, len(mapped), table, TABLE_MOST, answer.objects, answer.components, index)
        view = whole[range_.offset : range_.offset + range_.length]
        if len(view) % memoryview(b"").cast(LETTERS[row[COMPONENT_DTYPE]]).itemsize == 0:
            view = view.cast(LETTERS[row[COMPONENT_DTYPE]])
        yield *texts, owner[OBJECT_SHAPE : OBJECT_SHAPE + owner[OBJECT_RANK]], view


if __name__ == "__main__":
    for owner, name, shape, view in components(sys.argv[1]):
        print(ascii(owner), ascii(name), shape, view.format, view.nbytes, view[:4].tolist())
