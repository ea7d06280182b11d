"""Files for the tests of the command: sound ones with any names, formats and fields, put together from their parts."""
import struct

MAGIC = b"ZTEN1000"


class Pairs(list):
    """A map, as a list of pairs."""


def head(major, number):
    for low, size, code in ((24, 1, "B"), (25, 2, "H"), (26, 4, "I"), (27, 8, "Q")):
        if number < 24:
            return bytes([major << 5 | number])
        if number < 256**size:
            return bytes([major << 5 | low]) + struct.pack(">" + code, number)
    raise ValueError(number)


def item(value):
    if isinstance(value, Pairs):
        return head(5, len(value)) + b"".join(item(part) for pair in value for part in pair)
    if isinstance(value, list):
        return head(4, len(value)) + b"".join(item(part) for part in value)
    if isinstance(value, str):
        return head(3, len(value.encode())) + value.encode()
    return head(0, value)


def component(dtype, offset, length, **more):
    return Pairs([("dtype", dtype), ("offset", offset), ("length", length), *more.items()])


def thing(shape, form, components, **more):
    return Pairs([("shape", shape), ("format", form), *more.items(), ("components", Pairs(components))])


def manifest(objects, **more):
    return item(Pairs([("version", "1.2.0"), *more.items(), ("objects", Pairs(objects))]))


def behind(text):
    """What follows the last blob: the manifest, its size, the footer."""
    return text + struct.pack("<Q", len(text)) + MAGIC


def file(objects, blobs=b"", **more):
    """`blobs` stand from byte 64 on."""
    return MAGIC + bytes(56) + blobs + behind(manifest(objects, **more))


def first_component(offset, length, **more):
    return Pairs([("offset", offset), ("length", length), *more.items()])


def first_file(tensors, blobs=b"", **more):
    """A file of layout 1.0: the size ends it. `tensors` are names, dtypes, shapes, formats and components."""
    entries = [(name, Pairs([("dtype", dtype), *thing(*rest, **fields)])) for name, dtype, rest, fields in tensors]
    text = item(Pairs([("version", "1.0"), *more.items(), ("tensors", Pairs(entries))]))
    return MAGIC + bytes(56) + blobs + text + struct.pack("<Q", len(text))


def named(name, part="data"):
    """One object, of a format without rules, of 12 bytes."""
    return file([(name, thing([3], "any", [(part, component("f32", 64, 12))]))], b"twelve bytes")
