"""Hostile constants, members, attributes and hierarchies.

Each case gives the files of a folder for a size, which is 1 for the whole case and 2 for one of half its size."""

from struct import pack

from class_file import (
    ABSTRACT,
    INTERFACE,
    PUBLIC,
    SUPER,
    Pool,
    attribute,
    class_file,
    code,
    counted,
    member,
    method_of,
)

RETURN = b"\xb1"
LONG_NAME = 65_530


def distinct_descriptor(number):
    """A descriptor of sixteen parameters, by the bits of a number."""
    return "(" + "".join("J" if number >> bit & 1 else "I" for bit in range(16)) + ")V"


def long_texts(size):
    """Names of a class and of a member, and descriptors of a field and of a method."""
    length = LONG_NAME // size
    return "c" * length, "n" * length, "L" + "d" * (length - 2) + ";", "()L" + "d" * (length - 4) + ";"


def constants_over_long_texts(size):
    """30,000 NameAndTypes and 30,000 Classes over texts of 65,530 bytes."""
    pool = Pool()
    class_name, name, field_type, _ = long_texts(size)
    for _ in range(30_000 // size):
        pool.name_and_type(name, field_type, fresh=True)
        pool.class_named(class_name, fresh=True)
    return {"C.class": class_file(pool, "C")}


def references_over_long_texts(size):
    """20,000 each of Fieldref, Methodref and MethodType over texts of 65,530 bytes."""
    pool = Pool()
    class_name, name, field_type, method_type = long_texts(size)
    for _ in range(20_000 // size):
        pool.field(class_name, name, field_type, fresh=True)
        pool.method(class_name, name, method_type, fresh=True)
        pool.method_type(method_type, fresh=True)
    return {"C.class": class_file(pool, "C")}


def handles_over_one_method(size):
    """65,000 MethodHandles of one method with texts of 65,530 bytes."""
    pool = Pool()
    class_name, name, _, method_type = long_texts(size)
    place = pool.method(class_name, name, method_type)
    for _ in range(65_000 // size):
        pool.method_handle(6, place, fresh=True)
    return {"C.class": class_file(pool, "C")}


def strings_of_one_text(size):
    """65,000 Strings of one text of 65,530 bytes."""
    pool, text = Pool(), "s" * (LONG_NAME // size)
    for _ in range(65_000 // size):
        pool.string(text, fresh=True)
    return {"C.class": class_file(pool, "C")}


def methods_of_one_long_name(size):
    """30,000 abstract methods of one name of 65,530 bytes, with distinct descriptors."""
    pool, name = Pool(), "m" * (LONG_NAME // size)
    methods = [member(pool, PUBLIC | ABSTRACT, name, distinct_descriptor(at)) for at in range(30_000 // size)]
    return {"C.class": class_file(pool, "C", methods=methods, flags=PUBLIC | SUPER | ABSTRACT)}


def fields_of_one_long_type(size):
    """30,000 fields of one descriptor of 65,530 bytes, with distinct names."""
    pool, descriptor = Pool(), "L" + "d" * (LONG_NAME // size - 2) + ";"
    fields = [member(pool, PUBLIC, f"f{at}", descriptor) for at in range(30_000 // size)]
    return {"C.class": class_file(pool, "C", fields=fields)}


def methods_of_one_deep_type(size):
    """30,000 abstract methods of one descriptor of 254 arrays of 255 dimensions, with distinct names."""
    pool, descriptor = Pool(), "(" + ("[" * 255 + "I") * (254 // size) + ")V"
    methods = [member(pool, PUBLIC | ABSTRACT, f"m{at}", descriptor) for at in range(30_000 // size)]
    return {"C.class": class_file(pool, "C", methods=methods, flags=PUBLIC | SUPER | ABSTRACT)}


def members_of_one_short_name(size):
    """60,000 methods of one name, with distinct descriptors, the same code in each."""
    pool = Pool()
    body = code(pool, 0, 40, RETURN)
    methods = [method_of(pool, "m", body, distinct_descriptor(at)) for at in range(60_000 // size)]
    return {"C.class": class_file(pool, "C", methods=methods)}


def interfaces_of_one_long_name(size):
    """60,000 times the same interface with a name of 65,530 bytes."""
    pool = Pool()
    place = pool.class_named("i" * (LONG_NAME // size))
    return {"C.class": class_file(pool, "C", interfaces=[place] * (60_000 // size))}


def attributes_of_one_long_name(size):
    """65,535 unknown attributes of one name of 65,530 bytes."""
    pool = Pool()
    unknown = attribute(pool, "a" * (LONG_NAME // size), b"")
    return {"C.class": class_file(pool, "C", attributes=[unknown] * (65_535 // size))}


def annotations_of(pool, annotations):
    return attribute(pool, "RuntimeVisibleAnnotations", counted(annotations))


def annotations_of_one_long_type(size):
    """65,535 annotations of one type of 65,530 bytes, on a class, a method and a field."""
    pool = Pool()
    one = pack(">HH", pool.text("L" + "a" * (LONG_NAME // size - 2) + ";"), 0)
    table = annotations_of(pool, [one] * (65_535 // size))
    method = member(pool, PUBLIC | ABSTRACT, "m", "()V", [table])
    field = member(pool, PUBLIC, "f", "I", [table])
    flags = PUBLIC | SUPER | ABSTRACT
    return {"C.class": class_file(pool, "C", [field], [method], [table], flags=flags)}


def annotation_of_long_names(size):
    """One annotation of 65,535 values, each with one name and one text of 65,530 bytes."""
    pool, length = Pool(), LONG_NAME // size
    pair = pack(">HBH", pool.text("n" * length), ord("s"), pool.text("s" * length))
    one = pack(">H", pool.text("LA;")) + counted([pair] * (65_535 // size))
    return {"C.class": class_file(pool, "C", attributes=[annotations_of(pool, [one])])}


def annotations_nested(size):
    """2,000 annotations, each of arrays in arrays to a depth of 64, which is the greatest."""
    pool = Pool()
    value = pack(">BH", ord("s"), pool.text("s"))
    for _ in range(63):
        value = b"[" + counted([value])
    one = pack(">H", pool.text("LA;")) + counted([pack(">H", pool.text("v")) + value])
    return {"C.class": class_file(pool, "C", attributes=[annotations_of(pool, [one] * (2_000 // size))])}


def annotation_of_wide_arrays(size):
    """An annotation of 400 arrays of 10,000 numbers."""
    pool = Pool()
    array = b"[" + counted([pack(">BH", ord("I"), pool.integer(1))] * (10_000 // size))
    one = pack(">H", pool.text("LA;")) + counted([pack(">H", pool.text("v")) + array] * 400)
    return {"C.class": class_file(pool, "C", attributes=[annotations_of(pool, [one])])}


def bootstraps_of_long_arguments(size):
    """Entries of bootstrap methods with three million arguments in all, each a string of 65,530 bytes."""
    pool = Pool()
    handle = pack(">H", pool.method_handle(6, pool.method("B", "b", "()V")))
    argument = pack(">H", pool.string("s" * (LONG_NAME // size)))
    entries = [handle + counted([argument] * 60_000)] * (50 // size)
    return {"C.class": class_file(pool, "C", attributes=[attribute(pool, "BootstrapMethods", counted(entries))])}


def interfaces_in_levels(size):
    """4,000 interfaces in 40 levels, each below all 100 of the level before; at half, 20 levels."""
    levels, width = 40 // size, 100
    folder = {}
    for level in range(levels):
        for at in range(width):
            pool, name = Pool(), f"I{level:02}x{at:03}"
            above = [pool.class_named(f"I{level - 1:02}x{other:03}") for other in range(width)] if level else []
            flags = PUBLIC | INTERFACE | ABSTRACT
            folder[name + ".class"] = class_file(pool, name, interfaces=above, flags=flags)
    return folder


def chain(size):
    """A chain of 8,192 classes."""
    return chain_of(8_192 // size, lambda pool, name: [])


def chain_of(count, methods_in):
    folder = {}
    for at in range(count):
        pool, name = Pool(), f"C{at:04}"
        above = f"C{at - 1:04}" if at else "java/lang/Object"
        folder[name + ".class"] = class_file(pool, name, methods=methods_in(pool, name), above=above)
    return folder


def chain_of_equal_members(size):
    """A chain of 2,000 classes, each with the same 40 methods."""

    def methods_in(pool, name):
        return [method_of(pool, f"m{at}", code(pool, 0, 0, RETURN)) for at in range(40)]

    return chain_of(2_000 // size, methods_in)


def classes_of_one_super(size):
    """8,091 classes below one, and each of them with the same 100 interfaces, which have no classes above them."""
    folder = {"Top.class": class_file(Pool(), "Top")}
    for at in range(100):
        pool = Pool()
        folder[f"I{at:03}.class"] = class_file(pool, f"I{at:03}", flags=PUBLIC | INTERFACE | ABSTRACT)
    for at in range(8_091 // size):
        pool, name = Pool(), f"C{at:04}"
        above = [pool.class_named(f"I{other:03}") for other in range(100)]
        folder[name + ".class"] = class_file(pool, name, interfaces=above, above="Top")
    return folder


def names_with_one_front(size):
    """600 classes of names of 200 bytes that differ at their ends alone, each calling 100 others."""
    count, front = 600 // size, "n" * 196
    folder = {}
    for at in range(count):
        pool, name, body = Pool(), f"{front}{at:04}", b""
        for other in range(100):
            body += pack(">BH", 0xB8, pool.method(f"{front}{(at + other) % count:04}", "m", "()V"))
        method = method_of(pool, "m", code(pool, 0, 0, body + RETURN))
        folder[f"C{at:04}.class"] = class_file(pool, name, methods=[method])
    return folder


CASES = [
    constants_over_long_texts,
    references_over_long_texts,
    handles_over_one_method,
    strings_of_one_text,
    methods_of_one_long_name,
    fields_of_one_long_type,
    methods_of_one_deep_type,
    members_of_one_short_name,
    interfaces_of_one_long_name,
    attributes_of_one_long_name,
    annotations_of_one_long_type,
    annotation_of_long_names,
    annotations_nested,
    annotation_of_wide_arrays,
    bootstraps_of_long_arguments,
    interfaces_in_levels,
    chain,
    chain_of_equal_members,
    classes_of_one_super,
    names_with_one_front,
]
