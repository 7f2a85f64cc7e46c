"""Hostile code: what one instruction, frame, range or target can make the program do again.

Each case gives the files of a folder for a size, which is 1 for the whole case and 2 for one of half its size."""

from struct import pack

from class_file import (
    INT,
    TOP,
    Pool,
    append_frame,
    attribute,
    chop_frame,
    code,
    counted,
    full_frame,
    handler,
    method_of,
    class_file,
    object_kind,
    one_method,
    same_frame,
)

NOP, NULL, ICONST_0, POP, RETURN, THROW = b"\x00", b"\x01", b"\x03", b"\x57", b"\xb1", b"\xbf"
ISTORE, ASTORE, IFEQ, TABLESWITCH, LOOKUPSWITCH = 0x36, 0x3A, 0x99, 0xAA, 0xAB
LONG_NAME = 65_530
ANY_THROWABLE = "java/lang/Throwable"


def frames_over_locals(size):
    """65,535 frames, none of which changes a local, over 65,535 locals."""
    count = 65_535 // size
    pool = Pool()
    return one_method(pool, code(pool, 0, count, NOP * (count - 1) + RETURN, frames=[same_frame(0)] * count))


def frames_that_chop_and_append(size):
    """65,534 frames that take the last of 60,000 locals away and add it again, in code that is never reached."""
    count, local_slots = 65_534 // size, 60_000 // size
    frames = [full_frame(1, [INT] * local_slots, [])]
    frames += [append_frame(0, [INT]) if at % 2 else chop_frame(0, 1) for at in range(count - 1)]
    pool = Pool()
    return one_method(pool, code(pool, 0, local_slots, RETURN * (count + 1), frames=frames))


def stores_between_frames(size):
    """21,800 frames in turn with and without the last of 60,000 locals, and a store to it between them."""
    count, local_slots = 10_900 // size, 60_000 // size
    store = ICONST_0 + pack(">BBH", 0xC4, ISTORE, local_slots - 1)
    frames = [full_frame(1, [INT] * local_slots, [])]
    frames += [chop_frame(0, 1), append_frame(4, [INT])] * count
    pool = Pool()
    return one_method(pool, code(pool, 1, local_slots, RETURN + (NOP + store) * count + RETURN, frames=frames))


def frames_of_a_long_class(size):
    """A frame of 65,000 objects of one class with a name of 65,530 bytes."""
    pool = Pool()
    kinds = [object_kind(pool, "c" * (LONG_NAME // size))] * (65_000 // size)
    return one_method(pool, code(pool, 0, len(kinds), RETURN + RETURN, frames=[full_frame(1, kinds, [])]))


def ranges_over_instructions(size):
    """65,535 exception ranges, each over all of 65,533 instructions."""
    pool, count = Pool(), 65_533 // size
    frames = [full_frame(count - 1, [], [object_kind(pool, ANY_THROWABLE)])]
    handlers = [handler(0, count - 1, count - 1)] * (65_535 // size)
    return one_method(pool, code(pool, 1, 0, NOP * (count - 2) + RETURN + THROW, handlers, frames))


def ranges_that_catch_a_long_class(size):
    """65,535 exception ranges that catch one class with a name of 65,530 bytes."""
    pool = Pool()
    catch = pool.class_named("c" * (LONG_NAME // size))
    frames = [full_frame(2, [], [object_kind(pool, ANY_THROWABLE)])]
    handlers = [handler(0, 1, 2, catch)] * (65_535 // size)
    return one_method(pool, code(pool, 1, 0, NOP + RETURN + THROW, handlers, frames))


def nested_ranges(size):
    """30,000 exception ranges, each one instruction shorter than the one before it."""
    pool, count = Pool(), 65_000 // size
    frames = [full_frame(count - 1, [], [object_kind(pool, ANY_THROWABLE)])]
    handlers = [handler(at, count - 1 - at, count - 1) for at in range(30_000 // size)]
    return one_method(pool, code(pool, 1, 0, NOP * (count - 2) + RETURN + THROW, handlers, frames))


def stores_under_distinct_handlers(size):
    """9,000 times a local is an int and then a reference, under 2,000 ranges, each with a handler of its own, which
    wants another number of 250 ints."""
    stores, count = 9_000 // size, 2_000 // size
    turn = ICONST_0 + pack(">BB", ISTORE, 250) + NULL + pack(">BB", ASTORE, 250)
    body = turn * stores + RETURN
    pool, handlers, frames, at = Pool(), [], [], -1
    for number in range(count):
        place = len(body) + number
        handlers.append(handler(0, len(body), place))
        frames.append(full_frame(place - at - 1, [INT] * (1 + number % 250), [object_kind(pool, ANY_THROWABLE)]))
        at = place
    return one_method(pool, code(pool, 1, 251, body + THROW * count, handlers, frames), "(" + "I" * 250 + ")V")


def stores_between_ranges(size):
    """15,000 stores, and before each a range of its own that ends there."""
    count = 15_000 // size
    body = (NOP + ICONST_0 + pack(">BB", ISTORE, 0)) * count + RETURN
    pool = Pool()
    handlers = [handler(4 * at, 4 * at + 1, len(body)) for at in range(count)]
    frames = [full_frame(len(body), [], [object_kind(pool, ANY_THROWABLE)])]
    return one_method(pool, code(pool, 1, 1, body + THROW, handlers, frames))


def switch_to_one_frame(size):
    """A switch of 15,000 cases to one frame, over 60,000 locals."""
    cases = 15_000 // size
    pool, length = Pool(), 16 + 4 * cases
    table = pack(">iii", length - 1, 0, cases - 1) + pack(">i", length - 1) * cases
    body = ICONST_0 + bytes([TABLESWITCH]) + b"\0\0" + table + RETURN
    return one_method(pool, code(pool, 1, 60_000 // size, body, frames=[same_frame(length)]))


def switches_to_one_frame(size):
    """2,000 switches of two keys each to one frame, over 60,000 locals."""
    count = 2_000 // size
    pool, body = Pool(), b""
    for at in range(count):
        to = 28 * (count - at) - 3
        body += ICONST_0 + NOP * 2 + bytes([LOOKUPSWITCH]) + pack(">iiiiii", to, 2, 0, to, 1, to)
    frames = [same_frame(0)] + [same_frame(27)] * count
    return one_method(pool, code(pool, 1, 60_000 // size, body + RETURN, frames=frames))


def branches_to_one_deep_stack(size):
    """8,000 branches back to one frame with a stack of 60,000 ints."""
    count, depth = 8_000 // size, 60_000 // size
    body = RETURN + b"".join(ICONST_0 + pack(">Bh", IFEQ, -(4 * at + 1)) for at in range(count)) + RETURN
    pool = Pool()
    return one_method(pool, code(pool, depth + 1, 0, body, frames=[full_frame(1, [], [INT] * depth)]))


def switch_to_one_deep_stack(size):
    """A switch of 15,000 cases back to one frame with a stack of 60,000 ints."""
    cases, depth = 15_000 // size, 60_000 // size
    pool = Pool()
    table = pack(">iii", -3, 0, cases - 1) + pack(">i", -3) * cases
    body = RETURN + NOP + NOP + ICONST_0 + bytes([TABLESWITCH]) + b"\0\0\0" + table
    return one_method(pool, code(pool, depth + 1, 0, body, frames=[full_frame(1, [], [INT] * depth)]))


def call_sites_over_one_bootstrap(size):
    """10,000 call sites of one concatenation of 60,000 constants."""
    count, constants = 10_000 // size, 60_000 // size
    pool = Pool()
    types = "Ljava/lang/invoke/MethodHandles$Lookup;Ljava/lang/String;Ljava/lang/invoke/MethodType;"
    factory = pool.method(
        "java/lang/invoke/StringConcatFactory",
        "makeConcatWithConstants",
        f"({types}Ljava/lang/String;[Ljava/lang/Object;)Ljava/lang/invoke/CallSite;",
    )
    arguments = [pack(">H", pool.string("\x02" * constants))] + [pack(">H", pool.string("s"))] * constants
    entry = pack(">H", pool.method_handle(6, factory)) + counted(arguments)
    site = pool.call_site(0, "makeConcatWithConstants", "()Ljava/lang/String;")
    body = (pack(">BHH", 0xBA, site, 0) + POP) * count + RETURN
    table = attribute(pool, "BootstrapMethods", counted([entry]))
    return one_method(pool, code(pool, 1, 0, body), attributes=[table])


def call_site_constants_over_one_bootstrap(size):
    """20,000 constants of call sites over one concatenation of 40,000 constants."""
    count, constants = 20_000 // size, 40_000 // size
    pool = Pool()
    types = "Ljava/lang/invoke/MethodHandles$Lookup;Ljava/lang/String;Ljava/lang/invoke/MethodType;"
    factory = pool.method(
        "java/lang/invoke/StringConcatFactory",
        "makeConcatWithConstants",
        f"({types}Ljava/lang/String;[Ljava/lang/Object;)Ljava/lang/invoke/CallSite;",
    )
    arguments = [pack(">H", pool.string("\x02" * constants))] + [pack(">H", pool.string("s"))] * constants
    entry = pack(">H", pool.method_handle(6, factory)) + counted(arguments)
    for _ in range(count):
        pool.call_site(0, "makeConcatWithConstants", "()Ljava/lang/String;", fresh=True)
    table = attribute(pool, "BootstrapMethods", counted([entry]))
    return one_method(pool, code(pool, 0, 0, RETURN), attributes=[table])


def branches_to_one_frame_of_many_locals(size):
    """8,000 branches back to one frame with 60,000 locals that are ints and Top in turn."""
    count, local_slots = 8_000 // size, 60_000 // size
    body = RETURN + b"".join(ICONST_0 + pack(">Bh", IFEQ, -(4 * at + 1)) for at in range(count)) + RETURN
    pool = Pool()
    frames = [full_frame(1, [INT, TOP] * (local_slots // 2), [])]
    return one_method(pool, code(pool, 1, local_slots, body, frames=frames))


def frames_that_append(size):
    """16,000 frames, each of which adds three locals to those of the frame before it."""
    count = 16_000 // size
    frames = [full_frame(1, [], [])] + [append_frame(0, [INT] * 3)] * (count - 1)
    pool = Pool()
    return one_method(pool, code(pool, 0, 3 * count, RETURN * (count + 1), frames=frames))


def repeated(opcode, place_in, size, after=POP):
    """Ten methods that have one instruction with the same constant 16,000 times each."""
    pool = Pool()
    place = place_in(pool, LONG_NAME // size - 4)
    body = code(pool, 2, 0, (pack(">BH", opcode, place) + after) * (16_000 // size) + RETURN)
    methods = [method_of(pool, f"m{at}", body) for at in range(10)]
    return {"C.class": class_file(pool, "C", methods=methods)}


def calls_of_one_method(size):
    """160,000 calls of one method with a descriptor of 65,530 bytes."""
    return repeated(0xB8, lambda pool, length: pool.method("D", "m", "()L" + "d" * length + ";"), size)


def reads_of_one_field(size):
    """160,000 reads of one field with a descriptor of 65,530 bytes."""
    return repeated(0xB2, lambda pool, length: pool.field("D", "f", "L" + "d" * length + ";"), size)


def loads_of_one_string(size):
    """160,000 loads of one string of 65,530 bytes."""
    return repeated(0x13, lambda pool, length: pool.string("s" * length), size)


def objects_of_one_class(size):
    """160,000 objects of one class with a name of 65,530 bytes."""
    return repeated(0xBB, lambda pool, length: pool.class_named("d" * length), size)


CASES = [
    frames_over_locals,
    frames_that_chop_and_append,
    frames_that_append,
    stores_between_frames,
    frames_of_a_long_class,
    ranges_over_instructions,
    ranges_that_catch_a_long_class,
    nested_ranges,
    stores_under_distinct_handlers,
    stores_between_ranges,
    switch_to_one_frame,
    switches_to_one_frame,
    branches_to_one_deep_stack,
    branches_to_one_frame_of_many_locals,
    switch_to_one_deep_stack,
    call_sites_over_one_bootstrap,
    call_site_constants_over_one_bootstrap,
    calls_of_one_method,
    reads_of_one_field,
    loads_of_one_string,
    objects_of_one_class,
]
