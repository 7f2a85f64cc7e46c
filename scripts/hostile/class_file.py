"""Writes class files (JVMS 4) from their parts, also such as no compiler writes."""

from struct import pack

PUBLIC, STATIC, SUPER, INTERFACE, ABSTRACT = 0x0001, 0x0008, 0x0020, 0x0200, 0x0400
MAJOR = 61


class Pool:
    """The constants of a class. A constant that stands already is named again, if `fresh` is not set."""

    def __init__(self):
        self.parts = []
        self.count = 1
        self.places = {}
        self.texts = {}

    def add(self, content, fresh=False, slots=1):
        if not fresh and content in self.places:
            return self.places[content]
        place = self.count
        self.parts.append(content)
        self.places.setdefault(content, place)
        self.count += slots
        return place

    def text(self, text):
        if text not in self.texts:
            content = text.encode()
            self.texts[text] = self.add(pack(">BH", 1, len(content)) + content)
        return self.texts[text]

    def integer(self, value):
        return self.add(pack(">Bi", 3, value))

    def class_named(self, name, fresh=False):
        return self.add(pack(">BH", 7, self.text(name)), fresh)

    def string(self, text, fresh=False):
        return self.add(pack(">BH", 8, self.text(text)), fresh)

    def name_and_type(self, name, descriptor, fresh=False):
        return self.add(pack(">BHH", 12, self.text(name), self.text(descriptor)), fresh)

    def member(self, tag, owner, name, descriptor, fresh=False):
        return self.add(pack(">BHH", tag, self.class_named(owner), self.name_and_type(name, descriptor)), fresh)

    def field(self, owner, name, descriptor, fresh=False):
        return self.member(9, owner, name, descriptor, fresh)

    def method(self, owner, name, descriptor, fresh=False):
        return self.member(10, owner, name, descriptor, fresh)

    def method_handle(self, kind, member, fresh=False):
        return self.add(pack(">BBH", 15, kind, member), fresh)

    def method_type(self, descriptor, fresh=False):
        return self.add(pack(">BH", 16, self.text(descriptor)), fresh)

    def call_site(self, bootstrap, name, descriptor, fresh=False):
        return self.add(pack(">BHH", 18, bootstrap, self.name_and_type(name, descriptor)), fresh)

    def written(self):
        return pack(">H", self.count) + b"".join(self.parts)


def counted(items):
    return pack(">H", len(items)) + b"".join(items)


def attribute(pool, name, content):
    return pack(">HI", pool.text(name), len(content)) + content


def member(pool, flags, name, descriptor, attributes=()):
    return pack(">HHH", flags, pool.text(name), pool.text(descriptor)) + counted(list(attributes))


def handler(start, end, target, catch=0):
    return pack(">HHHH", start, end, target, catch)


def code(pool, stack, local_slots, instructions, handlers=(), frames=()):
    """The attribute Code, with its table of frames where there are some (JVMS 4.7.3, 4.7.4)."""
    attributes = [attribute(pool, "StackMapTable", counted(list(frames)))] if frames else []
    content = (
        pack(">HHI", stack, local_slots, len(instructions))
        + instructions
        + counted(list(handlers))
        + counted(attributes)
    )
    return attribute(pool, "Code", content)


def same_frame(delta):
    return pack(">B", delta) if delta < 64 else pack(">BH", 251, delta)


def chop_frame(delta, count):
    return pack(">BH", 251 - count, delta)


def append_frame(delta, kinds):
    return pack(">BH", 251 + len(kinds), delta) + b"".join(kinds)


def full_frame(delta, local_kinds, stack_kinds):
    return pack(">BH", 255, delta) + counted(local_kinds) + counted(stack_kinds)


TOP, INT = b"\x00", b"\x01"


def object_kind(pool, name):
    return pack(">BH", 7, pool.class_named(name))


def class_file(
    pool,
    name,
    fields=(),
    methods=(),
    attributes=(),
    interfaces=(),
    flags=PUBLIC | SUPER,
    above="java/lang/Object",
):
    own, over = pool.class_named(name), pool.class_named(above)
    places = [pack(">H", place) for place in interfaces]
    body = counted(places) + counted(list(fields)) + counted(list(methods)) + counted(list(attributes))
    head = pack(">IHH", 0xCAFEBABE, 0, MAJOR)
    return head + pool.written() + pack(">HHH", flags, own, over) + body


def method_of(pool, name, body, descriptor="()V"):
    """A static method of this code."""
    return member(pool, PUBLIC | STATIC, name, descriptor, [body])


def one_method(pool, body, descriptor="()V", **rest):
    """A folder of one class with one static method of this code."""
    return {"C.class": class_file(pool, "C", methods=[method_of(pool, "m", body, descriptor)], **rest)}
