"""Class files, read as the Java Virtual Machine Specification (SE 8, chapter 4) and docs/DECISIONS.md say: the class, or the
first fault of its bytes. Written apart from the program, to say what it has to answer."""
import struct

LARGEST = 16777216
POOL_SIZES = {3: 4, 4: 4, 5: 8, 6: 8, 7: 2, 8: 2, 9: 4, 10: 4, 11: 4, 12: 4, 15: 3, 16: 2, 18: 4}
# what the references of an entry name: tags by place
REFERENCES = {7: ({1},), 8: ({1},), 9: ({7}, {12}), 10: ({7}, {12}), 11: ({7}, {12}), 12: ({1}, {1}), 16: ({1},), 18: (None, {12})}
ANNOTATIONS = ("RuntimeVisibleAnnotations", "RuntimeInvisibleAnnotations")
PARAMETER_ANNOTATIONS = ("RuntimeVisibleParameterAnnotations", "RuntimeInvisibleParameterAnnotations")
ONCE = ("Code", "StackMapTable", "Exceptions", "ConstantValue")
CONSTANTS_OF_TAGS = {"B": {3}, "C": {3}, "I": {3}, "S": {3}, "Z": {3}, "D": {6}, "F": {4}, "J": {5}, "s": {1}}
NATIVE, ABSTRACT, STATIC = 0x100, 0x400, 0x8


class Fault(Exception):
    """The words of a report of the stage parse, behind the file's name."""


class Cut(Exception):
    """The bytes end inside a part."""


class Bytes:
    """A cursor over bytes; `end` is what a read past them raises."""

    def __init__(self, data, at=0, end=Cut):
        self.data, self.at, self.end = data, at, end

    def take(self, count):
        if self.at + count > len(self.data):
            raise self.end() if self.end is Cut else self.end
        out = self.data[self.at:self.at + count]
        self.at += count
        return out

    def u1(self):
        return self.take(1)[0]

    def u2(self):
        return struct.unpack(">H", self.take(2))[0]

    def u4(self):
        return struct.unpack(">I", self.take(4))[0]


def units_of(data):
    """The UTF-16 units of a modified UTF-8 text, or None."""
    out, at = [], 0
    while at < len(data):
        first = data[at]
        count = 1 if 1 <= first <= 0x7F else 2 if first & 0xE0 == 0xC0 else 3 if first & 0xF0 == 0xE0 else 0
        later = data[at + 1:at + count]
        if count == 0 or len(later) != count - 1 or any(b & 0xC0 != 0x80 for b in later):
            return None
        if count == 1:
            unit = first
        elif count == 2:
            unit = (first & 0x1F) << 6 | later[0] & 0x3F
            if 0 < unit < 0x80:
                return None
        else:
            unit = (first & 0xF) << 12 | (later[0] & 0x3F) << 6 | later[1] & 0x3F
            if unit < 0x800:
                return None
        out.append(unit)
        at += count
    return tuple(out)


def written(units, kept="_$/[;"):
    """A name as reports write it."""
    out = []
    for unit in units:
        c = chr(unit)
        out.append(c if unit < 128 and (c.isalnum() or c in kept) else "\\u%04x" % unit)
    return "".join(out)


def method_written(name, descriptor):
    special = name == tuple(map(ord, "<init>"))
    return ("<init>" if special else written(name)) + written(descriptor, "_$/[;()")


class Pool:
    def __init__(self, source):
        count = source.u2()
        if count == 0:
            raise Fault("pool index 0")
        self.entries = [None] * count
        index = 1
        while index < count:
            tag = source.u1()
            if tag in (5, 6) and index + 1 >= count:
                raise Fault("pool index %d" % index)
            if tag == 1:
                data = source.take(source.u2())
                units = units_of(data)
                if units is None:
                    raise Fault("pool text %d" % index)
                self.entries[index] = (1, units)
            elif tag in POOL_SIZES:
                self.entries[index] = (tag, source.take(POOL_SIZES[tag]))
            else:
                raise Fault("pool tag %d %d" % (index, tag))
            index += 2 if tag in (5, 6) else 1
        for index, entry in enumerate(self.entries):
            if entry is not None and not self.refers_well(*entry):
                raise Fault("pool index %d" % index)

    def refers_well(self, tag, data):
        if tag == 15:
            kind, index = data[0], data[1] << 8 | data[2]
            wanted = {9} if 1 <= kind <= 4 else {10} if kind in (5, 8) else {10, 11} if kind in (6, 7) else {11} if kind == 9 else set()
            return self.is_a(index, wanted)
        for place, wanted in enumerate(REFERENCES.get(tag, ())):
            index = data[2 * place] << 8 | data[2 * place + 1]
            if wanted is not None and not self.is_a(index, wanted):
                return False
        return True

    def is_a(self, index, tags):
        return 0 < index < len(self.entries) and self.entries[index] is not None and self.entries[index][0] in tags

    def text(self, index):
        return self.entries[index][1]

    def u2(self, index, place=0):
        data = self.entries[index][1]
        return data[2 * place] << 8 | data[2 * place + 1]

    def class_name(self, index):
        return self.text(self.u2(index))

    def member(self, index):
        """Owner, name and descriptor."""
        pair = self.u2(index, 1)
        return self.class_name(self.u2(index)), self.text(self.u2(pair)), self.text(self.u2(pair, 1))

    def constant(self, index):
        tag, data = self.entries[index]
        if tag == 3:
            return struct.unpack(">i", data)[0]
        if tag == 5:
            return struct.unpack(">q", data)[0]
        if tag == 8:
            return self.text(self.u2(index))
        return None


def asked(pool, index, tags):
    if not pool.is_a(index, tags):
        raise Fault("attribute index %d" % index)
    return index


def frame_types(source, pool, count):
    for _ in range(count):
        tag = source.u1()
        if tag == 7:
            asked(pool, source.u2(), {7})
        elif tag == 8:
            source.u2()
        elif tag > 8:
            raise Fault("attribute frame %d" % tag)


def frames(source, pool):
    for _ in range(source.u2()):
        tag = source.u1()
        if 128 <= tag <= 246:
            raise Fault("attribute frame %d" % tag)
        if 64 <= tag <= 127:
            frame_types(source, pool, 1)
        elif tag == 247:
            source.u2()
            frame_types(source, pool, 1)
        elif 248 <= tag <= 251:
            source.u2()
        elif 252 <= tag <= 254:
            source.u2()
            frame_types(source, pool, tag - 251)
        elif tag == 255:
            source.u2()
            frame_types(source, pool, source.u2())
            frame_types(source, pool, source.u2())


def element_value(source, pool):
    tag = chr(source.u1())
    if tag in CONSTANTS_OF_TAGS:
        asked(pool, source.u2(), CONSTANTS_OF_TAGS[tag])
    elif tag == "e":
        asked(pool, source.u2(), {1})
        asked(pool, source.u2(), {1})
    elif tag == "c":
        asked(pool, source.u2(), {1})
    elif tag == "@":
        annotation(source, pool)
    elif tag == "[":
        for _ in range(source.u2()):
            element_value(source, pool)
    else:
        raise source.end


def annotation(source, pool):
    asked(pool, source.u2(), {1})
    for _ in range(source.u2()):
        asked(pool, source.u2(), {1})
        element_value(source, pool)


def annotations(source, pool):
    for _ in range(source.u2()):
        annotation(source, pool)


def named(pool, name):
    return "".join(map(chr, pool.text(name)))


class Code:
    def __init__(self, source, pool):
        self.max_stack, self.max_locals = source.u2(), source.u2()
        length = source.u4()
        self.code = source.take(length)
        if length == 0 or length > 65535:
            raise Fault("attribute length Code")
        self.handlers = []
        for _ in range(source.u2()):
            start, end, at, index = source.u2(), source.u2(), source.u2(), source.u2()
            if index != 0:
                asked(pool, index, {7})
            self.handlers.append((start, end, at, index))
        attributes(source, pool, "code")


def attribute_parts(kind, name, source, pool):
    """The parts of an attribute that is read into parts, else None."""
    if name == "Code" and kind == "method":
        return Code(source, pool)
    if name == "Exceptions" and kind == "method":
        return [asked(pool, source.u2(), {7}) for _ in range(source.u2())]
    if name == "StackMapTable" and kind == "code":
        return frames(source, pool)
    if name == "ConstantValue" and kind == "field":
        return asked(pool, source.u2(), {3, 4, 5, 6, 8})
    if name in ANNOTATIONS and kind in ("class", "field", "method"):
        return annotations(source, pool)
    if name in PARAMETER_ANNOTATIONS and kind == "method":
        for _ in range(source.u1()):
            annotations(source, pool)
    return None


def is_read(kind, name):
    return (name == "Code" and kind == "method" or name == "Exceptions" and kind == "method"
            or name == "StackMapTable" and kind == "code" or name == "ConstantValue" and kind == "field"
            or name in ANNOTATIONS and kind != "code" or name in PARAMETER_ANNOTATIONS and kind == "method")


def attributes(source, pool, kind):
    out = {}
    for _ in range(source.u2()):
        # a part whose bytes end is cut, whatever it holds: so the name is looked at when the whole attribute is there
        index = source.u2()
        data = source.take(source.u4())
        name = named(pool, asked(pool, index, {1}))
        if name in ONCE and is_read(kind, name) and name in out:
            raise Fault("attribute twice " + written(tuple(map(ord, name))))
        if is_read(kind, name):
            inside = Bytes(data, 0, Fault("attribute length " + name))
            out[name] = attribute_parts(kind, name, inside, pool)
            if inside.at != len(data):
                raise Fault("attribute length " + name)
    return out


class Member:
    def __init__(self, source, pool, kind):
        self.flags = source.u2()
        self.name = pool.text(asked_member(pool, source.u2()))
        self.descriptor = pool.text(asked_member(pool, source.u2()))
        self.attributes = attributes(source, pool, kind)


def asked_member(pool, index):
    if not pool.is_a(index, {1}):
        raise Fault("pool index %d" % index)
    return index


class ClassFile:
    def __init__(self, data):
        if len(data) > LARGEST:
            raise Fault("too-large")
        try:
            self.read(Bytes(data))
        except Cut:
            raise Fault("cut %d" % len(data)) from None

    def read(self, source):
        if source.u4() != 0xCAFEBABE:
            raise Fault("magic")
        both = source.u4()
        if both != 52:
            raise Fault("version %d %d" % (both & 0xFFFF, both >> 16))
        self.pool = pool = Pool(source)
        self.flags = source.u2()
        self.name = pool.class_name(self.asked_class(source.u2()))
        self.superclass = pool.class_name(self.asked_class(source.u2()))
        self.interfaces = [pool.class_name(self.asked_class(source.u2())) for _ in range(source.u2())]
        self.fields = [Member(source, pool, "field") for _ in range(source.u2())]
        self.methods = []
        for _ in range(source.u2()):
            method = Member(source, pool, "method")
            has_none = method.flags & (NATIVE | ABSTRACT) != 0
            if has_none == ("Code" in method.attributes):
                raise Fault("code " + method_written(method.name, method.descriptor))
            self.methods.append(method)
        self.attributes = attributes(source, pool, "class")
        if source.at != len(source.data):
            raise Fault("extra %d" % source.at)

    def asked_class(self, index):
        if not self.pool.is_a(index, {7}):
            raise Fault("pool index %d" % index)
        return index
