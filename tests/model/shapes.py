"""Class files of shapes that ask much of a checker, though they are small: many locals and instructions that do nothing, and many shape
graphs before straight code. Each shape is a list of (name, bytes)."""
import struct


class Pool:
    """A constant pool (JVMS 4.4), each entry once."""

    def __init__(self):
        self.entries, self.numbers = [], {}

    def entry(self, tag, data):
        key = (tag, data)
        if key not in self.numbers:
            self.entries.append(bytes([tag]) + data)
            self.numbers[key] = len(self.entries)
        return self.numbers[key]

    def text(self, text):
        data = text.encode("ascii")
        return self.entry(1, struct.pack(">H", len(data)) + data)

    def class_(self, name):
        return self.entry(7, struct.pack(">H", self.text(name)))

    def method(self, owner, name, descriptor):
        named = self.entry(12, struct.pack(">HH", self.text(name), self.text(descriptor)))
        return self.entry(10, struct.pack(">HH", self.class_(owner), named))


def attribute(pool, name, data):
    return struct.pack(">HI", pool.text(name), len(data)) + data


def method(pool, access, name, descriptor, stack, local_slots, code, frames=()):
    """A method with code (JVMS 4.6, 4.7.3)."""
    table = attribute(pool, "StackMapTable", struct.pack(">H", len(frames)) + b"".join(frames)) if frames else b""
    body = struct.pack(">HHI", stack, local_slots, len(code)) + code + struct.pack(">HH", 0, 1 if frames else 0) + table
    return struct.pack(">HHHH", access, pool.text(name), pool.text(descriptor), 1) + attribute(pool, "Code", body)


def class_file(pool, name, methods, interfaces=()):
    """A public class below java/lang/Object with a constructor and these methods."""
    code = b"\x2a\xb7" + struct.pack(">H", pool.method("java/lang/Object", "<init>", "()V")) + b"\xb1"
    methods = [method(pool, 1, "<init>", "()V", 1, 1, code), *methods]
    head = struct.pack(">HHH", 0x21, pool.class_(name), pool.class_("java/lang/Object"))
    names = b"".join(struct.pack(">H", pool.class_(it)) for it in interfaces)
    body = head + struct.pack(">H", len(interfaces)) + names + struct.pack(">HH", 0, len(methods)) + b"".join(methods) + b"\0\0"
    return struct.pack(">IHHH", 0xCAFEBABE, 0, 52, len(pool.entries) + 1) + b"".join(pool.entries) + body


def many_locals(local_slots, count):
    """A static method with so many locals and so many `nop`."""
    pool = Pool()
    return [("A.class", class_file(pool, "A", [method(pool, 9, "m", "()V", 0, local_slots, b"\0" * count + b"\xb1")]))]


def on_slot(short, slot):
    """An instruction of a local, in its wide form where that is needed."""
    return bytes([short, slot]) if slot < 256 else b"\xc4" + struct.pack(">BH", short, slot)


def new_object(pool, slot):
    """A new N into a local: four instructions."""
    made = struct.pack(">H", pool.class_("N")) + b"\x59\xb7" + struct.pack(">H", pool.method("N", "<init>", "()V"))
    return b"\xbb" + made + on_slot(0x3a, slot)


def of_sum(pool, slot):
    """A sum into a local: four instructions."""
    return b"\x1b\x08\x60" + on_slot(0x36, slot)


def full_frame(pool, delta, types):
    tags = [b"\x01" if it == "int" else b"\x07" + struct.pack(">H", pool.class_(it)) for it in types]
    return b"\xff" + struct.pack(">HH", delta, len(tags)) + b"".join(tags) + b"\0\0"


def many_graphs(ifs, count, is_fresh, straight):
    """`static void m(N p, int c)` with so many `if (c == i) a = p; else a = new N();`, each of another variable, and then so many instructions
    of straight code, four by four, into the same local or into a fresh one each time."""
    pool, code, places, types = Pool(), bytearray(), [], ["N", "int"]
    for number in range(ifs):
        slot = 2 + number
        code += b"\x1b\x10" + bytes([number])
        branch = len(code)
        code += b"\xa0\0\0\x2a" + bytes([0x3a, slot])
        leap = len(code)
        code += b"\xa7\0\0"
        code[branch + 1:branch + 3] = struct.pack(">h", len(code) - branch)
        places.append((len(code), list(types)))
        code += new_object(pool, slot)
        code[leap + 1:leap + 3] = struct.pack(">h", len(code) - leap)
        types.append("N")
        places.append((len(code), list(types)))
    slot = 2 + ifs
    for _ in range(count // 4):
        code += straight(pool, slot)
        slot += is_fresh
    deltas = [place - (places[at - 1][0] + 1 if at else 0) for at, (place, _) in enumerate(places)]
    frames = [full_frame(pool, delta, it) for delta, (_, it) in zip(deltas, places)]
    made = method(pool, 9, "m", "(LN;I)V", 4, slot + 1, bytes(code) + b"\xb1", frames)
    return [("A.class", class_file(pool, "A", [made])), ("N.class", class_file(Pool(), "N", [], ["kilim/Message"]))]


def shapes():
    """All shapes by name."""
    out = {}
    for local_slots in (255, 4096, 65535):
        for count in (100, 10000, 65000):
            out["%d locals, %d nop" % (local_slots, count)] = many_locals(local_slots, count)
    for ifs in (7, 8):
        for count in (200, 3200, 12000):
            graphs = "%d graphs, %d instructions" % (1 << ifs, count)
            out[graphs + " of sums"] = many_graphs(ifs, count, True, of_sum)
            out[graphs + " of objects"] = many_graphs(ifs, count, False, new_object)
        out["%d graphs, 1600 instructions of objects, each kept" % (1 << ifs)] = many_graphs(ifs, 1600, True, new_object)
    return out
