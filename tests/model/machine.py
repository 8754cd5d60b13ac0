"""What a task does: one thread over a heap of objects, after the instructions of the Java Virtual Machine Specification (SE 8,
chapter 6) and the built-in classes of docs/DECISIONS.md. `Thread.next` runs instructions up to the next action and tells it;
who calls it says what the action gives. Written apart from the program, to say what it has to answer."""
import struct

from class_files import STATIC, ClassFile

DEEPEST, LONGEST, MOST_OBJECTS, MOST_BOXES, MOST_TASKS = 512, 1048576, 65536, 1000, 10000
PRIVATE = 0x2


def units(text):
    return tuple(map(ord, text))


def text_of(name):
    return "".join(map(chr, name))


class Box:
    """A mailbox, by its name."""
    __slots__ = ("task", "number")

    def __init__(self, task, number):
        self.task, self.number = task, number

    def __eq__(self, other):
        return isinstance(other, Box) and (self.task, self.number) == (other.task, other.number)

    def __hash__(self):
        return hash((self.task, self.number))

    def __str__(self):
        return "%d.%d" % (self.task, self.number)


class Long(int):
    """A long, which is told from an int."""
    __slots__ = ()


class Text(tuple):
    """A string, by its units."""
    __slots__ = ()


class Instance:
    __slots__ = ("klass", "fields")

    def __init__(self, klass):
        self.klass = klass
        self.fields = {(f.owner, f.name): Long(0) if f.descriptor == units("J") else 0 if len(f.descriptor) == 1 else None
                       for f in klass.all_fields}


class Array:
    __slots__ = ("type", "elements")

    def __init__(self, type_text, elements):
        self.type, self.elements = type_text, elements


class End(Exception):
    def __init__(self, cause):
        self.cause = cause


class Raised(Exception):
    """What an instruction raises: a class, of which an object is made where it is caught; or an object that is thrown."""

    def __init__(self, name, thrown=None):
        self.name, self.thrown = name, thrown


NULL, ZERO = "java/lang/NullPointerException", "java/lang/ArithmeticException"
SIZE, CAST, STORE = "java/lang/NegativeArraySizeException", "java/lang/ClassCastException", "java/lang/ArrayStoreException"
INDEX, ARRAY_INDEX = "java/lang/IndexOutOfBoundsException", "java/lang/ArrayIndexOutOfBoundsException"
TEXT_INDEX = "java/lang/StringIndexOutOfBoundsException"


CONSTRUCTORS = {"<init>()V", "<init>(Ljava/lang/String;)V"}
BUILT_IN = {
    "java/lang/Object": (None, {"<init>()V"}),
    "java/lang/String": ("java/lang/Object", {"length()I", "charAt(I)C", "equals(Ljava/lang/Object;)Z"}),
    "kilim/Message": ("java/lang/Object", set()),
    "kilim/Pausable": ("java/lang/Object", set()),
    "kilim/Task": ("java/lang/Object", {"<init>()V", "start()V", "execute()V"}),
    "kilim/Mailbox": ("java/lang/Object", {"<init>()V", "<init>(I)V", "put(Lkilim/Message;)V", "putw(Lkilim/Message;)V",
                                           "get()Lkilim/Message;", "getnb()Lkilim/Message;"}),
    "kilim/Sys": ("java/lang/Object", {"print(I)V", "print(J)V", "print(Ljava/lang/String;)V", "yield()V", "argCount()I", "arg(I)I",
                                       "take([Lkilim/Message;I)Lkilim/Message;"}),
    "java/lang/Throwable": ("java/lang/Object", {"<init>()V", "<init>(Ljava/lang/String;)V", "getMessage()Ljava/lang/String;"}),
    "java/lang/Exception": ("java/lang/Throwable", CONSTRUCTORS),
    "java/lang/RuntimeException": ("java/lang/Exception", CONSTRUCTORS),
    "java/lang/NullPointerException": ("java/lang/RuntimeException", CONSTRUCTORS),
    "java/lang/IndexOutOfBoundsException": ("java/lang/RuntimeException", CONSTRUCTORS),
    "java/lang/ArrayIndexOutOfBoundsException": ("java/lang/IndexOutOfBoundsException", CONSTRUCTORS),
    "java/lang/StringIndexOutOfBoundsException": ("java/lang/IndexOutOfBoundsException", CONSTRUCTORS),
    "java/lang/NegativeArraySizeException": ("java/lang/RuntimeException", CONSTRUCTORS),
    "java/lang/ClassCastException": ("java/lang/RuntimeException", CONSTRUCTORS),
    "java/lang/ArrayStoreException": ("java/lang/RuntimeException", CONSTRUCTORS),
    "java/lang/ArithmeticException": ("java/lang/RuntimeException", CONSTRUCTORS),
}

# with which word a task ends that throws an object of just that class; all others are `thrown`
WORDS = {
    "java/lang/NullPointerException": "null",
    "java/lang/IndexOutOfBoundsException": "index",
    "java/lang/ArrayIndexOutOfBoundsException": "index",
    "java/lang/StringIndexOutOfBoundsException": "index",
    "java/lang/NegativeArraySizeException": "size",
    "java/lang/ClassCastException": "cast",
    "java/lang/ArrayStoreException": "store",
    "java/lang/ArithmeticException": "zero",
}


class Method:
    def __init__(self, klass, name, descriptor, static=False, private=False, code=None, pool=None, max_locals=0, handlers=()):
        self.klass, self.name, self.descriptor, self.static, self.private = klass, name, descriptor, static, private
        self.signature = text_of(name + descriptor)
        self.bytes, self.pool, self.max_locals, self.handlers = code, pool, max_locals, handlers
        self.params = params_of(descriptor)
        self.result = text_of(descriptor[descriptor.index(ord(")")) + 1:])
        self.built_in = code is None
        self.decoded = {}


# the name and the descriptor of what an exception says
MESSAGE = (units("message"), units("Ljava/lang/String;"))


class Field:
    def __init__(self, owner, name, descriptor):
        self.owner, self.name, self.descriptor = owner, name, descriptor


class Class:
    def __init__(self, name, superclass, interfaces):
        self.name, self.superclass, self.interfaces = name, superclass, interfaces
        self.methods, self.fields, self.statics, self.all_fields = {}, [], {}, []


def handlers_of(pool, code):
    """The rows of an exception table, the class that is caught by its name, or None."""
    return [(start, end, at, text_of(pool.class_name(catch)) if catch else None) for start, end, at, catch in code.handlers]


def params_of(descriptor):
    out, text, at = [], text_of(descriptor), 1
    while text[at] != ")":
        begun = at
        while text[at] == "[":
            at += 1
        at = text.index(";", at) + 1 if text[at] == "L" else at + 1
        out.append(text[begun:at])
    return out


class Program:
    """Class files that link."""

    def __init__(self, files):
        self.classes = {}
        for name, (superclass, signatures) in BUILT_IN.items():
            klass = self.classes[name] = Class(name, superclass, [])
            for signature in signatures:
                at = signature.index("(")
                klass.methods[signature] = Method(klass, units(signature[:at]), units(signature[at:]), static=name == "kilim/Sys")
        self.classes["java/lang/Throwable"].fields.append(Field("java/lang/Throwable", *MESSAGE))
        for data in files:
            self.add(data if isinstance(data, ClassFile) else ClassFile(data))
        for klass in self.classes.values():
            klass.all_fields = [f for above in reversed(self.line(klass)) for f in above.fields]

    def add(self, file):
        klass = self.classes[text_of(file.name)] = Class(text_of(file.name), text_of(file.superclass), list(map(text_of, file.interfaces)))
        for f in file.fields:
            index = f.attributes.get("ConstantValue")
            if f.flags & STATIC:
                constant = file.pool.constant(index)
                constant = Long(constant) if f.descriptor == units("J") else Text(constant) if isinstance(constant, tuple) else constant
                klass.statics[f.name, f.descriptor] = constant
            else:
                klass.fields.append(Field(klass.name, f.name, f.descriptor))
        for m in file.methods:
            code = m.attributes.get("Code")
            method = Method(klass, m.name, m.descriptor, m.flags & STATIC != 0, m.flags & PRIVATE != 0,
                            code.code if code else b"", file.pool, code.max_locals if code else 0, handlers_of(file.pool, code) if code else ())
            klass.methods[method.signature] = method

    def line(self, klass):
        """A class and those above it."""
        out = []
        while klass is not None:
            out.append(klass)
            klass = self.classes.get(klass.superclass)
        return out

    def method(self, owner, signature):
        return next(k.methods[signature] for k in self.line(self.classes[owner]) if signature in k.methods)

    def field_owner(self, owner, name, descriptor):
        for k in self.line(self.classes[owner]):
            if any(f.name == name and f.descriptor == descriptor for f in k.fields) or (name, descriptor) in k.statics:
                return k
        raise KeyError(text_of(name))

    def is_below(self, name, above):
        """Whether a class is, or is below, another one, or carries an interface."""
        return any(k.name == above or above in k.interfaces for k in self.line(self.classes[name]))

    def is_a(self, value, type_text):
        """Whether a value that isn't null is of a type: a class's name, or the text of an array's type."""
        own = type_of(value)
        return self.fits(own, type_text)

    def fits(self, own, wanted):
        if wanted == "java/lang/Object" or own == wanted:
            return True
        if own.startswith("["):
            if not wanted.startswith("["):
                return False
            one, other = own[1:], wanted[1:]
            if one[0] not in "L[" or other[0] not in "L[":
                return False
            return self.fits(inner(one), inner(other))
        return not wanted.startswith("[") and self.is_below(own, wanted)

    def main_is_fit(self, name):
        return name in self.classes and self.is_below(name, "kilim/Task") and "<init>()V" in self.classes[name].methods


def inner(element):
    return element[1:-1] if element[0] == "L" else element


def type_of(value):
    if isinstance(value, Instance):
        return value.klass.name
    if isinstance(value, Array):
        return value.type
    return "kilim/Mailbox" if isinstance(value, Box) else "java/lang/String"


def int32(n):
    return (n + 2 ** 31) % 2 ** 32 - 2 ** 31


def int64(n):
    return Long((n + 2 ** 63) % 2 ** 64 - 2 ** 63)


def narrowed(descriptor, value):
    """What a field, an element or a result of that type keeps of an int."""
    if descriptor == "Z":
        return value & 1
    if descriptor == "B":
        return (value + 128) % 256 - 128
    if descriptor == "C":
        return value & 0xFFFF
    if descriptor == "S":
        return (value + 32768) % 65536 - 32768
    return value


def quotient(a, b):
    q = abs(a) // abs(b)
    return q if (a < 0) == (b < 0) else -q


def same(a, b):
    """Whether two references are equal: strings by contents, mailboxes by name."""
    if isinstance(a, (Text, Box)) or isinstance(b, (Text, Box)):
        return type(a) is type(b) and a == b
    return a is b


def shape(program, root):
    """The text of a tree, which may be deep."""
    out, todo = [], [root]
    while todo:
        value = todo.pop()
        if isinstance(value, str):
            out.append(value)
        elif isinstance(value, Instance):
            names = [value.fields[f.owner, f.name] for f in value.klass.all_fields]
            pushed(out, todo, class_name(value.klass.name), names)
        elif isinstance(value, Array):
            pushed(out, todo, class_name(value.type), value.elements)
        else:
            out.append(plain(value))
    return "".join(out)


def pushed(out, todo, name, values):
    out.append(name + "(")
    todo.append(")")
    for k in range(len(values) - 1, -1, -1):
        todo.append(values[k] if values[k] is not None else "null")
        if k > 0:
            todo.append(",")


def plain(value):
    if value is None:
        return "null"
    if isinstance(value, Long):
        return "%dL" % value
    if isinstance(value, Box):
        return "@%s" % value
    if isinstance(value, Text):
        return '"%s"' % "".join(chr(u) if 0x20 <= u <= 0x7E and u not in (0x22, 0x5C) else "\\u%04x" % u for u in value)
    return "%d" % value


def class_name(name):
    return "".join(c if ord(c) < 128 and (c.isalnum() or c in "_$/[;") else "\\u%04x" % ord(c) for c in name)


def is_large(root):
    """Whether a tree has more than 65,536 objects, each as often as it is met."""
    met, todo = 0, [root]
    while todo:
        value = todo.pop()
        met += 1
        if met > MOST_OBJECTS:
            return True
        inside = value.fields.values() if isinstance(value, Instance) else value.elements
        todo.extend(v for v in inside if isinstance(v, (Instance, Array)))
    return False


class Frame:
    __slots__ = ("method", "pc", "at", "locals", "stack")

    def __init__(self, method, args):
        self.method, self.pc, self.at, self.stack, self.locals = method, 0, 0, [], []
        for a in args:
            self.locals.append(a)
            if isinstance(a, Long):
                self.locals.append(None)
        self.locals += [None] * (method.max_locals - len(self.locals))


class Thread:
    """A task, on objects that no other one has. An action is a tuple: a word, then what it is about."""

    def __init__(self, program, number, limits, args):
        self.program, self.number, self.limit, self.args = program, number, limits, args
        self.count, self.boxes, self.frames, self.begins = 0, 0, [], None

    def boot(self, main):
        """Task 0: a new object of the main class, its constructor, then its work."""
        root = Instance(self.program.classes[main])
        self.frames = [Frame(self.program.classes[main].methods["<init>()V"], [root])]
        self.begins = root

    def begin(self, root):
        method = self.program.method(type_of(root), "execute()V")
        self.frames = [] if method.built_in else [Frame(method, [root])]

    def next(self):
        """Runs up to the next action."""
        try:
            while True:
                if not self.frames:
                    return ("end", "done")
                if self.count == self.limit:
                    return ("end", "spent")
                try:
                    action = self.step()
                except Raised as raised:
                    self.count += 1
                    self.catch(raised)
                    continue
                if action is not None:
                    return action
        except End as end:
            return ("end", end.cause)

    def catch(self, raised):
        """Goes on at the first row that catches, of the top frame or of one below it, which stands at its call."""
        while self.frames:
            frame = self.frames[-1]
            for start, end, handler, caught in frame.method.handlers:
                if start <= frame.at < end and (caught is None or self.program.is_below(raised.name, caught)):
                    frame.stack = [raised.thrown if raised.thrown is not None else Instance(self.program.classes[raised.name])]
                    frame.pc = handler
                    return
            self.frames.pop()
        raise End(WORDS.get(raised.name, "thrown"))

    def answered(self, value=(), counts=True):
        """The action gave a value, or none; its instruction is done."""
        frame = self.frames[-1]
        if value != ():
            frame.stack.append(value)
        frame.pc = self.behind
        self.count += counts

    def step(self):
        frame = self.frames[-1]
        op, a, b, behind = decoded(frame.method, frame.pc)
        self.behind, frame.at = behind, frame.pc
        outcome = OPS[op](self, frame, a, b)
        if outcome is None:
            self.count += 1
            if self.frames and self.frames[-1] is frame:
                frame.pc = behind
            return None
        if isinstance(outcome, int):
            self.count += 1
            frame.pc = outcome
            return None
        return None if outcome == GONE else outcome

    def call(self, method, args):
        if len(self.frames) == DEEPEST:
            raise End("depth")
        self.frames[-1].pc = self.behind
        self.frames.append(Frame(method, args))
        self.count += 1
        return GONE

    def leave(self, value=()):
        method = self.frames.pop().method
        if value != () and isinstance(value, int) and not isinstance(value, Long):
            value = narrowed(method.result, value)
        self.count += 1
        if self.frames:
            if value != ():
                self.frames[-1].stack.append(value)
        elif self.begins is not None:
            root, self.begins = self.begins, None
            self.begin(root)
        return GONE


GONE = ("gone",)
OPS = {}
CODES = {}


def op(*numbers):
    def add(f):
        for n in numbers:
            OPS[n] = f
        return f
    return add


def decoded(method, pc):
    out = method.decoded.get(pc)
    if out is None:
        out = method.decoded[pc] = read(method, pc)
    return out


def read(method, pc):
    """An instruction's number, up to two operands, and the place behind it."""
    code = method.bytes
    n = code[pc]
    s2 = lambda at: struct.unpack(">h", code[at:at + 2])[0]
    u2 = lambda at: struct.unpack(">H", code[at:at + 2])[0]
    s4 = lambda at: struct.unpack(">i", code[at:at + 4])[0]
    if n == 16:
        return 16, struct.unpack("b", code[pc + 1:pc + 2])[0], None, pc + 2
    if n == 17:
        return 16, s2(pc + 1), None, pc + 3
    if 2 <= n <= 8:
        return 16, n - 3, None, pc + 1
    if n in (9, 10):
        return 16, Long(n - 9), None, pc + 1
    if n in (18, 19, 20):
        value = method.pool.constant(code[pc + 1] if n == 18 else u2(pc + 1))
        return 16, Text(value) if isinstance(value, tuple) else Long(value) if n == 20 else value, None, pc + (2 if n == 18 else 3)
    if 21 <= n <= 25:
        return 21, code[pc + 1], None, pc + 2
    if 26 <= n <= 45:
        return 21, (n - 26) % 4, None, pc + 1
    if 54 <= n <= 58:
        return (55 if n == 55 else 54), code[pc + 1], None, pc + 2
    if 59 <= n <= 78:
        return (55 if 63 <= n <= 66 else 54), (n - 59) % 4, None, pc + 1
    if n == 132:
        return 132, code[pc + 1], struct.unpack("b", code[pc + 2:pc + 3])[0], pc + 3
    if 153 <= n <= 167 or n in (198, 199):
        return n, pc + s2(pc + 1), None, pc + 3
    if n == 200:
        return 167, pc + s4(pc + 1), None, pc + 5
    if n in (170, 171):
        at = (pc + 4) // 4 * 4
        default = pc + s4(at)
        if n == 170:
            low, high = s4(at + 4), s4(at + 8)
            pairs = {low + k: pc + s4(at + 12 + 4 * k) for k in range(high - low + 1)}
            end = at + 12 + 4 * len(pairs)
        else:
            count = s4(at + 4)
            pairs = {s4(at + 8 + 8 * k): pc + s4(at + 12 + 8 * k) for k in range(count)}
            end = at + 8 + 8 * count
        return 170, pairs, default, end
    if n == 196:
        m = code[pc + 1]
        if m == 132:
            return 132, u2(pc + 2), s2(pc + 4), pc + 6
        return (21 if m < 54 else 55 if m == 55 else 54), u2(pc + 2), None, pc + 4
    if n in (178, 180, 181, 182, 183, 184):
        owner, name, descriptor = method.pool.member(u2(pc + 1))
        return n, text_of(owner), (name, descriptor), pc + 3
    if n in (187, 189, 192, 193):
        return n, text_of(method.pool.class_name(u2(pc + 1))), None, pc + 3
    if n == 188:
        return 188, {4: "[Z", 5: "[C", 8: "[B", 9: "[S", 10: "[I", 11: "[J"}[code[pc + 1]], None, pc + 2
    return n, None, None, pc + 1


@op(0)
def nop(t, f, a, b):
    pass


@op(1)
def aconst_null(t, f, a, b):
    f.stack.append(None)


@op(16)
def constant(t, f, a, b):
    f.stack.append(a)


@op(21)
def load(t, f, a, b):
    f.stack.append(f.locals[a])


@op(54)
def store(t, f, a, b):
    f.locals[a] = f.stack.pop()


@op(55)
def lstore(t, f, a, b):
    f.locals[a] = f.stack.pop()
    f.locals[a + 1] = None


def array_and_index(f):
    index, array = f.stack.pop(), f.stack.pop()
    if array is None:
        raise Raised(NULL)
    if not 0 <= index < len(array.elements):
        raise Raised(ARRAY_INDEX)
    return array, index


@op(46, 47, 50, 51, 52, 53)
def array_load(t, f, a, b):
    array, index = array_and_index(f)
    f.stack.append(array.elements[index])


@op(79, 80, 83, 84, 85, 86)
def array_store(t, f, a, b):
    value = f.stack.pop()
    array, index = array_and_index(f)
    element = array.type[1:]
    if element[0] in "L[":
        if value is not None and not t.program.is_a(value, inner(element)):
            raise Raised(STORE)
    else:
        value = narrowed(element, value)
    array.elements[index] = value


def words(value):
    return 2 if isinstance(value, Long) else 1


@op(87)
def pop(t, f, a, b):
    f.stack.pop()


@op(88)
def pop2(t, f, a, b):
    if words(f.stack.pop()) == 1:
        f.stack.pop()


def taken(stack, count):
    """The values of so many words on top."""
    out = []
    while count > 0:
        out.insert(0, stack.pop())
        count -= words(out[0])
    return out


def dup_form(size, below):
    def run(t, f, a, b):
        top = taken(f.stack, size)
        under = taken(f.stack, below)
        f.stack += top + under + top
    return run


for number, size, below in ((89, 1, 0), (90, 1, 1), (91, 1, 2), (92, 2, 0), (93, 2, 1), (94, 2, 2)):
    OPS[number] = dup_form(size, below)


@op(95)
def swap(t, f, a, b):
    f.stack[-1], f.stack[-2] = f.stack[-2], f.stack[-1]


def two(wrap, f):
    def run(t, frame, a, b):
        y, x = frame.stack.pop(), frame.stack.pop()
        frame.stack.append(wrap(f(int(x), int(y))))
    return run


def divided(f):
    def run(x, y):
        if y == 0:
            raise Raised(ZERO)
        return f(x, y)
    return run


ARITHMETIC = {96: lambda x, y: x + y, 100: lambda x, y: x - y, 104: lambda x, y: x * y, 108: divided(quotient),
              112: divided(lambda x, y: x - y * quotient(x, y)), 126: lambda x, y: x & y, 128: lambda x, y: x | y,
              130: lambda x, y: x ^ y}
for number, f in ARITHMETIC.items():
    OPS[number] = two(int32, f)
    OPS[number + 1] = two(int64, f)
OPS[120] = two(int32, lambda x, y: x << (y & 31))
OPS[121] = two(int64, lambda x, y: x << (y & 63))
OPS[122] = two(int32, lambda x, y: x >> (y & 31))
OPS[123] = two(int64, lambda x, y: x >> (y & 63))
OPS[124] = two(int32, lambda x, y: (x % 2 ** 32) >> (y & 31))
OPS[125] = two(int64, lambda x, y: (x % 2 ** 64) >> (y & 63))
OPS[148] = two(int32, lambda x, y: (x > y) - (x < y))


def one(f):
    def run(t, frame, a, b):
        frame.stack.append(f(int(frame.stack.pop())))
    return run


for number, f in {116: lambda x: int32(-x), 117: lambda x: int64(-x), 133: Long, 136: int32, 145: lambda x: narrowed("B", x),
                  146: lambda x: narrowed("C", x), 147: lambda x: narrowed("S", x)}.items():
    OPS[number] = one(f)


@op(132)
def iinc(t, f, a, b):
    f.locals[a] = int32(f.locals[a] + b)


COMPARED = (lambda x, y: x == y, lambda x, y: x != y, lambda x, y: x < y, lambda x, y: x >= y, lambda x, y: x > y, lambda x, y: x <= y)


def jump_if(pick, holds):
    def run(t, f, a, b):
        return a if holds(*pick(f)) else None
    return run


def pair(f):
    y = f.stack.pop()
    return f.stack.pop(), y


for k, holds in enumerate(COMPARED):
    OPS[153 + k] = jump_if(lambda f: (f.stack.pop(), 0), holds)
    OPS[159 + k] = jump_if(pair, holds)
OPS[165] = jump_if(pair, same)
OPS[166] = jump_if(pair, lambda x, y: not same(x, y))
OPS[198] = jump_if(lambda f: (f.stack.pop(),), lambda x: x is None)
OPS[199] = jump_if(lambda f: (f.stack.pop(),), lambda x: x is not None)


@op(167)
def goto(t, f, a, b):
    return a


@op(170)
def switch(t, f, a, b):
    return a.get(f.stack.pop(), b)


@op(172, 173, 176)
def value_return(t, f, a, b):
    return t.leave(f.stack.pop())


@op(177)
def plain_return(t, f, a, b):
    return t.leave()


@op(178)
def getstatic(t, f, a, b):
    f.stack.append(t.program.field_owner(a, *b).statics[b])


def held(value):
    if value is None:
        raise Raised(NULL)
    return value


@op(180)
def getfield(t, f, a, b):
    value = held(f.stack.pop())
    f.stack.append(value.fields[t.program.field_owner(a, *b).name, b[0]])


@op(181)
def putfield(t, f, a, b):
    value = f.stack.pop()
    target = held(f.stack.pop())
    target.fields[t.program.field_owner(a, *b).name, b[0]] = narrowed(text_of(b[1]), value)


def drop(f, count):
    if count:
        del f.stack[len(f.stack) - count:]


def called(t, f, method, receivers):
    """A call whose receiver, where there is one, lies below the arguments."""
    count = len(method.params) + receivers
    args = f.stack[len(f.stack) - count:] if count else []
    if method.built_in:
        return built_in(t, f, method, args)
    drop(f, count)
    return t.call(method, args)


@op(182, 183)
def invoke(t, f, a, b):
    name, descriptor = b
    count = len(params_of(descriptor))
    receiver = held(f.stack[-1 - count])
    signature = text_of(name + descriptor)
    method = t.program.method(a, signature)
    if decoded(f.method, f.pc)[0] == 182 and not method.private:
        method = t.program.method(type_of(receiver) if not isinstance(receiver, Array) else "java/lang/Object", signature)
    return called(t, f, method, 1)


@op(184)
def invokestatic(t, f, a, b):
    return called(t, f, t.program.method(a, text_of(b[0] + b[1])), 0)


def built_in(t, f, method, args):
    """What the built-in methods do. Those that ask the outside leave their arguments, which are dropped here, and tell the action."""
    word = method.signature
    owner = method.klass.name
    drop(f, len(args))
    if word in ("<init>()V", "execute()V"):
        return None
    if word == "<init>(Ljava/lang/String;)V":
        args[0].fields["java/lang/Throwable", MESSAGE[0]] = args[1]
        return None
    if word == "start()V":
        return ("large",) if is_large(args[0]) else ("start", args[0])
    if word == "getMessage()Ljava/lang/String;":
        f.stack.append(args[0].fields["java/lang/Throwable", MESSAGE[0]])
    elif word == "length()I":
        f.stack.append(len(args[0]))
    elif word == "charAt(I)C":
        if not 0 <= args[1] < len(args[0]):
            raise Raised(TEXT_INDEX)
        f.stack.append(args[0][args[1]])
    elif word.startswith("equals"):
        f.stack.append(int(isinstance(args[1], Text) and args[1] == args[0]))
    elif owner == "kilim/Mailbox":
        return of_mailbox(word, args)
    elif word.startswith("print"):
        return ("print", Long(args[0]) if word == "print(J)V" else args[0])
    elif word == "yield()V":
        return ("yield",)
    elif word == "argCount()I":
        f.stack.append(len(t.args))
    elif word == "arg(I)I":
        if not 0 <= args[0] < len(t.args):
            raise Raised(INDEX)
        f.stack.append(t.args[args[0]])
    else:
        if held(args[0]) is not None and not 0 <= args[1] < len(args[0].elements):
            raise Raised(ARRAY_INDEX)
        f.stack.append(args[0].elements[args[1]])
        args[0].elements[args[1]] = None
    return None


def of_mailbox(word, args):
    """The action of a mailbox's method. Whether a message is there, and how large its tree is, is asked before whether the mailbox is full."""
    if word == "<init>(I)V":
        if args[1] < 1:
            raise Raised(SIZE)
        return ("bound", args[0], args[1])
    if word.startswith("put"):
        if is_large(held(args[1])):
            raise End("large")
        return (word[:word.index("(")], args[0], args[1])
    return ("take" if word.startswith("get()") else "probe", args[0])


@op(187)
def new(t, f, a, b):
    if a == "kilim/Mailbox":
        if t.boxes == MOST_BOXES:
            raise End("boxes")
        f.stack.append(Box(t.number, t.boxes))
        t.boxes += 1
    else:
        f.stack.append(Instance(t.program.classes[a]))


def sized(f):
    size = f.stack.pop()
    if size < 0:
        raise Raised(SIZE)
    if size > LONGEST:
        raise End("large")
    return size


@op(188)
def newarray(t, f, a, b):
    f.stack.append(Array(a, [Long(0) if a == "[J" else 0] * sized(f)))


@op(189)
def anewarray(t, f, a, b):
    f.stack.append(Array("[" + (a if a.startswith("[") else "L%s;" % a), [None] * sized(f)))


@op(190)
def arraylength(t, f, a, b):
    f.stack.append(len(held(f.stack.pop()).elements))


@op(191)
def athrow(t, f, a, b):
    thrown = held(f.stack.pop())
    raise Raised(type_of(thrown), thrown)


@op(192)
def checkcast(t, f, a, b):
    if f.stack[-1] is not None and not t.program.is_a(f.stack[-1], a):
        raise Raised(CAST)


@op(193)
def instanceof(t, f, a, b):
    value = f.stack.pop()
    f.stack.append(int(value is not None and t.program.is_a(value, a)))
