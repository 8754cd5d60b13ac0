"""The lines of a journal: which text is one. Written apart from the program."""
import re

CAUSES = ("done", "spent", "depth", "null", "index", "size", "large", "cast", "store", "zero", "boxes", "tasks", "full", "thrown")
NUMBER = "(?:0|[1-9][0-9]*)"
BOX = "%s\\.%s" % (NUMBER, NUMBER)
OPEN = re.compile(r"((?:[A-Za-z0-9_$/\[;]|\\u[0-9a-f]{4})*)\(")
TEXT = re.compile(r'"((?:[ !#-\[\]-~]|\\u[0-9a-f]{4})*)"')
SIGNED = re.compile(r"(0|-?[1-9][0-9]*)(L?)")
HELD = re.compile("@(%s)" % BOX)
ESCAPE = re.compile(r"\\u([0-9a-f]{4})")
SHAPED = re.compile("put (%s) #(%s) |start (%s) |print " % (BOX, NUMBER, NUMBER))
OTHERS = re.compile("take (%s) #(%s)|(?:empty|waits) (%s)|end (?:%s)|bound (%s) (%s)" % (BOX, NUMBER, BOX, "|".join(CAUSES), BOX, NUMBER))


def fits(number, bits):
    return int(number) < 1 << bits


def is_box(text):
    return all(fits(number, 32) for number in text.split("."))


def escapes_others(text, stands):
    """Whether no unit is escaped that stands for itself."""
    return not any(stands(int(digits, 16)) for digits in ESCAPE.findall(text))


def in_name(unit):
    return unit < 128 and (chr(unit).isalnum() or chr(unit) in "_$/[;")


def in_text(unit):
    return 0x20 <= unit <= 0x7E and unit not in (0x22, 0x5C)


def plain_end(text, at):
    """The place behind a value that is no object, or None."""
    if text.startswith("null", at):
        return at + 4
    for form, holds in ((SIGNED, lambda m: -(1 << (63 if m[2] else 31)) <= int(m[1]) < 1 << (63 if m[2] else 31)),
                        (TEXT, lambda m: escapes_others(m[1], in_text)), (HELD, lambda m: is_box(m[1]))):
        found = form.match(text, at)
        if found:
            return found.end() if holds(found) else None
    return None


def is_value(text):
    """Whether a text is that of one value."""
    at = begun = 0
    while True:
        found = OPEN.match(text, at)
        if found:
            if not escapes_others(found[1], in_name):
                return False
            at, begun = found.end(), begun + 1
            if text[at:at + 1] != ")":
                continue
        else:
            at = plain_end(text, at)
            if at is None:
                return False
        while begun and text[at:at + 1] == ")":
            at, begun = at + 1, begun - 1
        if not begun:
            return at == len(text)
        if text[at:at + 1] != ",":
            return False
        at += 1


def is_act(act):
    found = SHAPED.match(act)
    if found:
        box, number, task = found.groups()
        shape = act[found.end():]
        numbers = (box is None or is_box(box) and fits(number, 64)) and (task is None or fits(task, 32))
        return numbers and is_value(shape) and bool(OPEN.match(shape)) != act.startswith("print ")
    found = OTHERS.fullmatch(act)
    if not found:
        return False
    taken, number, held, bound, most = found.groups()
    return all(is_box(box) for box in (taken, held, bound) if box) and (number is None or fits(number, 64)) and (most is None or fits(most, 32))


def is_line(line):
    task, space, act = line.partition(" ")
    return bool(space) and bool(re.fullmatch(NUMBER, task)) and fits(task, 32) and is_act(act)


def bad_line(text):
    """The first line of a text that is no entry's, from 1 on; bytes behind the last line feed are a line of their own. Or None."""
    *lines, rest = text.split("\n")
    return next((number for number, line in enumerate(lines, 1) if not is_line(line)), len(lines) + 1 if rest else None)
