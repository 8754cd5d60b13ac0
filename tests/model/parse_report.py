#!/usr/bin/env python3
"""The report of the stage that reads class files: of the first file that can't be read; nothing where all can be.

    tests/model/parse_report.py FILE..
"""
import sys

from class_files import ClassFile, Fault


def report(name, data):
    """The line of a file's fault, or None."""
    try:
        ClassFile(data)
    except Fault as fault:
        return "class %s %s" % (name, fault)
    return None


def main():
    for name in sys.argv[1:]:
        with open(name, "rb") as it:
            line = report(name, it.read())
        if line is not None:
            print(line)
            return


if __name__ == "__main__":
    main()
