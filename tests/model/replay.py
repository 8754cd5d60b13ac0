#!/usr/bin/env python3
"""What is so of a journal: that it is that of a whole run, or what is wrong with it first. Replayed in its order, the threads of the class
files, over one shared heap, do exactly these puts, takes, starts, prints and ends, and at the end those that are left wait as it says.
Written apart from the program.

    tests/model/replay.py JOURNAL --main=NAME [--workers=W] [--steps=N] FILE.. [-- INT..]
"""
import collections
import sys

from lines import bad_line
from machine import MOST_TASKS, Program, Thread, is_large, plain, shape
from run import words_read


class Replay:
    def __init__(self, program, main, steps, args):
        self.program, self.steps, self.args = program, steps, args
        first = Thread(program, 0, steps, args)
        first.boot(main)
        self.threads, self.pending, self.ended = [first], {}, set()
        self.queues, self.puts, self.bounds = collections.defaultdict(collections.deque), collections.Counter(), {}

    def next(self, task):
        """What a thread does next, behind its yields."""
        if task not in self.pending:
            thread = self.threads[task]
            action = thread.next()
            while action[0] == "yield":
                thread.answered()
                action = thread.next()
            self.pending[task] = action
        return self.pending[task]

    def is_full(self, box):
        return box in self.bounds and len(self.queues[box]) >= self.bounds[box]

    def waits(self, action):
        """Whether an action has to wait. The tree of a put may have become too large meanwhile: then it ends its task instead."""
        if action[0] == "putw":
            return self.is_full(action[1]) and not is_large(action[2])
        return action[0] == "take" and not self.queues[action[1]]

    def verdict(self, lines):
        """What is so of a journal, as `kilim replay` writes it, without the line feed."""
        closing = next((k for k, line in enumerate(lines) if line.split(" ")[1] == "waits"), len(lines))
        for number, line in enumerate(lines[:closing], 1):
            task = int(line.split(" ", 1)[0])
            if task >= len(self.threads):
                return "replay %d absent" % number
            if task in self.ended:
                return "replay %d ended" % number
            action = self.next(task)
            if self.waits(action):
                return "replay %d waits" % number
            own = "%d %s" % (task, self.done(task, action))
            if own != line:
                return "replay %d made %s" % (number, own)
        return self.closed(lines[closing:], closing + 1)

    def closed(self, closing, behind):
        """The same behind the last entry, which stands before that line: who waits, and whether the closing lines say so."""
        actions = {task: self.next(task) for task in range(len(self.threads)) if task not in self.ended}
        for task, action in actions.items():
            if not self.waits(action):
                return "replay %d goes %d" % (behind, task)
        wanted = ["%d waits %s" % (task, action[1]) for task, action in actions.items()]
        if wanted == closing:
            return "whole %d" % (behind - 1 + len(closing))
        same = next((k for k, pair in enumerate(zip(wanted, closing)) if pair[0] != pair[1]), min(len(wanted), len(closing)))
        return "replay %d rest" % (behind + same)

    def done(self, task, action):
        """Does an action, and gives its text."""
        thread = self.threads[task]
        word = action[0]
        if word in ("end", "large") or word == "start" and len(self.threads) == MOST_TASKS or word == "put" and self.is_full(action[1]):
            self.ended.add(task)
            return "end " + {"end": action[1], "large": "large", "start": "tasks", "put": "full"}[word]
        del self.pending[task]
        if word == "print":
            thread.answered()
            return "print " + plain(action[1])
        if word == "bound":
            self.bounds[action[1]] = action[2]
            thread.answered()
            return "bound %s %d" % action[1:]
        if word in ("put", "putw"):
            return self.put(thread, *action[1:])
        if word == "start":
            return self.start(thread, action[1])
        return self.take(thread, action[1])

    def put(self, thread, box, message):
        text = "put %s #%d %s" % (box, self.puts[box], shape(self.program, message))
        self.queues[box].append((self.puts[box], message))
        self.puts[box] += 1
        thread.answered()
        return text

    def take(self, thread, box):
        if not self.queues[box]:
            thread.answered(None)
            return "empty %s" % box
        number, message = self.queues[box].popleft()
        thread.answered(message)
        return "take %s #%d" % (box, number)

    def start(self, thread, root):
        task = Thread(self.program, len(self.threads), self.steps, self.args)
        text = "start %d %s" % (task.number, shape(self.program, root))
        task.begin(root)
        self.threads.append(task)
        thread.answered()
        return text


def verdict_of(program, main, steps, args, journal):
    """What is so of the text of a journal: `whole LINES`, or what is wrong with it first."""
    bad = bad_line(journal)
    return "journal %d" % bad if bad else Replay(program, main, steps, args).verdict(journal.split("\n")[:-1])


def fault_of(program, main, steps, args, journal):
    """What is wrong with a journal, or None."""
    verdict = verdict_of(program, main, steps, args, journal)
    return None if verdict.startswith("whole ") else verdict


def main():
    journal, words = sys.argv[1], [w for w in sys.argv[2:] if w != "run"]
    name, steps, args, files = words_read(words)
    with open(journal, encoding="ascii") as it:
        text = it.read()
    verdict = verdict_of(Program([open(file, "rb").read() for file in files]), name, steps, args, text)
    print(verdict)
    sys.exit(not verdict.startswith("whole "))


if __name__ == "__main__":
    main()
