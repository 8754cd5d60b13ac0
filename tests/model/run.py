#!/usr/bin/env python3
"""The journal of a run by one worker, by a model of the schedule that was written apart from the program: ready tasks stand in a
list, the first one runs until it waits, yields or ends; a start and a yield stand behind. A put wakes the first that waits at its mailbox
for a message, a take the first that waits there for room.

    tests/model/run.py --main=NAME [--workers=W] [--steps=N] FILE.. [-- INT..]
"""
import collections
import sys

from machine import MOST_TASKS, Program, Thread, plain, shape

STEPS = 1000000


class Run:
    def __init__(self, program, main, steps, args):
        self.program, self.steps, self.args = program, steps, args
        self.lines, self.queues, self.waiting, self.puts, self.takes, self.bounds, self.kept = [], {}, {}, {}, {}, {}, {}
        first = Thread(program, 0, steps, args)
        first.boot(main)
        self.threads, self.ready = [first], collections.deque([0])

    def queue(self, box):
        return self.queues.setdefault(box, collections.deque())

    def is_full(self, box):
        return box in self.bounds and len(self.queue(box)) >= self.bounds[box]

    def run(self):
        while self.ready:
            self.lend(self.threads[self.ready.popleft()])
        waits = [(task, box) for (_, box), tasks in self.waiting.items() for task in tasks]
        for task, box in sorted(waits, key=lambda wait: wait[0]):
            self.lines.append("%d waits %s" % (task, box))
        return self.lines

    def say(self, thread, text):
        self.lines.append("%d %s" % (thread.number, text))

    def lend(self, thread):
        """Runs one task until it rests or ends."""
        while True:
            # a task that waited for room makes the same put again, and asks nothing of its message
            action = self.kept.pop(thread.number, None) or thread.next()
            word = action[0]
            if word == "end":
                return self.say(thread, "end " + action[1])
            if word == "large":
                return self.say(thread, "end large")
            if word == "yield":
                thread.answered()
                return self.ready.append(thread.number)
            if word == "take" and not self.queue(action[1]) or word == "putw" and self.is_full(action[1]):
                self.kept[thread.number] = action
                return self.waiting.setdefault((word, action[1]), collections.deque()).append(thread.number)
            if not self.act(thread, action):
                return None

    def act(self, thread, action):
        word = action[0]
        if word == "print":
            self.say(thread, "print " + plain(action[1]))
            thread.answered()
        elif word == "put" and self.is_full(action[1]):
            self.say(thread, "end full")
            return False
        elif word in ("put", "putw"):
            self.put(thread, *action[1:])
        elif word == "bound":
            self.bounds[action[1]] = action[2]
            self.say(thread, "bound %s %d" % action[1:])
            thread.answered()
        elif word == "start":
            return self.start(thread, action[1])
        else:
            self.take(thread, action[1])
        return True

    def put(self, thread, box, message):
        number = self.puts[box] = self.puts.get(box, -1) + 1
        self.say(thread, "put %s #%d %s" % (box, number, shape(self.program, message)))
        self.queue(box).append(message)
        self.wake("take", box)
        thread.answered()

    def wake(self, word, box):
        """The first task that waits at a mailbox for a message, or for room, stands behind those that are ready."""
        if self.waiting.get((word, box)):
            self.ready.append(self.waiting[word, box].popleft())

    def take(self, thread, box):
        if not self.queue(box):
            self.say(thread, "empty %s" % box)
            return thread.answered(None)
        number = self.takes[box] = self.takes.get(box, -1) + 1
        self.say(thread, "take %s #%d" % (box, number))
        thread.answered(self.queue(box).popleft())
        self.wake("putw", box)

    def start(self, thread, root):
        if len(self.threads) == MOST_TASKS:
            self.say(thread, "end tasks")
            return False
        task = Thread(self.program, len(self.threads), self.steps, self.args)
        task.begin(root)
        self.threads.append(task)
        self.ready.append(task.number)
        self.say(thread, "start %d %s" % (task.number, shape(self.program, root)))
        thread.answered()
        return True


def words_read(words):
    """Main class, steps, arguments and files."""
    main, steps = None, STEPS
    args = [int(w) for w in words[words.index("--") + 1:]] if "--" in words else []
    files = words[:words.index("--")] if "--" in words else list(words)
    while files and files[0].startswith("--"):
        name, value = files.pop(0).split("=")
        main = value if name == "--main" else main
        steps = int(value) if name == "--steps" else steps
    return main, steps, args, files


def main():
    words = [w for w in sys.argv[1:] if w != "run"]
    name, steps, args, files = words_read(words)
    program = Program([open(file, "rb").read() for file in files])
    sys.stdout.write("".join(line + "\n" for line in Run(program, name, steps, args).run()))


if __name__ == "__main__":
    main()
