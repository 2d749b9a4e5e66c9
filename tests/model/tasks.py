"""Tasks: what is to be done at a moment that a command said.

They are done in the order of their moments, and those of one moment in the order of their numbers. There are at
most 1,024. Numbers count from 1 and are given once: a task that is refused draws none. All tasks together are one
job more, which has the least number of all and does one task in an entry; it does not count to the jobs that there
may be.
"""

from dataclasses import dataclass

from variables import read_number

MOST_TASKS = 1024


@dataclass(frozen=True)
class Task:
    """What it does is told its group, by which it can be deleted."""

    moment: int
    number: int
    group: str
    what: object


class Tasks:
    def __init__(self):
        self.waiting = []
        self.added = 0

    def add(self, moment, group, what):
        """The number of the new task, or nothing where there are as many as there may be."""
        if len(self.waiting) == MOST_TASKS:
            return None
        self.added += 1
        self.waiting.append(Task(moment, self.added, group, what))
        self.waiting.sort(key=lambda task: (task.moment, task.number))
        return self.added

    def delete(self, key):
        """All tasks of the group go, and the one of the number. It says how many these are."""
        number = read_number(key)
        kept = [task for task in self.waiting if task.group != key and task.number != number]
        deleted = len(self.waiting) - len(kept)
        self.waiting = kept
        return deleted

    def due(self, now):
        """The moment of the first task, if there is one."""
        return max(now, self.waiting[0].moment) if self.waiting else None

    def work(self, switch):
        task = self.waiting.pop(0)
        task.what.do(switch, task.group)
