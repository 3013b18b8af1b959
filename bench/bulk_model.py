#!/usr/bin/env python3
"""The summaries of generated loads, by a model of the rules that was written apart from the program.

    python3 bench/bulk_model.py [SEED TASKS ..]

prints a line for each pair, as a load of so many tasks is told; without words, the table of crates/cli_tests/src/loads.rt. Only the states of runs are modelled: the clock of a load stands still, so no claim ends by itself and
no deadline comes. The draws are those of the C standard's example of `rand`, modulo 2^31.
"""
import heapq
import sys


class Generator:
    def __init__(self, seed):
        self.x = seed % 2**31

    def draw(self):
        self.x = (self.x * 1103515245 + 12345) % 2**31
        return self.x // 65536


class Task:
    def __init__(self, priority, dependency):
        self.priority = priority
        self.dependency = dependency
        self.retries_left = 1
        self.runs = []


class Farm:
    def __init__(self):
        self.tasks = []
        self.waiting = {}  # a task, and those that wait for it
        self.pending = []  # (priority, number, task)
        self.numbers = 0

    def schedule(self, place):
        task = self.tasks[place]
        task.runs.append("pending")
        heapq.heappush(self.pending, (task.priority, self.numbers, place))
        self.numbers += 1

    def create(self, priority, dependency):
        place = len(self.tasks)
        self.tasks.append(Task(priority, dependency))
        if dependency is None or "completed" in self.tasks[dependency].runs:
            self.schedule(place)
        else:
            self.waiting.setdefault(dependency, []).append(place)

    def claim(self):
        if not self.pending:
            return None
        _, _, place = heapq.heappop(self.pending)
        self.tasks[place].runs[-1] = "running"
        return place

    def resolve(self, place, outcome):
        task = self.tasks[place]
        task.runs[-1] = outcome
        if outcome == "exception" and task.retries_left > 0:  # a worker that shut down
            task.retries_left -= 1
            self.schedule(place)
        if outcome == "completed":
            for waits in self.waiting.pop(place, []):
                self.schedule(waits)


def bulk(seed, tasks):
    generator = Generator(seed)
    farm = Farm()
    for number in range(tasks):
        draw = generator.draw()
        farm.create(draw % 7, number - 1 if number > 0 and draw % 3 == 0 else None)
    while True:
        place = farm.claim()
        if place is None:
            break
        farm.resolve(place, ["completed", "completed", "failed", "exception"][generator.draw() % 4])
    last = [task.runs[-1] if task.runs else "unscheduled" for task in farm.tasks]
    counts = " ".join(f"{state}={last.count(state)}" for state in ("completed", "failed", "exception", "unscheduled"))
    return f"tasks={tasks} {counts} runs={sum(len(task.runs) for task in farm.tasks)}"


if __name__ == "__main__":
    words = list(map(int, sys.argv[1:])) or [number for seed in range(5) for tasks in (0, 1, 2, 3, 50) for number in (seed, tasks)]
    for seed, tasks in zip(words[::2], words[1::2]):
        print(bulk(seed, tasks))
