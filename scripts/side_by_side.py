"""Runs tasks side by side: each after the tasks that it waits for, and first the one with the longest chain of tasks after it.

A task gets jobs, which are the processors that it may use. The task that leads the longest chain gets more of them, since everything else
ends before that chain does."""
import dataclasses
from concurrent.futures import FIRST_COMPLETED, Future, ThreadPoolExecutor, wait
from typing import Callable, Dict, List

# A prover gains little from more jobs, and each costs more time of a processor.
MOST_JOBS = 4
# If so few tasks are left for each processor, fewer tasks than processors will soon run. Therefore each gets two jobs.
LAST_TASKS = 2


@dataclasses.dataclass(frozen=True)
class Task:
    """A piece of work. `run` gets the number of jobs and returns whether the work succeeded."""

    name: str
    waits_for: List[str]
    work: float
    run: Callable[[int], bool]
    most_jobs: int = MOST_JOBS


def chains(tasks: List[Task]) -> Dict[str, float]:
    """Returns for each task the work of the longest chain that begins with it. A task comes after those that it waits for."""
    longest = {task.name: task.work for task in tasks}
    own = dict(longest)
    for task in reversed(tasks):
        for below in task.waits_for:
            longest[below] = max(longest[below], own[below] + longest[task.name])
    return longest


def jobs_for(leads: bool, idle: int, ready: int, processors: int) -> int:
    """Returns how many jobs a task gets, if `ready` tasks can start now, including this one."""
    if not leads:
        return max(1, idle // ready)
    # The other tasks that can start get a processor each. The chain gets half of all processors in any case, also if fewer are idle:
    # it ends last, so it is better that two tasks share a processor for a while.
    return max(1, idle - (ready - 1), processors // 2)


class SideBySide:
    """A run of tasks on some processors. At most `in_memory` jobs fit into memory. It starts no task after one has failed."""

    def __init__(self, tasks: List[Task], processors: int, in_memory: int) -> None:
        self.left, self.processors, self.in_memory = list(tasks), processors, in_memory
        self.longest = chains(tasks)
        self.left.sort(key=lambda task: -self.longest[task.name])
        self.done: set = set()
        self.running: Dict[Future, tuple] = {}

    def start(self, pool: ThreadPoolExecutor) -> None:
        """Starts the tasks that can start now, while there are idle processors. The last tasks share processors, if memory allows."""
        ready = [task for task in self.left if self.done.issuperset(task.waits_for)]
        has_memory = self.in_memory >= 2 * self.processors
        may_share = has_memory and len(self.left) + len(self.running) <= LAST_TASKS * self.processors
        for at, task in enumerate(ready):
            idle = self.processors - sum(jobs for _, jobs in self.running.values())
            if idle <= 0 and not (may_share and len(self.running) < self.processors):
                return
            others = [it for it in self.left if it is not task] + [it for it, _ in self.running.values()]
            leads = all(self.longest[task.name] >= self.longest[it.name] for it in others)
            jobs = max(jobs_for(leads, idle, len(ready) - at, self.processors), 2 if may_share else 1)
            jobs = min(jobs, task.most_jobs)
            self.left.remove(task)
            self.running[pool.submit(task.run, jobs)] = task, jobs

    def run(self) -> bool:
        """Returns whether every task succeeded. After a failure it waits for no other task."""
        pool = ThreadPoolExecutor(self.processors)
        try:
            while self.left or self.running:
                self.start(pool)
                for ended in wait(self.running, return_when=FIRST_COMPLETED).done:
                    task, _ = self.running.pop(ended)
                    if not ended.result():
                        return False
                    self.done.add(task.name)
            return True
        finally:
            pool.shutdown(wait=False)
