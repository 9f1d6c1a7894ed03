"""Runs tasks side by side, each once those that it needs have ended."""
from concurrent.futures import FIRST_COMPLETED, ThreadPoolExecutor, wait

# More processes than these make no check faster.
MOST_JOBS = 4


def side_by_side(needs, work, processors, call):
    """Calls `call(task, jobs)`, which says whether it ended well, for each task; gives the tasks that were not done.

    needs: the tasks that each waits for; work: about how much there is to do in each. Of the tasks that are ready those
    come first behind which there is most to do. A task gets the processors that no other is ready for. When one ends
    badly, no other begins.
    """
    behind = way(needs, work)
    left, running, jobs_of = sorted(needs, key=lambda task: -behind[task]), {}, {}
    done = set()
    with ThreadPoolExecutor(processors) as pool:
        while left or running:
            ready = [task for task in left if done.issuperset(needs[task])]
            for place, task in enumerate(ready):
                idle = processors - sum(jobs_of[task] for task in running.values())
                if idle <= 0:
                    break
                jobs_of[task] = min(MOST_JOBS, max(1, idle // (len(ready) - place)))
                left.remove(task)
                running[pool.submit(call, task, jobs_of[task])] = task
            for ended in wait(running, return_when=FIRST_COMPLETED).done:
                task = running.pop(ended)
                if ended.result():
                    done.add(task)
                else:
                    left = []
    return set(needs) - done


def way(needs, work):
    """How much there is to do in a task and on the longest way of those that wait for it."""
    behind = dict.fromkeys(needs, 0)
    for task in reversed(in_order(needs)):
        behind[task] += work[task]
        for other in needs[task]:
            behind[other] = max(behind[other], behind[task])
    return behind


def in_order(needs):
    """The tasks, each behind those that it needs."""
    found = {}

    def visit(task):
        if task not in found:
            for other in needs[task]:
                visit(other)
            found[task] = True

    for task in needs:
        visit(task)
    return list(found)
