"""When the tasks of a plant are due, and the schedule that does what is due in turns."""
from .refusal import Refusal
from .run import takes_from

MOST_ENTRIES = 100_000


def plan_of(plant, until):
    """Moment and task of each entry: the multiples of a task's interval, from the interval on, up to and with `until`."""
    tasks = plant.tasks()
    if sum(until // task.interval for task in tasks) > MOST_ENTRIES:
        raise Refusal("TooLong", None)
    due = [(moment, task) for task in tasks for moment in range(task.interval, until + 1, task.interval)]
    return sorted(due, key=lambda it: (it[0], it[1].priority, it[1].resource.place, it[1].place))


def schedule_of(plant, due):
    """The lines of a schedule: each task as it is due, a whole interval after the time before, and at once all others who take from it hear of it."""
    for message, (_, task) in enumerate(due, 1):
        yield f"EVAL {task.full_name} {task.interval}"
        for resource in plant.resources:
            if resource is not task.resource and takes_from(resource, task):
                yield f"DELIVER {message} {resource.name}"
