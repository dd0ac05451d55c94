"""Schedules to be timed, and the plant of many producers that one of them runs over."""
RESOURCES = 16
TASKS = 16
# A configuration has 64 instances: four of the tasks of each resource have one.
USED = 4


def rounds(count):
    """Over the counter and the watcher: in each round an evaluation, its delivery, and an evaluation that takes it."""
    lines = []
    for it in range(count):
        lines += [f"EVAL R1.FAST 10 %IX0={it % 2}", f"DELIVER {2 * it + 1} R2", "EVAL R2.SLOW 20"]
    return "\n".join(lines) + "\n"


def in_turn(resources, count, values):
    """Over a plant of so many resources of one task: an evaluation of each in turn, with so many values of the input by turns."""
    return "".join(f"EVAL R{it % resources}.T 1 %IX0={it // resources % values}\n" for it in range(count))


def plant_where(takes):
    """A plant of 16 resources of 16 tasks; each task that has an instance takes from one of each of the next resources."""
    inputs = [f"P{it}" for it in range(takes)]
    text = ["PROGRAM ALL", f"VAR_INPUT {', '.join(inputs)} : BOOL; END_VAR", "VAR_OUTPUT Q : BOOL; END_VAR"]
    text.append("|" + "".join(f"   {name:5}" for name in inputs) + "  Q")
    text.append("+" + "--|/|---" * takes + "-( )")
    text.append("END_PROGRAM")
    text.append("CONFIGURATION MESH")
    for resource in range(RESOURCES):
        text.append(f"  RESOURCE R{resource} ON NODE")
        text += [f"    TASK T{task}(INTERVAL := T#10ms, PRIORITY := {task});" for task in range(TASKS)]
        others = [(resource + it) % RESOURCES for it in range(1, takes + 1)]
        for task in range(USED):
            binds = ", ".join(f"{name} := R{other}.I{task}.Q" for name, other in zip(inputs, others))
            text.append(f"    PROGRAM I{task} WITH T{task} : ALL({binds});")
        text.append("  END_RESOURCE")
    return "\n".join(text + ["END_CONFIGURATION"]) + "\n"


def ringed():
    """Each of the tasks takes from one of the next resource."""
    return plant_where(1)


def meshed():
    """Each of the tasks takes from one of each other resource."""
    return plant_where(RESOURCES - 1)


def gossip(count):
    """Over the meshed plant: each evaluation is delivered to every other resource."""
    lines = []
    for it in range(count):
        resource = it % RESOURCES
        lines.append(f"EVAL R{resource}.T{it // RESOURCES % USED} 10")
        lines += [f"DELIVER {it + 1} R{other}" for other in range(RESOURCES) if other != resource]
    return "\n".join(lines) + "\n"
