"""The lines of `block_table` on graphs of tasks, and their answers, by Python's own sorting and sets.

A visit of a key that isn't numbered yet visits its dependencies in ascending order, then numbers the key. A culled graph
keeps the wanted keys and all that they depend on, in their old order. Under new numbers the dependencies of a key are
sorted again, and its operation names their new places.
"""
import random


def text(numbers):
    return ",".join(map(str, numbers)) if numbers else "()"


def depth_first(deps, wanted):
    order, seen = [], set()

    def visit(key):
        if key in seen:
            return
        for dep in sorted(deps[key]):
            visit(dep)
        seen.add(key)
        order.append(key)

    for key in wanted:
        visit(key)
    return order


def needed(deps, wanted):
    found, todo = set(), list(wanted)
    while todo:
        key = todo.pop()
        if key not in found:
            found.add(key)
            todo += deps[key]
    return sorted(found)


def numbers(deps, order):
    new = {old: number for number, old in enumerate(order)}
    return f" order {text(order)} numbers" + "".join(f" {new.get(k, '-')}" for k in range(len(deps)))


def graph(deps, order):
    new = {old: number for number, old in enumerate(order)}
    parts = []
    for old in order:
        keys = sorted((new[dep], place) for place, dep in enumerate(deps[old]))
        places = {place: number for number, (_, place) in enumerate(keys)}
        inputs = "".join(f" {deps[old][place] + 1}" for _, place in keys)
        operands = f" left {places[0]} right {places[1]}" if len(keys) == 2 else ""
        parts.append(f"; {text([key for key, _ in keys])}{operands} of{inputs}")
    return "".join(parts)


def line(word, deps, wanted):
    return f"graph {word} {len(deps)} {' '.join(map(text, deps))} {text(wanted)}"


def both(deps, wanted):
    order, kept = depth_first(deps, wanted), needed(deps, wanted)
    yield line("order", deps, wanted), numbers(deps, order)
    yield line("keep", deps, wanted), numbers(deps, kept)
    yield line("renumber", deps, wanted), graph(deps, order)
    yield line("cull", deps, wanted), graph(deps, kept)


def lines():
    yield from both([[], [], [0, 1], [2]], [3])
    yield from both([[], [], [0, 1], [1]], [3, 2])
    yield from both([[], [0], [], [1, 2], [0, 2]], [4, 1])
    yield from both([[], []], [])
    yield from both([[], [], [], [0, 1, 2], [1, 2]], [4, 3, 4])
    chance = random.Random(24)
    for _ in range(12):
        deps = [sorted(chance.sample(range(key), chance.randrange(min(key, 3) + 1))) for key in range(chance.randrange(1, 9))]
        yield from both(deps, [chance.randrange(len(deps)) for _ in range(chance.randrange(3))])
    for deps, task, answer in [
        ([], [0], " dependency 0"),
        ([[], []], [1, 0], " dependency 0"),
        ([[], []], [0, 0], " dependency 0"),
        ([[], []], [0, 2], " dependency 2"),
        ([[], []], [0, 1], " key 2"),
        ([[], []], [], " key 2"),
    ]:
        yield line("push", deps, task), answer
