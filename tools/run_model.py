#!/usr/bin/env python3
"""What the program answers to a job: a model of its commands, written apart from the program, which it never runs.

Graphs are those of graph_model.py, simulations those of world_model.py, and blocks are NumPy's. Import it where NumPy is.
"""
import numpy as np

from cluster_model import Graph
from graph_model import Limit, Lowered, blocks, region
from world_model import Simulation, World


class ZeroDivide(Exception):
    pass


class Dividing:
    """NumPy, but for a divisor of 0, which stops it."""

    def __getattr__(self, name):
        return getattr(np, name)

    def floor_divide(self, *operands):
        return self.divided(np.floor_divide, *operands)

    def remainder(self, *operands):
        return self.divided(np.remainder, *operands)

    @staticmethod
    def divided(call, left, right):
        if np.broadcast(left, right).size and (np.asarray(right) == 0).any():
            raise ZeroDivide
        return call(left, right)


def source_arrays(job, inputs):
    """The arrays of nodes without operands, by number."""
    whole = {}
    for number, node in enumerate(job.nodes):
        if node.op == 'input':
            whole[number] = inputs[len([n for n in job.nodes[:number] if n.op == 'input'])]
        elif node.op in ('full', 'ramp'):
            count = int(np.prod(node.shape, dtype=np.int64))
            with np.errstate(over='ignore'):
                steps = np.arange(count, dtype=np.int64) * np.int64(node.fields['step'])
                whole[number] = (steps + np.int64(node.fields['start'])).reshape(node.shape)
    return whole


class Run:
    """A job's graph, and the block of each key: nothing where it meets a zero divisor, or depends on such a key."""

    def __init__(self, lowered, inputs):
        self.lowered, self.job = lowered, lowered.job
        whole, made = source_arrays(self.job, inputs), {}
        for old in lowered.old:
            task = lowered.made_tasks[old]
            made[old] = None
            if all(made[dep] is not None for dep in task.deps):
                try:
                    with np.errstate(over='ignore'):
                        made[old] = np.asarray(task.formula(Dividing(), made.get, whole), np.int64)
                except ZeroDivide:
                    pass
        self.values = [made[old] for old in lowered.old]

    def block_text(self, key):
        node, number = self.lowered.tasks[key].name
        index = list(blocks(self.job.nodes[node].layout))[number]
        return f'node {node} block (' + ', '.join(map(str, index)) + ')'

    def faults(self):
        """The keys that meet a zero divisor, in their order."""
        return [key for key, value in enumerate(self.values)
                if value is None and all(self.values[dep] is not None for dep in self.lowered.deps[key])]

    def array(self, save):
        """The array that a save has, with 0 in the blocks that aren't there."""
        node = self.job.nodes[self.job.saves[save]]
        array = np.zeros(node.shape, np.int64)
        for key, index in zip(self.lowered.saved[save], blocks(node.layout)):
            if self.values[key] is not None:
                array[region(node.layout, index)] = self.values[key]
        return array

    def array_before(self, save, fault):
        """The same with 0 in the blocks of keys that aren't before this one."""
        node = self.job.nodes[self.job.saves[save]]
        array = np.zeros(node.shape, np.int64)
        for key, index in zip(self.lowered.saved[save], blocks(node.layout)):
            if key < fault:
                array[region(node.layout, index)] = self.values[key]
        return array

    def simulate(self, number, workers=4, threads=2, saturation=11, script=(), allowed=None):
        """The lines of a simulation but those of files, or the key to blame, with its losses where it was killed, or nothing where nothing moves."""
        tasks = self.lowered.tasks
        graph = Graph(self.lowered.deps, [task.work for task in tasks], [task.bytes for task in tasks])
        world = World(graph, 1, saturation, self.values, allowed=allowed)
        wanted = [key for keys in self.lowered.saved for key in keys]
        played = Simulation(world, workers, threads, number, wanted, list(script))
        if not played.play():
            return None
        if played.end() != 'all':
            return played.end() if played.killed() is None else (played.end(), played.killed())
        return '|'.join([*played.report(), f'turns {played.turns}', 'finished by: simulation', ''])


def lower(text):
    """A job's graph, or the name of the limit that it passes."""
    try:
        return Lowered(text)
    except Limit as limit:
        return str(limit)
