"""Which heartbeats of a simulation may place something, so that the others are left out.

A heartbeat places nothing if nothing that waits has room on the node. It places nothing either if one of a node with as
much room, in the same partition, placed nothing and nothing has changed in the partition since: what the program places
depends on the node by its partition and its room alone.
"""

import bisect
import collections


class Partition:
    """The nodes of a label by the room on them, and what waits for it."""

    def __init__(self):
        self.rooms, self.waits = {}, collections.Counter()
        self.in_vain, self.useful = [], None

    def put(self, node, room):
        bisect.insort(self.rooms.setdefault(room, []), node)

    def take(self, node, room):
        nodes = self.rooms[room]
        del nodes[bisect.bisect_left(nodes, node)]
        if not nodes:
            del self.rooms[room]

    def change(self):
        """Something may be placed now that could not be placed before."""
        self.in_vain, self.useful = [], None

    def placed_nothing(self, room):
        self.in_vain.append(room)
        self.useful = None

    def useful_nodes(self, others):
        """Lists of the nodes on which what waits here, or may be a guest here, could be placed."""
        if self.useful is None:
            sizes = [*self.waits, *others]
            least = min(memory for memory, _ in sizes), min(vcores for _, vcores in sizes)
            large = [room for room in self.rooms if room[0] >= least[0] and room[1] >= least[1]]
            self.useful = [self.rooms[room] for room in large if any(map(fits(room), sizes)) and not any(fits(vain)(room) for vain in self.in_vain)]
        return self.useful


def fits(room):
    return lambda size: size[0] <= room[0] and size[1] <= room[1]


class Cluster:
    """All nodes. A node's heartbeats come one period apart; number by number the nodes share the period."""

    def __init__(self, nodes, period):
        self.nodes, self.period, self.count = nodes, period, len(nodes)
        self.room = [(memory, vcores) for _, _, memory, vcores in nodes]
        self.partitions = collections.defaultdict(Partition)
        self.partition = [self.partitions[label] for _, label, _, _ in nodes]
        self.moved = {}  # nodes that are still listed under the room that they had
        for node, room in enumerate(self.room):
            self.partition[node].put(node, room)
        self.anywhere, self.waiting = collections.Counter(), 0  # what may be placed in any partition; how many wait

    def turn_at(self, when):
        """The first heartbeat at that time or later: they are counted over all nodes."""
        periods, rest = divmod(when, self.period)
        return periods * self.count + -(-rest * self.count // self.period)

    def time_of(self, turn):
        periods, node = divmod(turn, self.count)
        return periods * self.period + node * self.period // self.count

    def turns(self, first, most, end):
        """The next heartbeats before that time, and within one period, that may place something."""
        self.settle()
        periods, here = divmod(first, self.count)
        base, last = periods * self.count, min(self.turn_at(end), first + self.count)
        found = []
        for partition in self.partitions.values():
            if partition.waits or self.anywhere:
                for nodes in partition.useful_nodes(self.anywhere):
                    at = bisect.bisect_left(nodes, here)
                    found += [base + node for node in nodes[at : at + most] if base + node < last]
                    if last > base + self.count and at:
                        found += [base + self.count + node for node in nodes[: min(at, most)] if base + self.count + node < last]
        found.sort()
        return found[:most]

    def resize(self, node, memory, vcores):
        """So much more room is on the node."""
        room = self.room[node]
        self.moved.setdefault(node, room)
        self.room[node] = room[0] + memory, room[1] + vcores
        self.partition[node].change()

    def settle(self):
        """Lists each node under the room that it has."""
        for node, room in self.moved.items():
            self.partition[node].take(node, room)
            self.partition[node].put(node, self.room[node])
        self.moved = {}

    def waits_of(self, label):
        """Where what waits for a label is counted. What waits for DEFAULT may be a guest of any label, and what the
        program gives a label that is not known yet may be of any."""
        return self.partitions[label].waits if label else self.anywhere

    def wait(self, waits, size, count):
        """So many requests more wait, or fewer."""
        self.waiting += count
        waits[size] += count
        if count < 0 and waits[size]:
            return
        if not waits[size]:
            del waits[size]
        for partition in self.partitions.values():
            if waits is partition.waits or waits is self.anywhere:
                partition.useful = None
                if count > 0:
                    partition.change()
