"""The events of a cluster in a steady state, which `bench/soak` plays and describes."""

import itertools
import random
import re
import zlib

CONFIG = """\
version = 1
containers-per-heartbeat = 2
label = [{ name = "gpu" }, { name = "ssd", exclusive = false }]
queue = [
  { path = "root.eng", capacity = 34, accessible-node-labels = "gpu", label = { gpu = { capacity = 50 } } },
  { path = "root.sci", capacity = 33, accessible-node-labels = "gpu", label = { gpu = { capacity = 50 } } },
  { path = "root.mkt", capacity = 33, accessible-node-labels = "ssd", label = { ssd = { capacity = 100 } } },
  { path = "root.eng.etl", capacity = 100, maximum-am-resource-percent = 50 },
  { path = "root.sci.lab", capacity = 100, maximum-am-resource-percent = 50 },
  { path = "root.mkt.ads", capacity = 100, maximum-am-resource-percent = 50 },
  { path = "root.eng.ml", maximum-am-resource-percent = 50, label = { gpu = { capacity = 100 } } },
  { path = "root.sci.sim", maximum-am-resource-percent = 50, label = { gpu = { capacity = 100 } } },
  { path = "root.mkt.web", maximum-am-resource-percent = 50, label = { ssd = { capacity = 100 } } },
]
"""
LEAVES = (("eng", "etl", ""), ("eng", "ml", "gpu"), ("sci", "lab", ""), ("sci", "sim", "gpu"), ("mkt", "ads", ""), ("mkt", "web", "ssd"))
QUEUES = ["root", *re.findall('path = "(.*?)"', CONFIG)]
LABELS = ("", "gpu", "ssd")
LABELS_OF_NODES = ("", "gpu", "", "ssd", "", "gpu", "", "gpu", "", "ssd")  # in turn
NODES, APPLICATIONS = 2000, 32000
ROUND = 34  # events
ROUNDS_A_NODE = 40  # from one node that is lost to the next
WINDOW = 8000  # rounds before an application finishes, in which its containers exit
EXITS = 8  # in a round, at the most
SAMPLE = 1000  # applications that the last events name
LAST = 2 * SAMPLE + len(QUEUES) * len(LABELS)
CONTAINER = re.compile(rb'^{"app":"a(\d+)","id":"([^"]+)",.*"node":"(\w+)",.*"what":"ask"}$', re.M)

BEAT = '{"event":"heartbeat","node":"%s"}\n'
REGISTER = '{"event":"register","label":"%s","memory":90000,"node":"%s","vcores":128}\n'
LOST = '{"event":"lost","node":"%s"}\n'
EXITED = '{"event":"exited","id":"%s","node":"%s"}\n'
SUBMIT = '{"app":"a%d","event":"submit","label":"%s","memory":%d,"queue":"root.%s.%s","user":"u%d","vcores":1}\n'
ASK = '{"app":"a%d","count":4,"event":"ask","label":"%s","memory":%d,"priority":%d,"tenant":"%s","vcores":1}\n'
FINISH = '{"app":"a%d","event":"finish","tenant":"%s"}\n'
POLL = '{"app":"a%d","event":"poll","label":"%s","tenant":"%s"}\n'
USAGE = '{"event":"usage","label":"%s","queue":"%s"}\n'


def submit(number):
    tenant, leaf, label = LEAVES[number % len(LEAVES)]
    return SUBMIT % (number, label, 500 + 100 * (number % 9), tenant, leaf, number % 40)


def ask(number):
    tenant, _, label = LEAVES[number % len(LEAVES)]
    return ASK % (number, label, 500 + 100 * (number // 9 % 9), number % 3, tenant)


def poll(number):
    tenant, _, label = LEAVES[number % len(LEAVES)]
    return POLL % (number, label, tenant)


def containers_of(state):
    """Of each container that was asked for the number of its application, its id and its node."""
    begin = state.rfind(b"\n", 0, state.find(b'"state":"container"') + 1) + 1
    return [(int(app), name.decode(), node.decode()) for app, name, node in CONTAINER.findall(state, begin)]


class Cluster:
    """The events in the making. Applications are numbered as they come, and finish in that order."""

    def __init__(self):
        self.chance, self.come, self.gone, self.joined = random.Random(1), 0, 0, 0
        self.nodes, self.beats, self.present = [None] * NODES, [None] * NODES, set()
        self.containers = []  # of the state, the first to exit last
        self.parts = itertools.chain(self.opening(), iter(self.round, None))  # of at most ROUND lines each

    def join(self, place):
        """A node of a new name, in the place of another."""
        name = f"n{self.joined}"
        self.joined += 1
        self.present.add(name)
        self.nodes[place], self.beats[place] = name, BEAT % name
        return REGISTER % (LABELS_OF_NODES[place % len(LABELS_OF_NODES)], name)

    def lose(self, place):
        self.present.remove(self.nodes[place])
        return LOST % self.nodes[place]

    def start(self):
        self.come += 1
        return [submit(self.come - 1), ask(self.come - 1)]

    def finish(self):
        self.gone += 1
        return FINISH % (self.gone - 1, LEAVES[(self.gone - 1) % len(LEAVES)][0])

    def opening(self):
        for place in range(NODES):
            yield [self.join(place)]
        for _ in range(APPLICATIONS):
            yield self.start() + self.chance.choices(self.beats, k=3)

    def round(self):
        lines = [*self.start(), self.finish()]
        if self.come % ROUNDS_A_NODE == 0:
            place = self.chance.randrange(NODES)
            lines += [self.lose(place), self.join(place)]
        lines += self.exits()
        return lines + self.chance.choices(self.beats, k=ROUND - len(lines))

    def exits(self):
        """The containers whose moments have come, if they have not ended with their application or their node."""
        lines = []
        while self.containers and self.containers[-1][0] < self.gone + WINDOW and len(lines) < 2 * EXITS:
            _, app, name, node = self.containers.pop()
            if app >= self.gone and node in self.present:
                lines += [EXITED % (name, node), BEAT % node]
        return lines

    def segment(self, count, state):
        """The text of so many events from a state on. A container's moment comes from its id, and so stays the same."""
        moments = ((app + zlib.crc32(name.encode()) % WINDOW, app, name, node) for app, name, node in containers_of(state))
        self.containers = sorted(moments, reverse=True)
        lines = []
        while len(lines) + ROUND <= count:
            lines += next(self.parts)
        return "".join(lines + self.chance.choices(self.beats, k=count - len(lines)))

    def last(self):
        """Names that are used, what live applications hold, and what each queue uses."""
        used = self.chance.sample(range(self.gone), SAMPLE)
        live = self.chance.sample(range(self.gone, self.come), SAMPLE)
        usages = [USAGE % (label, queue) for queue in QUEUES for label in LABELS]
        return "".join([*map(submit, used), *map(poll, live), *usages])
