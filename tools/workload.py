"""What a simulation reads: nodes, and jobs with their tasks, in the form of YARN's Scheduler Load Simulator (SLS).

The fields were written from memory of Hadoop 3.3's documentation, and nothing checks them against Hadoop: compare the
tables with its page "Yarn Scheduler Load Simulator". A field that is not known is refused.
"""

import collections
import json
import re
import sys

NAME = re.compile(r"[A-Za-z0-9_-]{1,64}\Z")

# What becomes of each field: it is read, or passed over for a reason.
READ = "read"
JOB = {
    "job.id": READ,  # its name; job_1, job_2, .. if it has none
    "job.queue.name": READ,  # a path, or the last name of one
    "job.user": READ,  # `default` if it has none
    "job.start.ms": READ,  # 0 if it has none
    "job.label.expression": READ,  # the home label; the leaf's default if it has none
    "job.count": READ,  # so many of them
    "job.every.ms": READ,  # none of SLS's: from one of them to the next; 0 if it has none
    "job.tasks": READ,
    "am.type": READ,  # of `mapreduce` the tasks of the type `reduce` are asked for once the others are done
    "am.memory-mb": READ,  # 1024 if it has none
    "am.memory": READ,  # the same
    "am.vcores": READ,  # 1 if it has none
    "job.end.ms": "ignored: a job ends with its last task",
    "job.priority": "differs: applications have no priorities",
}
TASK = {
    "count": READ,  # 1 if it has none
    "duration.ms": READ,
    "container.start.ms": READ,  # with the end, for the duration alone
    "container.end.ms": READ,
    "container.priority": READ,  # 20 if it has none; the smaller number is served first
    "container.type": READ,
    "container.memory-mb": READ,  # 1024 if it has none
    "container.memory": READ,  # the same
    "container.vcores": READ,  # 1 if it has none
    "container.host": "ignored: no request names a place",
}
NODE = {
    "node": READ,  # its name
    "count": READ,  # none of SLS's: so many, with the numbers 1, 2, .. behind the name
    "label": READ,  # none of SLS's: the label's name
    "labels": READ,  # at most one: a name, or an object with a name
    "memory-mb": READ,  # 10240 if it has none
    "memory": READ,  # the same
    "memory-resource": READ,  # the same
    "vcores": READ,  # 10 if it has none
    "vcores-resource": READ,  # the same
}
RACK = {"rack": "ignored: no request names a place", "nodes": READ}
LABEL = {"name": READ, "exclusivity": "ignored: the configuration says which labels are exclusive"}


class Refused(Exception):
    """The tool cannot take that."""


def values(path):
    """The JSON values of a file, one after another; a list counts as its members."""
    with open(path, encoding="utf-8") as it:
        text = it.read()
    decoder, space, at = json.JSONDecoder(), re.compile(r"\s*"), 0
    while True:
        at = space.match(text, at).end()
        if at == len(text):
            return
        try:
            value, at = decoder.raw_decode(text, at)
        except ValueError:
            raise Refused(f"{path}: no JSON value in line {text.count(chr(10), 0, at) + 1}") from None
        yield from value if isinstance(value, list) else [value]


class Row:
    """An object of a file, whose fields are all known."""

    passed_over = set()

    def __init__(self, place, value, known):
        if not isinstance(value, dict):
            raise Refused(f"{place}: no object")
        self.place, self.value = place, value
        for field in value:
            if field not in known:
                raise Refused(f"{place}: the field {field} is not known")
            if known[field] != READ and field not in self.passed_over:
                self.passed_over.add(field)
                fate, _, why = known[field].partition(": ")
                print(f"{fate}: {field}: {why}", file=sys.stderr)

    def number(self, fields, default, least=0):
        """The whole number in the first of these fields that is there."""
        for field in fields:
            if field in self.value:
                text = str(self.value[field])
                if not re.fullmatch(r"[0-9]{1,15}", text) or int(text) < least:
                    raise Refused(f"{self.place}: {field} is {text}, and a whole number from {least} on is required")
                return int(text)
        if default is None:
            raise Refused(f"{self.place}: the field {fields[0]} is required")
        return default

    def text(self, field, default=None):
        value = self.value.get(field, default)
        if not isinstance(value, str):
            raise Refused(f"{self.place}: the field {field} is required, and a text")
        return value

    def name(self, field, default=None):
        """A name, with `_` for each dot and stroke within."""
        name = re.sub("[./]", "_", self.text(field, default).strip("/"))
        if not NAME.match(name):
            raise Refused(f"{self.place}: {field} is {name}, and that is no name (1 to 64 of A-Z a-z 0-9 _ -)")
        return name

    def list(self, field):
        value = self.value.get(field, [])
        if not isinstance(value, list):
            raise Refused(f"{self.place}: {field} is no list")
        return value


def label_of(row):
    labels = row.list("labels")
    if len(labels) > 1:
        raise Refused(f"{row.place}: a node has one label at most")
    if labels:
        return labels[0] if isinstance(labels[0], str) else Row(row.place, labels[0], LABEL).text("name")
    return row.text("label", "")


def nodes_of(path):
    """The nodes: name, label, memory, vcores."""
    nodes = {}
    for number, value in enumerate(values(path), 1):
        place = f"{path}: value {number}"
        rows = Row(place, value, RACK).list("nodes") if isinstance(value, dict) and "nodes" in value else [value]
        for row in (Row(place, row, NODE) for row in rows):
            count, name = row.number(["count"], 1), row.name("node")
            size = row.number(["memory-mb", "memory", "memory-resource"], 10240, 1), row.number(["vcores", "vcores-resource"], 10, 1)
            for each in [name] if "count" not in row.value else [f"{name}{at + 1}" for at in range(count)]:
                if each in nodes:
                    raise Refused(f"{place}: there are two nodes {each}")
                nodes[each] = (each, label_of(row), *size)
    if not nodes:
        raise Refused(f"{path}: no node")
    return list(nodes.values())


def paths_of(config):
    """The paths of the queues that a configuration has."""
    if config is None:
        return ["root.eng"]
    with open(config, encoding="utf-8") as it:
        return re.findall(r'\bpath\s*=\s*"(root\.[^"]+)"', it.read())


def path_of(name, paths):
    """The path of a queue that has this path, or ends in this name and is the only one."""
    if name in paths or name.startswith("root."):
        return name
    found = ["root." + name] if "root." + name in paths else [path for path in paths if path.endswith("." + name)]
    return found[0] if len(found) == 1 else "root." + name


class Group:
    """Containers of one size that an application wants at one priority, and how long each of them runs."""

    def __init__(self, size):
        self.size, self.spans, self.priority, self.asked = size, collections.deque(), 0, 0


def stages_of(row):
    """What a job asks for: at once, and once that is done."""
    stages = {}, {}
    for at, value in enumerate(row.list("job.tasks"), 1):
        task = Row(f"{row.place}, task {at}", value, TASK)
        is_late = row.value.get("am.type") == "mapreduce" and task.value.get("container.type") == "reduce"
        size = task.number(["container.memory-mb", "container.memory"], 1024, 1), task.number(["container.vcores"], 1, 1)
        if "duration.ms" in task.value:
            span = task.number(["duration.ms"], None)
        else:
            span = task.number(["container.end.ms"], None) - task.number(["container.start.ms"], None)
        if span < 1:
            raise Refused(f"{task.place}: it takes no time")
        group = stages[is_late].setdefault((task.number(["container.priority"], 20), *size), Group(size))
        group.spans.extend([span] * task.number(["count"], 1))
    # an application has one ask at a priority, so each group gets its own
    for priority, (_, group) in enumerate(sorted((item for stage in stages for item in stage.items()), key=lambda item: item[0])):
        group.priority = priority
    return [[stage[key] for key in sorted(stage) if stage[key].spans] for stage in stages]


class Job:
    """An application to come, and how far it is."""

    def __init__(self, row, name, queue, start):
        self.name, self.queue, self.start, self.user = name, queue, start, row.name("job.user", "default")
        self.tenant, self.label = queue.split(".")[1], row.value.get("job.label.expression")
        self.size = row.number(["am.memory-mb", "am.memory"], 1024, 1), row.number(["am.vcores"], 1, 1)
        self.stages, self.state, self.end = stages_of(row), "not submitted", "done"
        self.home, self.master, self.left = None, None, 0


def jobs_of(path, paths):
    jobs = {}
    for number, value in enumerate(values(path), 1):
        if isinstance(value, dict) and value.keys() <= {"num.nodes", "num.racks"}:
            continue  # SLS's file may begin so
        row = Row(f"{path}: value {number}", value, JOB)
        name, queue = row.name("job.id", f"job_{number}"), path_of(row.text("job.queue.name"), paths)
        start, every = row.number(["job.start.ms"], 0), row.number(["job.every.ms"], 0)
        for at in range(row.number(["job.count"], 1)):
            job = Job(row, f"{name}_{at + 1}" if "job.count" in row.value else name, queue, start + at * every)
            if jobs.setdefault((job.tenant, job.name), job) is not job:
                raise Refused(f"{row.place}: {job.tenant} has two jobs {job.name}")
    return jobs
