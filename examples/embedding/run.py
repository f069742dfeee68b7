"""Answers the events of standard input as `ynl run` does: python3 run.py libynl.so CONFIG < EVENTS"""

import ctypes
import sys

NO_ROOM = 4


class Cluster:
    def __init__(self, library, config):
        self.calls, self.handle = ctypes.CDLL(library), ctypes.c_void_p()
        self.block, self.length = ctypes.create_string_buffer(4096), ctypes.c_size_t()
        self.status = self.call(self.calls.ynl_open, config, ctypes.c_size_t(len(config)))

    def call(self, function, *words):
        return function(ctypes.byref(self.handle), *words)

    def apply(self, line):
        self.status = self.call(self.calls.ynl_apply, line, ctypes.c_size_t(len(line)))
        return self.reply()

    def reply(self):
        copy = lambda: self.call(self.calls.ynl_reply, self.block, ctypes.c_size_t(len(self.block)), ctypes.byref(self.length))
        while copy() == NO_ROOM:
            self.block = ctypes.create_string_buffer(self.length.value)
        return self.block.raw[: self.length.value]

    def close(self):
        self.call(self.calls.ynl_close)


library, config = sys.argv[1:]
with open(config, "rb") as file:
    cluster = Cluster(library, file.read())
if cluster.status:
    sys.exit(cluster.reply().decode())
for line in sys.stdin.buffer:
    print(cluster.apply(line.rstrip(b"\n")).decode(), flush=False)
    if cluster.status:
        break
sys.exit(cluster.status != 0)
