#!/usr/bin/env python3
"""harsh.py's net and schedules, with replicas of lockfs' own C as members: each is a copy of a shared object (sim_group.c, `make cluster-model`).

    replicas.py --library FILE [as harsh.py, but for --without]
"""
import atexit
import ctypes
import pathlib
import shutil
import struct
import sys
import tempfile

import harsh
from harsh import Node, World, Wrong

NODE, TEXT, SIZE = ctypes.c_uint32, ctypes.c_char_p, ctypes.c_size_t
BYTES = ctypes.POINTER(ctypes.c_uint8)
IN_VIEW, WITHDRAWN = 2, 3
WAIT = 3    # enum op
PT_LOAD, PT_GNU_RELRO, PF_W, PAGE = 1, 0x6474e552, 2, 4096


class Calls(ctypes.Structure):
    """struct sim_calls."""
    _fields_ = [('sent', ctypes.CFUNCTYPE(None, NODE, BYTES, SIZE)), ('left', ctypes.CFUNCTYPE(None, NODE)),
                ('answered', ctypes.CFUNCTYPE(None, NODE, NODE, ctypes.c_int)), ('lost', ctypes.CFUNCTYPE(None, NODE)),
                ('may_ask_anew', ctypes.CFUNCTYPE(ctypes.c_int, NODE, NODE)), ('stands', ctypes.CFUNCTYPE(None, NODE, NODE)),
                ('said', ctypes.CFUNCTYPE(None, NODE, TEXT))]


FUNCTIONS = (('sim_set_now', None, [ctypes.c_uint64]), ('sim_delivered', None, [NODE, NODE, TEXT, SIZE]),
             ('sim_table', ctypes.c_uint64, []), ('sim_locks', ctypes.c_uint64, []),
             ('sim_ring', None, [ctypes.c_uint64, ctypes.c_void_p, ctypes.c_uint]), ('sim_work', ctypes.c_bool, []),
             ('sim_open', ctypes.c_bool, [NODE, ctypes.c_void_p, ctypes.c_uint, NODE, ctypes.c_uint, ctypes.c_void_p]))


class Program:
    """A copy of the shared object, which is the process of a node; it is begun anew by its first memory."""

    def __init__(self, library, folder, name):
        path = pathlib.Path(folder) / ('replica%d.so' % name)
        shutil.copy(library, path)
        self.call = ctypes.CDLL(str(path))
        for of, result, words in FUNCTIONS:
            function = getattr(self.call, of)
            function.restype, function.argtypes = result, words
        self.at, self.size = self.memory_of(path)
        self.first = ctypes.string_at(self.at, self.size)

    @staticmethod
    def memory_of(path):
        """Where its variables are: what is written of the file's segments, but for what is only written as it is loaded (PT_GNU_RELRO)."""
        base = next(int(line.split('-')[0], 16) for line in open('/proc/self/maps') if line.rstrip().endswith(str(path)))
        file = path.read_bytes()
        start, count = struct.unpack_from('<Q', file, 32)[0], struct.unpack_from('<H', file, 56)[0]
        segments = [struct.unpack_from('<IIQQQQQQ', file, start + 56 * at) for at in range(count)]
        written = next(segment for segment in segments if segment[0] == PT_LOAD and segment[1] & PF_W)
        fixed = [segment[3] + segment[6] for segment in segments if segment[0] == PT_GNU_RELRO]
        begin = max([written[3]] + [-(-end // PAGE) * PAGE for end in fixed])
        return base + begin, written[3] + written[6] - begin

    def begin(self):
        ctypes.memmove(self.at, self.first, self.size)


class Member(Node):
    """A node with a process in C."""
    world = None

    def start(self):
        super().start()
        self.standing, self.known, self.is_due, self.withdrawn = 0, None, None, False
        self.world.begin(self)

    @property
    def call(self):
        self.world.programs[self.name].call.sim_set_now(self.world.now + 1000)
        return self.world.programs[self.name].call


class Replicas(World):
    programs, folder = [], None

    def __init__(self, seed, options):
        if not Replicas.folder:
            Replicas.folder = tempfile.mkdtemp(prefix='replicas-')
            atexit.register(shutil.rmtree, Replicas.folder)
        while len(self.programs) < options.nodes:
            self.programs.append(Program(options.library, self.folder, len(self.programs)))
        types = dict(Calls._fields_)
        self.calls = Calls(**{name: types[name](getattr(self, name)) for name in types})
        self.now, self.trace, self.nodes = 0, [], []
        self.node_class = type('MemberOfWorld', (Member,), {'world': self})
        super().__init__(seed, options)

    def begin(self, n):
        self.programs[n.name].begin()
        if not hasattr(self, 'votes'):
            return
        votes = (NODE * self.count)(*self.votes)
        n.call.sim_open(n.name + 1, votes, self.count, self.total, int(self.grace), ctypes.byref(self.calls))

    # -- what the replica calls

    def of(self, node):
        return self.nodes[node - 1]

    def sent(self, node, at, size):
        n = self.of(node)
        self.send(n, 'message', ctypes.string_at(at, size))

    def left(self, node):
        n = self.of(node)
        n.withdrawn = True
        self.later(0, self.leaves, n, n.process)

    def leaves(self, n, process):
        if n.process == process and n.alive:
            raise Wrong('%d withdraws' % n.name)

    def answered(self, node, op, error):
        n = self.of(node)
        if n.client == 'asked' and op == WAIT:
            if error:
                n.client = 'idle'
            else:
                self.tell(n)
        elif n.client == 'unlocks' and op != WAIT:
            n.client = 'idle'

    def lost(self, node):
        n = self.of(node)
        self.lost_count += n.client == 'told'
        if n.client in ('told', 'unlocks'):
            n.client, n.overtaken = 'idle', False

    def may_ask_anew(self, node, op):
        return int(self.of(node).client == 'asked')

    def stands(self, node, standing):
        self.of(node).standing = standing

    def said(self, node, text):
        self.say(node - 1, 'says', text.decode())

    lost_count = 0

    # -- a member

    def work(self, n, process):
        """What the replica does once nothing more is there to be delivered; it is called again when it says."""
        if n.process != process or not n.alive:
            return
        n.is_due = None
        n.call.sim_work()
        delay = n.call.sim_timeout()
        if delay >= 0:
            self.work_later(n, max(delay, 1))

    def work_later(self, n, delay):
        if n.is_due is None or n.is_due > self.now + delay:
            n.is_due = self.now + delay
            self.later(delay, self.work_if_due, n, n.process, n.is_due)

    def work_if_due(self, n, process, due):
        if n.is_due == due and n.process == process:
            self.work(n, process)

    def ring_ends(self, n):
        """It is told of the new ring; and of no group, until that is known."""
        self.tell_members(n, {})
        members = sorted(name + 1 for name in n.ring.members)
        n.call.sim_ring(n.ring.number, (NODE * len(members))(*members), len(members))
        n.told_ring = n.ring
        self.work_later(n, 0)

    def tell_members(self, n, of):
        there = sorted((name + 1, process) for name, process in of.items() if process)
        nodes, processes = (NODE * len(there))(*(node for node, _ in there)), (NODE * len(there))(*(process for _, process in there))
        n.call.sim_members(nodes, processes, len(there))

    told_ring = None

    def group_changes(self, n, ring):
        self.tell_members(n, n.group['of'])
        if n.told_ring is not ring or n.ring_of_process != n.process:
            members = sorted(name + 1 for name in ring.members)
            n.call.sim_ring(ring.number, (NODE * len(members))(*members), len(members))
        n.told_ring, n.ring_of_process = ring, n.process
        self.work_later(n, self.r.choice([0, 0, 1]))

    def hear_message(self, n, ring, message):
        n.call.sim_delivered(message[0] + 1, message[1], message[4], len(message[4]))
        self.work_later(n, self.r.choice([0, 0, 1]))

    def ask(self, n, op):
        n.call.sim_lock() if op == 'lock' else n.call.sim_unlock()
        self.work_later(n, 0)

    def may_ask(self, n):
        return n.standing == IN_VIEW

    def is_in_view(self, n):
        return n.standing == IN_VIEW

    # -- the end

    def table_of(self, n):
        return n.call.sim_table()

    def locks_of(self, n):
        return n.call.sim_locks()


for name in ('told_ring', 'ring_of_process'):
    setattr(Member, name, None)

if __name__ == '__main__':
    sys.exit(harsh.main(Replicas, __doc__))
