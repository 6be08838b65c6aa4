#!/usr/bin/env python3
"""A model of the lock table on several nodes: one lock, rings that break as Totem's do, processes and nodes that die and start again.

    model.py [--nodes N] [--runs A..B] [--events N] [--trace] [--without all | --without acks,drop,majority,wait,numbers] [--grace MS] [--deaths]

Time is in milliseconds. A ring orders messages; a member is delivered them in order and without holes, its own at once (AGREED). When a
ring breaks, those who go on together share what any of them received, and are delivered it, holes left out (extended virtual synchrony).
A part of the net notices that it is cut off within LAG; until then whoever has the token still sends, and is delivered, alone.
A node may write under a lock from when its program is told to when it is lost or let go, but not while it is without a view. What is
delivered as a ring breaks and that it broke are one moment here (an answer waits until the group's queue is empty).

Wrong is: two nodes may write at once, or a node writes on under a lock under which another one wrote meanwhile.

The rules, each of which can be left out, to see what goes wrong then. Members are nodes whose process runs.
  majority  a view needs a majority of members, and goes on if a majority of nodes has the state of the latest view that is told;
            the longest log is taken, all others lose their locks; else all do, and begin with none
  wait      who begins with none has no state before each node that is away was purged (after the grace)
  acks      each member acknowledges what it was delivered; a lock is told once acknowledgements of a majority came
  drop      what a member was delivered, and what no acknowledgement of that ring vouches for, is dropped when the ring changes
  numbers   a process numbers its requests; what is sent anew and was applied already is passed over
Without all of them the state of the latest view and the longest log goes on wherever nodes have a quorum. harsh.py is a crueller model.
"""
import argparse
import heapq
import random

LAG = 1000
RULES = frozenset(['acks', 'drop', 'majority', 'wait', 'numbers'])


class Wrong(Exception):
    pass


class State:
    """A table as a replica has it: all that was applied, and what follows of it."""

    def __init__(self, view=0, log=()):
        self.view, self.log, self.holder, self.queue, self.purged, self.numbers = view, (), None, (), frozenset(), {}
        for request in log:
            self.apply(request)

    def copy(self):
        return State(self.view, self.log)

    def apply(self, request):
        """A request is (what, node, number); a purge and a join have number 0."""
        op, node, number = request
        self.log += (request,)
        self.numbers[node] = max(self.numbers.get(node, 0), number)
        if op == 'join':
            self.purged -= {node}
        elif op == 'lock':
            if self.holder is None:
                self.holder = node
            elif node != self.holder and node not in self.queue:
                self.queue += (node,)
        else:                                   # unlock, purge
            self.queue = tuple(n for n in self.queue if n != node)
            if op == 'purge':
                self.purged |= {node}
            if self.holder == node:
                self.holder = None
            if self.holder is None and self.queue:
                self.holder, self.queue = self.queue[0], self.queue[1:]


class Ring:
    def __init__(self, number, members, group):
        self.number, self.members, self.group = number, frozenset(members), frozenset(group)
        self.messages, self.token = [], None    # token: the part of the net that can still send; None: all


class Node:
    def __init__(self, name):
        self.name, self.up, self.alive, self.number = name, True, True, 0
        self.ring, self.received, self.next = None, set(), 0
        self.start()

    def start(self):
        """A process that starts knows nothing."""
        self.state, self.base = None, 0
        self.client, self.overtaken = 'idle', False
        self.leave()

    def leave(self):
        """The ring changes: there is no view until all have said hello."""
        self.installed, self.hellos, self.dead = False, {}, set()
        self.acks, self.vouched, self.granted_at = {}, 0, 0
        self.silent, self.kept = frozenset(), []    # for whom it waits, and what is delivered meanwhile


class World:
    def __init__(self, seed, arguments):
        self.r, self.rules, self.grace, self.events = random.Random(seed), arguments.rules, arguments.grace, arguments.events
        self.weights = [40, 6, 9, 12, 3, 5, 5] if arguments.deaths else [40, 6, 3, 4, 2, 4, 5]
        self.nodes = [Node(n) for n in range(arguments.nodes)]
        self.part = [0] * arguments.nodes       # which part of the net each node is in
        self.now, self.rings, self.todo, self.count, self.told, self.trace = 0, 0, [], 0, 0, []
        self.form(0)

    # -- time

    def later(self, delay, call, *words):
        self.count += 1
        heapq.heappush(self.todo, (self.now + delay, self.count, call, words))

    def say(self, *words):
        self.trace.append('%7d ' % self.now + ' '.join(map(str, words)))

    # -- rings and messages

    def is_quorate(self, ring):
        return 2 * len(ring.members) > len(self.nodes)

    def form(self, part):
        """All nodes of this part that are up make a ring."""
        members = [n for n in self.nodes if n.up and self.part[n.name] == part]
        if not members:
            return
        for old in sorted({n.ring for n in members if n.ring}, key=lambda ring: ring.number):
            self.share(old, [n for n in members if n.ring is old])
        self.rings += 1
        ring = Ring(self.rings, (n.name for n in members), (n.name for n in members if n.alive))
        self.say('ring', ring.number, sorted(ring.members), 'group', sorted(ring.group), 'quorate' if self.is_quorate(ring) else '')
        for n in members:
            if n.state and n.installed and 'drop' in self.rules:
                n.state = State(n.state.view, n.state.log[:max(n.vouched, n.base)])
            n.ring, n.received, n.next = ring, set(), 0
            n.leave()
        for n in members:
            if n.alive and self.is_quorate(ring):
                self.send(n, 'hello', n.state and n.state.copy())

    def share(self, old, together):
        """Those who leave a ring together are delivered what any of them received, holes left out."""
        union = set().union(*(n.received for n in together))
        for n in together:
            for index in sorted(union):
                if index >= n.next:
                    n.next = index + 1
                    self.deliver(n, old, index)

    def can_send(self, n):
        return n.up and n.ring and (n.ring.token is None or self.part[n.name] == n.ring.token)

    def send(self, n, kind, what):
        if not self.can_send(n):
            return False
        n.ring.messages.append((n.name, kind, what))
        for m in self.nodes:
            if m.ring is n.ring and self.part[m.name] == self.part[n.name]:
                delay = 0 if m is n else self.r.choice([1, 2, 5, 40])
                self.later(delay, self.receive, m, n.ring, len(n.ring.messages) - 1, self.part[n.name])
        return True

    def receive(self, m, ring, index, part):
        if m.ring is not ring or not m.up or self.part[m.name] != part:
            return
        reached = [o for o in self.nodes if o.ring is ring and self.part[o.name] == part]
        m.received.add(index)
        m.received |= {earlier for earlier in range(m.next, index) if any(earlier in o.received for o in reached)}    # sent again
        while m.ring is ring and m.next in m.received:
            m.next += 1
            self.deliver(m, ring, m.next - 1)

    # -- a member of the group

    def deliver(self, n, ring, index):
        sender, kind, what = ring.messages[index]
        if not n.alive:
            return
        if kind == 'hello':
            n.hellos[sender] = what
        elif kind == 'dies':
            n.dead.add(sender)
        if kind in ('hello', 'dies') and not n.installed:
            self.try_install(n, ring)
        elif kind == 'dies':
            self.order(n, ('purge', sender, 0))
        elif kind == 'ack' and n.installed:
            self.acknowledged(n, sender, what)
        elif kind == 'request' and n.installed:
            self.order(n, what)

    def order(self, n, request):
        """A request at its place; it is kept while there is no state."""
        op, node, number = request
        if n.silent:
            n.kept.append(request)
            n.silent -= {node} if op == 'purge' else set()
            if not n.silent:
                self.begin(n, State(n.ring.number), n.kept)
        elif not (number and number <= n.state.numbers.get(node, 0) and 'numbers' in self.rules):
            self.apply(n, request)

    def begin(self, n, state, kept=()):
        n.state = state
        for m in sorted(n.ring.group - n.dead):
            state.apply(('join', m, 0))
        n.base = n.granted_at = len(state.log)
        self.acknowledge(n)
        for request in kept:
            self.order(n, request)
        self.look(n)

    def apply(self, n, request):
        op, node, number = request
        before = n.state.holder
        n.state.apply(request)
        if n.state.holder == n.name != before:
            n.granted_at = len(n.state.log)
        if op == 'purge' and node == n.name:
            self.lose(n)
        if op == 'unlock' and node == n.name and n.client == 'unlocks' and number == n.number:
            n.client = 'idle'
        self.acknowledge(n)
        self.look(n)

    def acknowledge(self, n):
        """The log stands for its length and a digest of it."""
        if 'acks' in self.rules:
            self.send(n, 'ack', n.state.log)

    def acknowledged(self, n, sender, log):
        if n.state and n.state.log[:len(log)] == log:
            n.acks[sender] = max(n.acks.get(sender, 0), len(log))
            n.vouched = max(n.vouched, len(log))
            self.look(n)

    def committed(self, n):
        """How much of the log a majority has acknowledged."""
        lengths = sorted(n.acks.values(), reverse=True)
        majority = len(self.nodes) // 2 + 1
        return lengths[majority - 1] if len(lengths) >= majority else 0

    def look(self, n):
        is_granted = n.client == 'asked' and n.state and n.state.holder == n.name and n.state.numbers[n.name] >= n.number
        if is_granted and ('acks' not in self.rules or self.committed(n) >= n.granted_at):
            n.client, n.overtaken = 'told', False
            self.told += 1
            self.say('told', n.name, 'in view', n.state.view)

    def lose(self, n):
        """Its program is told EIO."""
        n.client, n.overtaken = 'idle', False

    def has_majority(self, members):
        return 2 * len(members) > len(self.nodes)

    def try_install(self, n, ring):
        group = ring.group - n.dead
        if n.name not in group or not group <= set(n.hellos):
            return
        if not self.has_majority(group if 'majority' in self.rules else ring.members):
            return
        state, losers = self.decide({m: n.hellos[m] for m in group}, ring)
        n.installed = True
        self.say('view', ring.number, 'at', n.name, 'of', state and len(state.log), 'losers', sorted(losers))
        away = frozenset(range(len(self.nodes))) - ring.members
        if n.name in losers:
            self.lose(n)
        if state is None:
            n.state, n.silent = None, away if 'wait' in self.rules else frozenset()
            if not n.silent:
                self.begin(n, State(ring.number))
        else:
            for m in sorted(losers):
                state.apply(('purge', m, 0))
            self.begin(n, state, [('purge', m, 0) for m in sorted(ring.members - group - state.purged)])    # their mounts are dead
        if away and n.name == min(group):
            self.later(self.grace, self.purge, n, ring, away)
        if n.client in ('asked', 'unlocks'):    # what was sent and not applied is sent anew
            self.send(n, 'request', ({'asked': 'lock', 'unlocks': 'unlock'}[n.client], n.name, n.number))

    def decide(self, hellos, ring):
        """The state that a view goes on from, or none, and whose locks are lost."""
        having = {m: state for m, state in hellos.items() if state is not None}
        latest = max((state.view for state in having.values()), default=None)
        of_it = {m: state for m, state in having.items() if state.view == latest}
        if not of_it or 'majority' in self.rules and not self.has_majority(of_it):
            return None, set(hellos)
        base = max(of_it.values(), key=lambda state: len(state.log))
        follows = (lambda state: base.log[:len(state.log)] == state.log) if self.rules else (lambda state: base.log == state.log)
        return State(ring.number, base.log), {m for m in hellos if m not in of_it or not follows(of_it[m])}

    def purge(self, n, ring, away):
        if n.ring is ring and n.installed and n.alive:
            for m in sorted(away - (n.state.purged if n.state else frozenset())):
                self.send(n, 'request', ('purge', m, 0))

    # -- what happens, and what may not

    def may_write(self, n):
        return n.up and n.alive and n.client == 'told' and n.installed

    def check(self):
        writers = [n for n in self.nodes if self.may_write(n)]
        if len(writers) > 1:
            raise Wrong('two may write: %s' % [n.name for n in writers])
        for n in writers:
            if n.overtaken:
                raise Wrong('%d writes on under a lock under which another one wrote' % n.name)
            for o in self.nodes:
                o.overtaken |= o is not n and o.client == 'told'

    def change_net(self):
        before, names = list(self.part), self.r.sample(range(1, 1000), self.r.choice([1, 1, 2, 2, 3]))
        self.part = [self.r.choice(names) for _ in self.nodes]
        if self.r.random() < 0.3:               # some stay where they were
            self.part = [b if self.r.random() < 0.5 else p for b, p in zip(before, self.part)]
        self.net_changed()

    def net_changed(self):
        self.say('net', self.part)
        for ring in {n.ring for n in self.nodes if n.ring}:
            inside = [n for n in self.nodes if n.ring is ring]
            if len({self.part[n.name] for n in inside}) > 1 or len(inside) < len(ring.members):
                ring.token = self.part[self.r.choice(sorted(n.name for n in inside))]
        for part in sorted(set(self.part)):
            self.later(self.r.randrange(1, LAG), self.notice, part, tuple(self.part))

    def notice(self, part, parts):
        members = frozenset(n.name for n in self.nodes if n.up and self.part[n.name] == part)
        if tuple(self.part) == parts and any(self.nodes[m].ring is None or self.nodes[m].ring.members != members for m in members):
            self.form(part)

    def client_acts(self, n):
        if n.client == 'idle' or n.client == 'told' and self.r.random() < 0.6:
            n.number += 1
            n.client, op = ('asked', 'lock') if n.client == 'idle' else ('unlocks', 'unlock')
            self.send(n, 'request', (op, n.name, n.number))

    def process_dies(self, n):
        self.say('process dies', n.name)
        n.alive = False
        n.start()
        self.send(n, 'dies', n.name)

    def process_starts(self, n, what):
        self.say(what, n.name)
        n.up = n.alive = True
        n.start()
        self.form(self.part[n.name])            # the group changes: all say hello

    def node_dies(self, n):
        self.say('node dies', n.name)
        n.up = n.alive = False
        n.start()
        n.ring = None
        self.net_changed()

    def event(self):
        n = self.r.choice(self.nodes)
        what = self.r.choices(['client', 'net', 'dies', 'starts', 'crash', 'boot', 'heals'], self.weights)[0]
        if what == 'client' and n.up and n.alive and n.installed:
            self.client_acts(n)
        elif what == 'net':
            self.change_net()
        elif what == 'heals':
            self.part = [0] * len(self.nodes)
            self.net_changed()
        elif what == 'dies' and n.up and n.alive:
            self.process_dies(n)
        elif what == 'starts' and n.up and not n.alive:
            self.process_starts(n, 'process starts')
        elif what == 'crash' and n.up:
            self.node_dies(n)
        elif what == 'boot' and not n.up:
            self.process_starts(n, 'node starts')

    def run(self):
        for _ in range(self.events):
            until = self.now + self.r.choice([1, 3, 10, 50, 300, 1000, 4000])
            while self.todo and self.todo[0][0] <= until:
                self.now, _, call, words = heapq.heappop(self.todo)
                call(*words)
                self.check()
            self.now = until
            self.event()
            self.check()


def main():
    parser = argparse.ArgumentParser(description=__doc__, formatter_class=argparse.RawDescriptionHelpFormatter)
    parser.add_argument('--nodes', type=int, default=3)
    parser.add_argument('--runs', default='1..2000')
    parser.add_argument('--events', type=int, default=200)
    parser.add_argument('--grace', type=int, default=3000)
    parser.add_argument('--without', default='')
    parser.add_argument('--deaths', action='store_true', help='more of them')
    parser.add_argument('--trace', action='store_true', help='of the first three that are wrong')
    a = parser.parse_args()
    a.rules = frozenset() if a.without == 'all' else RULES - set(a.without.split(','))
    first, last = map(int, a.runs.split('..'))
    wrong = told = 0
    for seed in range(first, last + 1):
        world = World(seed, a)
        try:
            world.run()
        except Wrong as e:
            wrong += 1
            if wrong <= 3:
                print('seed %d, %d ms: %s' % (seed, world.now, e))
                print('\n'.join(world.trace[-40:] if a.trace else []))
        told += world.told
    print('%d runs, %d locks told, %d wrong' % (last - first + 1, told, wrong))
    return wrong > 0


if __name__ == '__main__':
    raise SystemExit(main())
