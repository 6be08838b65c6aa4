#!/usr/bin/env python3
"""model.py made crueller: messages are queued over a change of ring, and the group changes within one ring; members see a ring at different moments;
handing the state over takes up to 400 ms; each member has a timer of its own for purges; a node needs 1,000 ms to see that it is cut off, and the
grace is 1,100; votes differ, and a member may be a witness. At every view it is checked, beside what model.py checks, that a lock that was told is
in the log, or was purged since, or is lost as the view begins, or that the view waits for its node. Each run ends with a net that is whole and
processes that all run: then all members have one view and one table, and each gets the lock in turn.

    harsh.py [--nodes N] [--votes] [--witness] [--runs A..B] [--events N] [--without acks,drop,wait,none,dedup,viewmark,atonce] [--trace]
    harsh.py --schedules [NAME]     schedules that chance doesn't find, or seldom

Rules beside those of model.py: none: who waits for purges tells no state, so a change of members begins the wait anew; atonce: locks are lost when
a view is decided, not when the state has come; viewmark: a message of another view is passed over; dedup is model.py's numbers. Of each rule it is
shown what goes wrong without it (try-rules), but of viewmark: in this net what is queued over a change of ring comes before the HELLOs, and what
is delivered over a change of the group alone is told by its number.
"""
import argparse
import collections
import heapq
import random

RULES = frozenset(['acks', 'drop', 'wait', 'none', 'dedup', 'viewmark', 'atonce'])
# How long it takes at most, where all is whole, that a lock is let go and the next one has it.
TURN_MS = 400

class Wrong(Exception):
    pass

class Table:
    """What follows of a log: who holds the lock and who waits for it, and what is known of the nodes."""
    __slots__ = ('holder', 'queue', 'silent', 'kept', 'purged', 'numbers', 'members', 'view')

    def __init__(self):
        self.holder, self.queue, self.silent, self.kept = None, (), frozenset(), ()
        self.purged, self.numbers, self.members, self.view = frozenset(), {}, frozenset(), (0, 0)

    def copy(self):
        table = Table.__new__(Table)
        for name in Table.__slots__:
            setattr(table, name, getattr(self, name))
        return table

    def note(self, entry):
        """The table behind an entry."""
        table, op = self.copy(), entry[0]
        if op == 'view':
            _, table.view, table.members, silent = entry
            table.purged, table.silent = table.purged - table.members, silent
            table.drain()
            return table
        if op in ('lock', 'unlock'):
            process = (entry[1], entry[2])
            table.numbers = {**table.numbers, process: max(table.numbers.get(process, 0), entry[3])}
        if table.silent and not (op == 'purge' and entry[1] in table.silent):
            table.kept += (entry,)
            return table
        table.do(entry)
        if op == 'purge' and entry[1] in table.silent:
            table.silent -= {entry[1]}
            table.drain()
        return table

    def drain(self):
        """What was kept while purges were waited for is done once there are none to wait for."""
        if not self.silent:
            kept, self.kept = self.kept, ()
            for entry in kept:
                self.do(entry)

    def do(self, entry):
        op, node = entry[0], entry[1]
        if op == 'lock':
            if self.holder is None:
                self.holder = node
            elif node != self.holder and node not in self.queue:
                self.queue += (node,)
            return
        self.queue = tuple(waiting for waiting in self.queue if waiting != node)
        if op == 'purge':
            self.purged |= {node}
        if self.holder == node:
            self.holder = None
        if self.holder is None and self.queue:
            self.holder, self.queue = self.queue[0], self.queue[1:]


class Log:
    """A log, as a list from its end."""
    __slots__ = ('previous', 'entry', 'length', 'digest', 'table')

    def __init__(self, previous=None, entry=None):
        self.previous, self.entry = previous, entry
        self.length = previous.length + 1 if previous else 0
        self.digest = hash((previous.digest, entry)) if previous else 0
        self.table = previous.table.note(entry) if previous else Table()

    def at(self, length):
        log = self
        while log.length > length:
            log = log.previous
        return log

    def begins(self, other):
        return self.length <= other.length and other.at(self.length).digest == self.digest


EMPTY = Log()


class Ring:
    def __init__(self, number, members):
        self.number, self.members, self.messages, self.token = number, frozenset(members), [], None


class Node:
    """A node, and the process that runs there."""

    def __init__(self, name):
        self.name, self.up, self.alive, self.process = name, True, True, 0
        self.ring, self.received, self.next, self.queue, self.cut, self.entered = None, set(), 0, [], None, True
        self.config, self.ring_of_view, self.now_view, self.base, self.is_acknowledgement_due = None, None, (0, 0), 0, False
        self.start()

    def start(self):
        """A process that starts knows nothing."""
        self.process += 1
        self.view, self.log, self.applied = (0, 0), None, 0
        self.client, self.overtaken, self.number, self.out = 'idle', False, 0, []
        self.vouched, self.joined, self.group = 0, False, {}
        self.leave()

    def leave(self):
        """There is no view until all have said hello."""
        self.installed, self.taking, self.hellos, self.acks, self.buffer = False, None, {}, {}, []


class World:
    """The net, rings and their messages, and on them members of the protocol in Python; who has others (replicas.py) puts them in the place of the
    methods behind "a member"."""
    node_class = Node

    def __init__(self, seed, options):
        self.r = random.Random(seed)
        self.options, self.rules, self.count = options, options.rules, options.nodes
        self.votes = [self.r.choice([1, 1, 2, 3]) if options.votes else 1 for _ in range(self.count)]
        self.total = sum(self.votes)
        self.witness = set(self.r.sample(range(self.count), 1)) if options.witness else set()
        self.grace, self.lag = options.grace, options.lag
        self.now = self.rings = self.timers = self.told = self.lost_count = 0
        self.todo, self.trace = [], []
        self.nodes = [self.node_class(name) for name in range(self.count)]
        self.part = [0] * self.count
        self.steps = [[1, 3, 10, 50, 300, 1000, 4000], [1, 3, 10, 30, 30, 60, 100, 300], [1, 2, 5, 20, 40, 1500]][seed % 3]
        self.weights = {'client': 40, 'net': self.r.choice([4, 8, 14]), 'dies': self.r.choice([2, 6, 12]), 'starts': 14,
                        'crash': self.r.choice([0, 2, 4]), 'boot': 5, 'heals': 5}
        self.form(0)

    def has_majority(self, members):
        return 2 * sum(self.votes[m] for m in members) > self.total

    def later(self, delay, call, *words):
        self.timers += 1
        heapq.heappush(self.todo, (self.now + delay, self.timers, call, words))

    def say(self, *words):
        self.trace.append('%7d ' % self.now + ' '.join(map(str, words)))

    # -- rings

    def form(self, part):
        """All nodes of this part that are up make a ring; each sees it at a moment of its own, with what it is still delivered of the old one."""
        members = [n for n in self.nodes if n.up and self.part[n.name] == part]
        if not members:
            return
        self.rings += 1
        ring, last = Ring(self.rings, (n.name for n in members)), {}
        for old in sorted({n.ring for n in members if n.ring}, key=lambda r: r.number):
            together = [n for n in members if n.ring is old]
            union = sorted(set().union(*(n.received for n in together)))
            for n in together:
                last[n] = [(old, index) for index in union if index >= n.next]
            for n in self.nodes:
                if n.ring is old and n not in together and n.cut is None:
                    n.cut = self.now
        alive = [n.name for n in members if n.alive]
        self.say('ring', ring.number, sorted(ring.members), 'alive', alive, 'majority' if self.has_majority(ring.members) else '')
        for n in members:
            n.ring, n.cut, n.received, n.next, n.entered = ring, None, set(), 0, False
            self.later(self.r.choice([0, 0, 1, 5, 30]), self.enter, n, ring, last.get(n, []), n.process)
        self.fix_tokens()

    def enter(self, n, ring, last, process):
        if n.ring is not ring or not n.up:
            return
        if n.alive and n.process == process:
            for old, index in last:
                self.deliver(n, old, index)
            self.ring_ends(n)
        n.entered = True
        queue, n.queue = n.queue, []
        for message in queue:
            self.put(n, message)
        n.joined |= n.alive
        self.put(n, (n.name, n.process if n.alive else 0, 'member', None, None))
        self.deliver_received(n, ring)

    def can_send(self, n):
        return n.up and n.ring and n.entered and (n.ring.token is None or self.part[n.name] == n.ring.token)

    def put(self, n, message):
        """Sends, or queues until the node may send."""
        if not self.can_send(n):
            n.queue.append(message)
            return
        n.ring.messages.append(message)
        for m in self.nodes:
            if m.ring is n.ring and self.part[m.name] == self.part[n.name]:
                delay = 0 if m is n else self.r.choice([1, 2, 5, 40])
                self.later(delay, self.receive, m, n.ring, len(n.ring.messages) - 1, self.part[n.name])

    def send(self, n, kind, what, view=None):
        self.put(n, (n.name, n.process, kind, view, what))

    def receive(self, m, ring, index, part):
        if m.ring is not ring or not m.up or self.part[m.name] != part:
            return
        reached = [o for o in self.nodes if o.ring is ring and self.part[o.name] == part]
        m.received |= {index} | {earlier for earlier in range(m.next, index) if any(earlier in o.received for o in reached)}
        self.deliver_received(m, ring)

    def deliver_received(self, n, ring):
        while n.ring is ring and n.entered and n.next in n.received:
            n.next += 1
            self.deliver(n, ring, n.next - 1)

    def deliver(self, n, ring, index):
        if not n.alive or not n.joined:
            return
        sender, process, kind, view, what = ring.messages[index]
        if kind == 'member':
            self.hear_member(n, ring, index, sender, process)
        else:
            self.hear_message(n, ring, ring.messages[index])

    def hear_member(self, n, ring, index, sender, process):
        """Which process a node has in the group (0: none): the group is known where that of all nodes of the ring is."""
        if n.ring is not ring:
            return
        if n.group.get('ring') is not ring:
            n.group = {'ring': ring, 'of': {}}
        if n.group['of'].get(sender) == process:
            return
        n.group['of'][sender] = process
        n.config = (ring.number, index)
        if len(n.group['of']) == len(ring.members):
            self.group_changes(n, ring)

    # -- a member

    def ring_ends(self, n):
        if n.log is not None and 'drop' in self.rules and (n.ring_of_view == n.view or n.installed and not n.taking):
            n.log = n.log.at(min(max(n.vouched, n.base), n.log.length))
            n.applied = min(n.applied, n.log.length)
        n.leave()
        n.vouched, n.ring_of_view = 0, None

    def has_state(self, n):
        return n.log is not None and not ('none' in self.rules and n.log.table.silent)

    def group_changes(self, n, ring):
        n.leave()
        if self.has_majority(ring.members):
            self.send(n, 'hello', (n.config, n.process, n.view, n.log if self.has_state(n) else None))

    def hear_message(self, n, ring, message):
        kind, what = message[2], message[4]
        if kind == 'hello':
            if n.ring is ring and n.group.get('ring') is ring and what[0] == n.config:
                n.hellos[message[0]] = what
                self.try_install(n, ring)
        elif n.taking is not None and kind != 'state':
            n.buffer.append(message)
        else:
            self.hear(n, message)

    def hear(self, n, message):
        sender, process, kind, view, what = message
        if kind == 'state':
            if n.taking is not None and view == n.taking:
                self.take(n, what)
        elif not n.installed or view != n.now_view and ('viewmark' in self.rules or kind == 'ack'):
            return
        elif kind == 'ack':
            self.hear_ack(n, sender, *what)
        elif kind == 'purge':
            if what not in n.log.table.members:
                self.order(n, ('purge', what))
        elif 'dedup' not in self.rules or what > n.log.table.numbers.get((sender, process), 0):
            self.order(n, (kind, sender, process, what))

    def hear_ack(self, n, sender, length, digest):
        if length <= n.log.length and n.log.at(length).digest == digest:
            n.acks[sender] = max(n.acks.get(sender, 0), length)
            n.vouched = max(n.vouched, length)
            self.look(n)

    def order(self, n, entry):
        n.log = Log(n.log, entry)
        if entry[0] == 'unlock' and entry[1:3] == (n.name, n.process) and n.client == 'unlocks' and entry[3] == n.number:
            n.client = 'idle'
        self.acknowledge(n)
        self.look(n)

    def acknowledge(self, n):
        if not n.is_acknowledgement_due:
            n.is_acknowledgement_due = True
            self.later(self.r.choice([0, 0, 1]), self.do_acknowledge, n, n.process, n.now_view)

    def do_acknowledge(self, n, process, view):
        n.is_acknowledgement_due = False
        if n.process == process and n.alive and n.installed and n.now_view == view and n.taking is None and self.has_state(n):
            self.send(n, 'ack', (n.log.length, n.log.digest), view)

    def committed(self, n):
        """How much of the log a majority has acknowledged."""
        if 'acks' not in self.rules:
            return n.log.length
        lengths = sorted(set(n.acks.values()), reverse=True)
        return next((length for length in lengths if self.has_majority([m for m, l in n.acks.items() if l >= length])), 0)

    def look(self, n):
        n.applied = max(n.applied, self.committed(n))
        table = n.log.at(n.applied).table
        done = table.numbers.get((n.name, n.process), 0)
        n.out = [request for request in n.out if request[1] > done]
        if n.client == 'asked' and table.holder == n.name and done >= n.number and not table.silent:
            n.told_view, n.told_log = n.now_view, n.log.at(n.applied)
            self.tell(n)

    def tell(self, n):
        n.client, n.overtaken = 'told', False
        self.told += 1
        self.say('told', n.name)

    def lose(self, n):
        self.lost_count += n.client == 'told'
        n.client, n.overtaken, n.out = 'idle', False, []

    def try_install(self, n, ring):
        group = {m for m, process in n.group['of'].items() if process}
        if n.installed or n.name not in group or not group <= set(n.hellos) or not self.has_majority(group):
            return
        if all(n.hellos[m][1] == n.group['of'][m] for m in group):
            self.install(n, ring, {m: n.hellos[m] for m in group})

    def install(self, n, ring, hellos):
        base, losers, latest = self.decide(hellos)
        view, missing = n.config, frozenset(range(self.count)) - ring.members
        waits = missing if latest is None and 'wait' in self.rules else frozenset() if latest is None else base.table.silent
        log = Log(base, ('view', view, frozenset(hellos), waits))
        for entry in [('losepurge', m, view) for m in sorted(losers)] + [('purge', m, view) for m in sorted(ring.members - set(hellos))]:
            log = Log(log, entry)
        n.installed, n.now_view, n.is_acknowledgement_due = True, view, False
        self.check_view(n, view, log, losers)
        having = [m for m in sorted(hellos) if hellos[m][3] is not None and hellos[m][2] == latest and hellos[m][3].digest == base.digest]
        self.say('view', view, 'at', n.name, 'of', base.length, 'losers', sorted(losers), 'waits for', sorted(waits), '' if n.name in having else 'takes')
        n.applied = 0 if n.name in losers else n.applied
        if n.name in losers and ('atonce' in self.rules or latest is None):
            self.lose(n)
        if latest is None or n.name in having:
            self.take(n, log)
        else:
            n.taking = view
            if n.name in losers:
                n.log, n.view, n.applied = None, (0, 0), 0
        if having and having[0] == n.name and len(having) < len(hellos):
            self.later(self.r.choice([0, 5, 50, 400]), self.give, n, n.process, view, log)
        if missing:
            self.later(self.grace + self.r.choice([0, 0, 3, 30, 300]), self.purge, n, n.process, view, missing)

    def give(self, n, process, view, log):
        if n.alive and n.process == process and n.installed and n.now_view == view:
            self.send(n, 'state', log, view)

    def take(self, n, log):
        is_late, n.taking, n.log, n.vouched = n.taking is not None, None, log, 0
        n.view = n.ring_of_view = n.now_view
        n.base = log.length
        if is_late and 'atonce' not in self.rules and has_lost(log, n.name):
            self.lose(n)
        buffer, n.buffer = n.buffer, []
        done = log.table.numbers.get((n.name, n.process), 0)
        for op, number in n.out:
            if 'dedup' not in self.rules or number > done:
                self.send(n, op, number, n.now_view)
        self.acknowledge(n)
        for message in buffer:
            self.hear(n, message)
        self.look(n)

    def decide(self, hellos):
        """The log that a view goes on from, whose locks are lost, and of which view it was; None: it begins with none."""
        having = {m: hello for m, hello in hellos.items() if hello[3] is not None}
        latest = max((hello[2] for hello in having.values()), default=None)
        of_it = {m: hello for m, hello in having.items() if hello[2] == latest}
        if not self.has_majority(of_it):
            return EMPTY, set(hellos), None
        base = max((hello[3] for hello in of_it.values()), key=lambda log: log.length)
        others = {m for m, hello in of_it.items() if not hello[3].begins(base)}
        if others and 'drop' in self.rules:
            raise Wrong('logs of one view are not beginnings of one another')
        return base, set(hellos) - set(of_it) | others, latest

    def purge(self, n, process, view, missing):
        if n.alive and n.process == process and n.installed and n.now_view == view and n.taking is None:
            for m in sorted(missing):
                if m not in n.log.table.purged or m in n.log.table.silent:
                    self.send(n, 'purge', m, view)

    def ask(self, n, op):
        n.number += 1
        n.out.append((op, n.number))
        self.send(n, op, n.number, n.now_view)

    def may_ask(self, n):
        return n.installed and n.taking is None

    def is_in_view(self, n):
        return n.installed

    # -- what may not happen

    def check_view(self, n, view, log, losers):
        for p in self.nodes:
            if not (p.up and p.alive and p.client == 'told') or p.told_view >= view or p.told_log.begins(log) or p.name in losers or p.ring.number > view[0]:
                continue
            if p.name not in log.table.silent and not was_purged_since(log, p.name, p.told_view):
                raise Wrong('%d was told a lock that view %s has not' % (p.name, view))

    def may_write(self, n):
        return n.up and n.alive and n.client == 'told' and self.is_in_view(n)

    def check(self):
        writers = [n for n in self.nodes if self.may_write(n)]
        if len(writers) > 1:
            raise Wrong('two may write: %s' % [n.name for n in writers])
        for n in writers:
            if n.overtaken:
                raise Wrong('%d writes on under a lock under which another one wrote' % n.name)
            for o in self.nodes:
                o.overtaken |= o is not n and o.client == 'told'

    # -- the net

    def fix_tokens(self):
        """Of a ring that is cut in parts one part has the token, and can send until it sees that it is cut off."""
        for ring in sorted({n.ring for n in self.nodes if n.ring}, key=lambda ring: ring.number):
            inside = [n for n in self.nodes if n.ring is ring]
            parts = sorted({self.part[n.name] for n in inside})
            if len(parts) == 1 and len(inside) == len(ring.members):
                continue
            if ring.token not in parts:
                ring.token = self.part[self.r.choice(sorted(n.name for n in inside))]
            for n in inside:
                n.cut = self.now if n.cut is None else n.cut

    def net_changed(self):
        self.say('net', self.part)
        for ring in {n.ring for n in self.nodes if n.ring}:
            inside = [n for n in self.nodes if n.ring is ring]
            if len({self.part[n.name] for n in inside}) > 1 or len(inside) < len(ring.members):
                ring.token = None
        self.fix_tokens()
        for part in sorted(set(self.part)):
            members = [n for n in self.nodes if n.up and self.part[n.name] == part]
            delay = self.r.choice([self.r.randrange(1, self.lag), 5, 20, 60, self.lag - 1])
            for n in members:
                if n.cut is not None:
                    delay = max(0, min(delay, n.cut + self.lag - self.now))
            self.later(delay, self.notice, part, frozenset(n.name for n in members))

    def notice(self, part, members):
        now = frozenset(n.name for n in self.nodes if n.up and self.part[n.name] == part)
        if now == members and any(n.ring is None or n.ring.members != members or n.cut is not None for n in self.nodes if n.name in members):
            self.form(part)

    def change_net(self):
        before, names = list(self.part), self.r.sample(range(1, 1000), self.r.choice([1, 1, 2, 2, 3]))
        self.part = [self.r.choice(names) for _ in self.nodes]
        if self.r.random() < 0.5:
            self.part = [b if self.r.random() < 0.6 else p for b, p in zip(before, self.part)]
        self.net_changed()

    # -- what happens

    def client_acts(self, n):
        if n.name in self.witness:
            return
        if n.client == 'idle':
            n.client = 'asked'
            self.ask(n, 'lock')
        elif n.client == 'told' and self.r.random() < 0.6:
            n.client = 'unlocks'
            self.ask(n, 'unlock')

    def process_dies(self, n):
        self.say('process dies', n.name)
        n.alive = False
        n.start()
        self.put(n, (n.name, 0, 'member', None, None))

    def process_starts(self, n):
        self.say('process starts', n.name)
        n.start()
        n.alive, n.group = True, {'ring': n.ring, 'of': {}}
        self.later(0, self.joins, n, n.process)

    def joins(self, n, process):
        """It learns the group as it is at this place, by a message of its own; where the node can't send, with the next ring."""
        if n.process != process or not n.alive or not n.ring or not n.entered:
            return
        n.joined = True
        if n.ring.token is not None and self.part[n.name] != n.ring.token:
            return
        of = {message[0]: message[1] for message in n.ring.messages if message[2] == 'member'}
        of.pop(n.name, None)
        n.next, n.group = len(n.ring.messages), {'ring': n.ring, 'of': of}
        n.received = {index for index in n.received if index >= n.next}
        self.put(n, (n.name, n.process, 'member', None, None))

    def node_dies(self, n):
        self.say('node dies', n.name)
        n.up = n.alive = False
        n.start()
        n.ring, n.queue, n.cut = None, [], None
        self.net_changed()

    def node_starts(self, n):
        self.say('node starts', n.name)
        n.start()
        n.up = n.alive = True
        n.ring, n.received, n.next = None, set(), 0
        self.form(self.part[n.name])

    def heal(self):
        self.part = [0] * self.count
        self.net_changed()

    def event(self):
        n, names = self.r.choice(self.nodes), list(self.weights)
        what = self.r.choices(names, [self.weights[name] for name in names])[0]
        if what == 'client' and n.up and n.alive and self.may_ask(n):
            self.client_acts(n)
        elif what == 'net':
            self.change_net()
        elif what == 'heals':
            self.heal()
        elif what == 'dies' and n.up and n.alive:
            self.process_dies(n)
        elif what == 'starts' and n.up and not n.alive:
            self.process_starts(n)
        elif what == 'crash' and n.up:
            self.node_dies(n)
        elif what == 'boot' and not n.up:
            self.node_starts(n)

    def run_until(self, time):
        while self.todo and self.todo[0][0] <= time:
            self.now, _, call, words = heapq.heappop(self.todo)
            call(*words)
            self.check()
        self.now = time
        self.check()

    def run(self):
        for _ in range(self.options.events):
            self.run_until(self.now + self.r.choice(self.steps))
            self.event()
            self.check()
        self.end_well()

    # -- the end

    def table_of(self, n):
        """The member's table, as a value that is the same where tables are."""
        return n.log.at(n.applied).digest if n.log else 0

    def locks_of(self, n):
        """How many locks and waits the member's table has."""
        table = n.log.at(n.applied).table if n.log else EMPTY.table
        return (table.holder is not None) + len(table.queue) + len(table.kept)

    def end_well(self):
        """All is whole, and all processes run: each gets the lock in turn, and all have one table."""
        for n in self.nodes:
            if not n.up:
                self.node_starts(n)
            elif not n.alive:
                self.process_starts(n)
        self.heal()
        self.run_until(self.now + 5000)
        self.form(0)
        self.run_until(self.now + 5000)
        self.let_all_go()
        self.let_all_have_it()
        self.run_until(self.now + TURN_MS)
        tables = {self.table_of(n) for n in self.nodes}
        if len(tables) > 1 or not all(self.is_in_view(n) for n in self.nodes):
            raise Wrong('all is whole, and tables differ: %s, %s' % (tables, [self.is_in_view(n) for n in self.nodes]))

    def let_all_go(self):
        """Those who have the lock, or asked for it, have it and let it go; then nobody has it, nor waits."""
        for _ in range(2 * self.count):
            for n in self.nodes:
                if n.client == 'told':
                    n.client = 'unlocks'
                    self.ask(n, 'unlock')
            self.run_until(self.now + TURN_MS)
        locks = [self.locks_of(n) for n in self.nodes]
        if any(locks) or any(n.client != 'idle' for n in self.nodes):
            raise Wrong('all have let go, and there are %s locks: %s' % (locks, [n.client for n in self.nodes]))

    def let_all_have_it(self):
        """Those who asked before are granted in turn, and whoever didn't asks."""
        for n in self.nodes:
            if n.client == 'idle':
                n.client = 'asked'
                self.ask(n, 'lock')
        for _ in self.nodes:
            self.run_until(self.now + TURN_MS)
            holders = [n for n in self.nodes if n.client == 'told']
            if len(holders) != 1:
                raise Wrong('all is whole, and the lock has %d holders: %s' % (len(holders), [n.client for n in self.nodes]))
            holders[0].client = 'unlocks'
            self.ask(holders[0], 'unlock')


def was_purged_since(log, name, view):
    while log.entry:
        if log.entry[0] in ('purge', 'losepurge') and log.entry[1] == name:
            return True
        if log.entry[0] == 'view' and log.entry[1] <= view:
            return False
        log = log.previous
    return False


def has_lost(log, name):
    while log.entry and log.entry[0] != 'view':
        if log.entry[0] == 'losepurge' and log.entry[1] == name:
            return True
        log = log.previous
    return False


# -- schedules that chance doesn't find

def cut(world, parts, token, notices):
    """The net is cut into these parts, of which `token` has the token; which of them sees it after how many milliseconds."""
    world.part = list(parts)
    for ring in {n.ring for n in world.nodes if n.ring}:
        inside = [n for n in world.nodes if n.ring is ring]
        if len({world.part[n.name] for n in inside}) > 1 or len(inside) < len(ring.members):
            ring.token = token
            for n in inside:
                n.cut = world.now if n.cut is None else n.cut
    for delay, part in notices:
        world.later(delay, world.form, part)


def ask_if_idle(world, name):
    n = world.nodes[name]
    if n.alive and n.client == 'idle' and world.may_ask(n):
        world.client_acts(n)


def state_of_a_broken_ring(world):
    nodes = world.nodes
    world.run_until(5000)
    cut(world, [0, 0, 0, 1, 1], 0, [(10, 0), (10, 1)])
    world.run_until(5600)
    ask_if_idle(world, 2)
    world.run_until(5900)
    if nodes[2].client != 'told':
        return 'not told'
    world.process_dies(nodes[0])
    world.run_until(5950)
    cut(world, [0, 1, 1, 0, 0], 1, [(20, 0)])
    world.run_until(6060)
    world.process_starts(nodes[0])
    world.run_until(6200)
    cut(world, [0, 0, 1, 0, 0], 1, [(20, 0)])
    world.run_until(6400)
    ask_if_idle(world, 3)
    world.run_until(6700)
    return 'as it should be'


def majority_of_one_that_knows(world):
    nodes = world.nodes
    world.run_until(5000)
    cut(world, [1, 0, 0], 1, [(10, 0)])
    ask_if_idle(world, 0)
    world.run_until(5150)
    ask_if_idle(world, 1)
    world.run_until(5350)
    if nodes[1].client != 'told':
        return 'not told'
    cut(world, [0, 1, 0], 1, [(20, 0)])
    world.run_until(5355)
    world.process_dies(nodes[2])
    world.run_until(5450)
    world.process_starts(nodes[2])
    world.run_until(6000)
    return 'as it should be'


def purged_and_back(world):
    nodes = world.nodes
    world.run_until(5000)
    cut(world, [0, 0, 0, 0, 1], 0, [(10, 0), (10, 1)])
    world.run_until(9000)
    cut(world, [1, 0, 0, 0, 0], 0, [(10, 0)])
    world.run_until(9500)
    ask_if_idle(world, 4)
    world.run_until(9600)
    if nodes[4].client != 'told':
        return 'not told'
    cut(world, [0, 0, 0, 0, 1], 0, [(30, 0)])
    world.run_until(9610)
    for name in 1, 2, 3:
        world.process_dies(nodes[name])
    world.run_until(9700)
    for name in 1, 2, 3:
        world.process_starts(nodes[name])
    world.run_until(9850)
    ask_if_idle(world, 1)
    ask_if_idle(world, 0)
    world.run_until(10200)
    return 'as it should be'


def log_with_a_hole(world):
    """Nodes 0 and 4 miss a lock of node 3, and then send alone: as their ring breaks they are delivered what they sent, without what was before."""
    nodes = world.nodes
    world.run_until(5000)
    ask_if_idle(world, 3)
    cut(world, [1, 0, 0, 0, 1], 0, [])
    world.run_until(5200)
    if nodes[3].client != 'told':
        return 'not told'
    cut(world, [1, 0, 0, 0, 1], 1, [(10, 1)])
    ask_if_idle(world, 0)
    ask_if_idle(world, 4)
    world.run_until(5300)
    cut(world, [1, 1, 0, 0, 1], 1, [(10, 1)])
    world.run_until(5800)
    return 'as it should be'


def unlock_that_is_sent_again(world):
    """Node 0, cut off with the token, lets its lock go and asks for it again; joined, it knows of neither that all have it already."""
    n = world.nodes[0]
    world.run_until(5000)
    ask_if_idle(world, 0)
    world.run_until(5200)
    if n.client != 'told':
        return 'not told'
    cut(world, [1, 0, 0], 1, [])
    n.client = 'unlocks'
    world.ask(n, 'unlock')
    world.run_until(5210)
    ask_if_idle(world, 0)
    world.run_until(5220)
    cut(world, [0, 0, 0], 0, [(10, 0)])
    for time in range(5230, 5400):
        world.run_until(time)
        ask_if_idle(world, 1)
    world.run_until(6000)
    return 'as it should be'


SCHEDULES = {state_of_a_broken_ring: 5, majority_of_one_that_knows: 3, purged_and_back: 5, log_with_a_hole: 5, unlock_that_is_sent_again: 3}


def run_schedules(world_class, options):
    wrong = 0
    for schedule, count in SCHEDULES.items():
        if options.schedules not in ('all', schedule.__name__):
            continue
        seen = collections.Counter()
        options.nodes, options.events, options.votes, options.witness, options.grace = count, 0, False, False, 3000
        for seed in range(300):
            try:
                seen[schedule(world_class(seed, options))] += 1
            except Wrong as e:
                seen['wrong: %s' % str(e)[:40]] += 1
                wrong += 1
        print('%s: %s' % (schedule.__name__, dict(seen)), flush=True)
    return wrong


def run_at_random(world_class, options):
    first, last = map(int, options.runs.split('..'))
    wrong = told = lost = 0
    for seed in range(first, last + 1):
        world = world_class(seed, options)
        try:
            world.run()
        except Wrong as e:
            wrong += 1
            if wrong <= 2:
                print('seed %d, %d ms: %s' % (seed, world.now, e))
                print('\n'.join(world.trace[-40:] if options.trace else []))
        told, lost = told + world.told, lost + world.lost_count
    numbers = (options.nodes, options.without or 'nothing', last - first + 1, told, lost, wrong)
    print('%d nodes, without %s: %d runs, %d locks told, %d lost, %d wrong' % numbers, flush=True)
    return wrong


def main(world_class=World, description=__doc__):
    parser = argparse.ArgumentParser(description=description, formatter_class=argparse.RawDescriptionHelpFormatter)
    parser.add_argument('--nodes', type=int, default=3)
    parser.add_argument('--runs', default='1..2000')
    parser.add_argument('--events', type=int, default=200)
    parser.add_argument('--grace', type=int, default=1100)
    parser.add_argument('--lag', type=int, default=1000)
    parser.add_argument('--without', default='')
    for name in ('votes', 'witness', 'trace'):
        parser.add_argument('--' + name, action='store_true')
    parser.add_argument('--schedules', nargs='?', const='all', choices=['all', *(schedule.__name__ for schedule in SCHEDULES)])
    parser.add_argument('--library', help='of replicas.py')
    options = parser.parse_args()
    options.rules = RULES - set(options.without.split(','))
    return (run_schedules if options.schedules else run_at_random)(world_class, options) > 0


if __name__ == '__main__':
    raise SystemExit(main())
