"""The world around the stripes of stripe.py: disks that lose power, calls that are made at any
moment, clients' operations, the mirror's care for a leg as a whole, saves and starts. `moves` says
what may happen next, `do` does it.
"""
from moves import Moves
from stripe import IN, JOIN, OUT, Call, Disk, Stripe, need


class Shape:
    """Sizes, and how much may go wrong."""
    legs, stripes, blocks, region, chunk, span = 2, 1, 2, 1, 1, 1
    gate = False            # there are superblocks
    garbage = False         # a failed write may leave neither old nor new bytes
    quick = False           # power may be back as soon as a call failed
    unread = False          # and a failed read is taken for a bad sector: a matter of its stripe
    returns = True          # legs come back by Return; else by Attach, and none loses power alone
    out_first = ()
    fails = owns = timeouts = outs = attaches = replaces = cuts = restarts = rests = 0
    ops = ()                # ('w', stripe, first, count) ('p', stripe, block) ('r', ..) ('f', stripe)
    naive = frozenset()     # ('s', stripe): a flush by Sync; ('m', stripe): marks are cleared
    weights = {}            # of moves, beside those of calls.py

    def __init__(self, **given):
        for name, value in given.items():
            setattr(self, name, value)


class Op:
    def __init__(self, spec):
        self.kind, self.stripe, self.spec = spec[0], spec[1], spec[2:]
        self.state, self.acted = 'new', 0


class World(Moves):
    def __init__(self, shape):
        self.shape = shape
        self.stripes = [Stripe(number, self) for number in range(shape.stripes)]
        self.files = [Disk(leg, leg, [s.array for s in self.stripes]) for leg in range(shape.legs)]
        self.disks = self.files[:]              # of each leg the one in its place
        self.returning = [set() for _ in self.disks]
        self.withdrawn = set()
        self.calls, self.made = {}, {}
        self.ops = [Op(spec) for spec in shape.ops]
        self.budget = {name: getattr(shape, name) for name in (
            'fails', 'owns', 'timeouts', 'outs', 'attaches', 'replaces', 'cuts', 'restarts', 'rests')}
        self.found = {}

    def on(self, name):
        return name in self.shape.naive

    def zeroes(self, stripe):
        return [('zero', 'zero')] * self.shape.blocks

    def spend(self, name):
        self.budget[name] -= 1

    # ---- what stripes ask for

    def call(self, kind, stripe, leg, op, blocks, data, owner):
        at = (kind, stripe.number, leg, op)
        self.made[at] = self.made.get(at, -1) + 1
        call = Call(at + (self.made[at],), stripe.number, leg, stripe.opening[leg],
                    self.disks[leg], blocks, data, owner)
        self.calls[call.key] = call
        return call

    def acts(self, op):
        o = self.ops[op]
        need(o.state == 'begun' and not o.acted, 'operation %d acts twice, or at a wrong time', op)
        o.acted = 1

    def note_begin(self, stripe, blocks):
        for o in self.flushes(stripe.number):
            o.excluded |= set(blocks)

    def flushes(self, stripe):
        return [o for o in self.ops if o.kind in 'fsm' and o.state == 'begun' and o.stripe == stripe]

    # ---- it happens

    def do(self, move):
        before = {(s.number, leg, s.opening[leg]): s.left(leg) for s in self.stripes
                  for leg in range(self.shape.legs) if s.state[leg] == JOIN}
        getattr(self, 'do_' + move[0].replace(' ', '_'))(*move[1:])
        for (number, leg, opening), was in before.items():
            s = self.stripes[number]
            if s.state[leg] == JOIN and s.opening[leg] == opening:
                need(s.left(leg) <= was, 'leg %d has more to copy than before', leg)

    def blocks(self, o):
        return range(o.spec[0], o.spec[0] + (o.spec[1] if len(o.spec) > 1 else 1))

    def do_starts(self, number):
        o, s = self.ops[number], self.stripes[self.ops[number].stripe]
        o.state = 'begun'
        if o.kind in 'fsm':
            o.need = s.written[:]
            o.excluded = {b for b in range(self.shape.blocks) if s.busy(b)}
            o.tickets = s.tickets if s.may_settle() else None

    def do_wants_a_mark(self, number):
        s = self.stripes[self.ops[number].stripe]
        s.wanted.add(s.span(self.ops[number].spec[0]))

    def do_begins(self, number):
        o = self.ops[number]
        self.stripes[o.stripe].begin(number, o.spec[0], [(number, number)] * o.spec[1])

    def do_asks_for_the_base(self, number):
        o, s = self.ops[number], self.stripes[self.ops[number].stripe]
        s.ask_read(number, s.master, o.spec[0], 1, is_base=True)

    def do_asks(self, number, leg):
        o = self.ops[number]
        self.stripes[o.stripe].ask_read(number, leg, *o.spec)

    def do_answers_at_once(self, number):
        o, s = self.ops[number], self.stripes[self.ops[number].stripe]
        for b in self.blocks(o):
            need(self.found[(o.stripe, b)] == s.array[b], 'a read of block %d finds %s, and the array'
                 ' has %s', b, self.found[(o.stripe, b)], s.array[b])
        o.acted, o.state = 1, 'replied'

    def do_claims(self, number):
        o = self.ops[number]
        self.stripes[o.stripe].records.pop(number)
        need(o.acted == 1, 'a write is replied to that did not act')
        o.state = 'replied'

    def do_asks_to_sync(self, number, leg):
        o = self.ops[number]
        self.stripes[o.stripe].ask_sync(leg, 'sync' if o.kind == 's' else 'flush')

    def do_ends(self, number):
        o, s = self.ops[number], self.stripes[self.ops[number].stripe]
        o.state = 'replied'
        if o.kind != 'm':
            for b in set(range(self.shape.blocks)) - o.excluded:
                s.flushed[b] = s.array[b]
        elif self.shape.gate and o.tickets is not None and s.may_settle():
            doubted = any(self.disks[leg].doubt for leg, at in enumerate(s.state) if at != OUT)
            same = o.tickets == s.tickets or self.on('settles_after_a_ticket')
            if same and (not doubted or self.on('settles_in_doubt')):
                s.marked = set()

    def do_hands_out(self, number, op, leg):
        self.stripes[number].hand_out(op, leg)

    def do_reserves(self, number, leg, region):
        self.stripes[number].reserve(leg, region)

    def do_gives_up(self, number):
        self.spend('rests')
        self.stripes[number].give_up()

    def do_asks_to_copy(self, number):
        self.stripes[number].ask_copy()

    def do_asks_to_promote(self, number, leg):
        self.stripes[number].ask_sync(leg, 'promote')

    def do_promotes(self, number, leg):
        self.stripes[number].state[leg] = IN

    def do_saves(self, number):
        self.stripes[number].begin_save()

    def do_saved(self, number):
        self.stripes[number].end_save()

    # ---- calls are made

    def do_lands(self, key, block):
        call = self.calls[key]
        call.landed.add(block)
        if call.epoch is None:
            call.epoch = call.disk.epoch
        if call.kind == 'write':
            call.disk.land(call.stripe, block, call.data[block - call.blocks[0]])
        else:
            call.found[block] = call.disk.now[call.stripe][block]

    def do_made(self, key, ok):
        call = self.calls[key]
        rest = [b for b in call.blocks if b not in call.landed]
        if ok:
            for block in rest:
                self.do_lands(key, block)
            again = call.epoch == call.disk.epoch or self.on('a_write_under_way_counts_as_again')
            if call.kind == 'write' and again:
                call.disk.lost[call.stripe] -= set(call.blocks)
        else:
            if call.disk.power:
                self.spend('fails')
            self.tear(call, rest)
            call.disk.told = True
            if not self.on('doubt_at_the_answer'):
                call.disk.doubt = call.disk.whole = True
        call.result = ok

    def tear(self, call, rest):
        if self.shape.garbage and call.kind == 'write' and call.disk.power:
            for block in rest:
                call.disk.land(call.stripe, block, ('torn', str(call.key[3])))

    def do_fails_alone(self, key):
        """A full disk, or a bad sector: a matter of this stripe. After the latter it is in doubt."""
        call = self.calls[key]
        self.spend('owns')
        call.disk.doubt = call.disk.doubt or call.kind == 'read'
        call.disk.told = True
        call.result = False

    def do_times_out(self, key):
        call = self.calls[key]
        self.spend('timeouts')
        call.left = call.disk.told = call.disk.doubt = call.disk.whole = True
        self.stripes[call.stripe].lose(call.leg)

    def do_file_syncs(self, number):
        disk = self.files[number]
        calls = []
        for call in self.waiting(disk):
            if disk.lost[call.stripe] and not self.on('a_failed_sync_is_forgotten'):
                call.result = False             # what an earlier one lost was not written again
            else:
                calls.append(call.key)
        if calls:
            disk.sync = (calls, set())

    def do_hardens(self, number, stripe):
        self.files[number].harden(stripe)
        self.files[number].sync[1].add(stripe)

    def do_file_synced(self, number, ok):
        disk = self.files[number]
        calls, done = disk.sync
        if self.on('joins_a_file_sync_that_runs'):
            calls = calls + [c.key for c in self.waiting(disk)]
        if ok:
            for s in self.stripes:
                if s.number not in done:
                    disk.harden(s.number)
        else:
            self.fail_sync(disk)
        for key in calls:
            if key in self.calls:
                self.calls[key].result = ok
        disk.sync = None

    def fail_sync(self, disk):
        if disk.power:
            self.spend('fails')
            disk.drop()
        disk.epoch += 1
        disk.told = True
        if not self.on('doubt_at_the_answer'):
            disk.doubt = disk.whole = True
        if disk is self.disks[disk.leg]:
            for s in self.stripes:
                lost = set() if self.on('others_are_not_told') and not any(
                    self.calls[k].stripe == s.number for k in disk.sync[0]) else self.may_be_lost(s, disk)
                disk.lost[s.number] |= {b for region in lost for b in s.region_blocks(region)}

    def may_be_lost(self, s, disk):
        """The regions that a failed sync may have taken: unsynced, or with a write that is out."""
        out = {s.region(c.blocks[0]) for c in self.calls.values()
               if c.kind == 'write' and c.stripe == s.number and c.disk is disk}
        if self.on('a_write_out_is_not_lost'):
            out = set()
        if self.on('a_set_aside_is_not_lost'):
            return s.unsynced[disk.leg] | out
        return s.at_risk(disk.leg) | out

    # ---- answers are brought

    def do_answer(self, key):
        call = self.calls.pop(key)
        s, disk, ok = self.stripes[call.stripe], call.disk, call.result
        if not ok and self.on('doubt_at_the_answer'):
            disk.doubt = disk.whole = True
        if call.kind == 'read' and ok and self.is_unseen(disk, s.number):
            call.found = {b: s.array[b] for b in call.blocks}
        if call.kind == 'read' and ok and call.owner is None:
            self.found.update({(call.stripe, b): v for b, v in call.found.items()})
        if s.stopped:
            return
        # a leg that is to go out as a whole, and is not the last, has no good answer any more
        if disk is self.disks[call.leg] and disk.whole and not s.is_late(call) \
                and not s.is_last(call.leg) and not self.on('takes_answers_in_doubt'):
            ok = False
        if call.owner == 'copy':
            s.answer_copy(call, ok)
        elif call.kind == 'write':
            s.answer_write(call, ok)
        elif call.kind == 'read':
            self.end_read(call, s.answer_read(call, ok))
        else:
            self.end_sync(call, s, ok, disk)

    def end_read(self, call, counts):
        if counts is not None:
            self.ops[call.key[3]].state = 'replied' if counts else 'failed'

    def end_sync(self, call, s, ok, disk):
        if self.on('flush_joins_a_sync_out') and ok:
            for o in self.flushes(s.number):
                o.need[call.leg] = 0
        if s.answer_sync(call, ok, disk.doubt):
            for o in self.flushes(s.number):
                if s.covered[call.leg] < o.need[call.leg]:
                    o.state = 'failed'
        if self.on('flush_clears_out'):
            for leg, at in enumerate(s.state):
                if at == OUT and ok:
                    s.unsynced[leg] = set()

    # ---- a leg as a whole

    def do_takes_out(self, number, leg):
        self.stripes[number].lose(leg)

    def do_operator_fails(self, leg):
        self.spend('outs')
        self.disks[leg].whole = True

    def do_cut(self, leg, old):
        self.spend('cuts')
        self.disks[leg].cut(old)
        self.disks[leg].power = self.disks[leg].told = False

    def do_power(self, leg):
        self.disks[leg].power = True

    def do_attaches(self, leg):
        self.spend('attaches')
        for s in self.stripes:
            if not s.stopped and s.state[leg] != OUT and not s.is_last(leg) and not self.on('per_stripe'):
                s.lose(leg)
        self.disks[leg].doubt = self.disks[leg].whole = False
        self.returning[leg] = {s.number for s in self.stripes if s.state[leg] == OUT}

    def do_returns(self, number, leg):
        s = self.stripes[number]
        self.returning[leg].discard(number)
        self.disks[leg].cut_in.discard(number)
        self.withdrawn.discard(leg)
        s.join(leg, s.lacks(leg) if self.shape.returns else ())
        if self.on('a_return_clears'):
            s.unsynced[leg] = set()

    def do_withdraws(self, leg):
        self.withdrawn.add(leg)
        for s in self.stripes:
            s.behind[leg] = s.regions()

    def do_replaces(self, leg):
        self.spend('replaces')
        self.withdrawn.discard(leg)
        junk = [[('junk', 'junk')] * self.shape.blocks for _ in self.stripes]
        self.files.append(Disk(leg, len(self.files), junk))
        self.disks[leg] = self.files[-1]
        self.returning[leg] = set()
        for s in self.stripes:
            s.unsynced[leg] = s.regions()
            s.join(leg, s.regions())

    # ---- the server ends, and starts by its superblocks

    def do_all_power_is_lost(self, pick, old):
        for disk in self.disks:
            disk.cut(old)
        self.do_starts_anew(pick)

    def do_starts_anew(self, pick):
        self.spend('restarts')
        self.calls, self.files = {}, self.disks[:]
        for number, disk in enumerate(self.files):
            disk.number, disk.sync, disk.doubt, disk.whole = number, None, False, False
            disk.lost, disk.cut_in = [set() for _ in self.stripes], set()
        self.returning, self.withdrawn = [set() for _ in self.disks], set()
        for o in self.ops:
            if o.state == 'begun':
                o.state = 'failed'
        for s in self.stripes:
            self.start(s, pick)

    def start(self, s, pick):
        named, lacking = s.named, s.lacking
        if s.saving is not None:
            named, lacking = s.before if pick & 1 else (s.saving[0], s.saving[2])
        master = sorted(named)[(pick >> 1) % len(named)]
        found = self.disks[master].now[s.number]
        for b in range(self.shape.blocks):
            need(s.flushed[b] in (None, found[b]), 'a start finds %s at block %d, flushed was %s',
                 found[b], b, s.flushed[b])
            need(s.is_marked(b) or found[b] == s.array[b], 'a start finds %s at the unmarked block %d,'
                 ' the array had %s', found[b], b, s.array[b])
        marked, s.array = s.marked_regions(), found[:]
        for leg in range(self.shape.legs):
            s.state[leg] = IN if leg == master else JOIN
            s.behind[leg] = set() if leg == master else set(marked) if leg in named | lacking \
                else s.regions()
            s.unsynced[leg] = set() if self.on('start_unmarked') else set(marked)
            s.opening[leg] += 1
            s.written[leg] += 1
        s.named, s.listed = {master}, {master}
        s.lacking = {leg for leg in named | lacking if leg != master and s.behind[leg] != s.regions()}
        s.aside = [set() for _ in s.aside]
        s.open(master)
