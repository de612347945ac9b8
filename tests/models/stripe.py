"""The parts of the model that calls.py walks: a leg's disk, a leg call, and a stripe, whose steps
hand out leg calls and take their answers. A stripe never looks at a disk.
"""
IN, JOIN, OUT = 'in sync', 'joining', 'out'
OWED, ASKED, ISOUT = 'owed', 'asked', 'out'


class Broken(Exception):
    """A promise does not hold."""


def need(ok, text, *args):
    if not ok:
        raise Broken(text % args if args else text)


class Disk:
    """What a leg's file is kept on: for each block of each stripe what reads find, and what a loss
    of power may leave. With it what the server keeps of an open file."""

    def __init__(self, leg, number, contents):
        self.leg, self.number = leg, number
        self.now = [list(blocks) for blocks in contents]
        self.kept = [[{value} for value in blocks] for blocks in contents]
        self.dropped = [set() for _ in contents]    # a failed sync may have dropped them for good
        self.power = True
        self.cut_in = set()         # stripes of which it lost something, until it joins them again
        self.sync = None            # the sync of the file that is under way
        self.epoch = 0              # how many of its syncs have failed
        self.lost = [set() for _ in contents]       # to be written again before a sync is believed
        self.doubt = self.whole = False             # a call failed; with it the leg as a whole
        self.told = False           # a call has failed since the power was lost

    def land(self, stripe, block, value):
        self.now[stripe][block] = value
        self.kept[stripe][block].add(value)
        self.dropped[stripe].discard(block)

    def harden(self, stripe):
        """A sync reaches the stripe's blocks; what an earlier one dropped it passes over."""
        for block, value in enumerate(self.now[stripe]):
            if block not in self.dropped[stripe]:
                self.kept[stripe][block] = {value}

    def drop(self):
        for kept, dropped in zip(self.kept, self.dropped):
            dropped |= {block for block, values in enumerate(kept) if len(values) > 1}

    def cut(self, old):
        """The power is lost. Each bit of `old` tells whether a block goes back."""
        for stripe, kept in enumerate(self.kept):
            for block, values in enumerate(kept):
                others = sorted(values - {self.now[stripe][block]}, key=str)
                if others and old >> (stripe * len(kept) + block) & 1:
                    self.now[stripe][block] = others[0]
                kept[block] = {self.now[stripe][block]}
            self.dropped[stripe].clear()
            self.cut_in.add(stripe)


class Call:
    """A leg call that is out. `result`: None until it was made."""

    def __init__(self, key, stripe, leg, opening, disk, blocks, data, owner):
        self.key, self.kind, self.stripe, self.leg = key, key[0], stripe, leg
        self.opening, self.disk, self.blocks = opening, disk, blocks
        self.data, self.owner = data, owner
        self.landed, self.found = set(), {}
        self.epoch = self.result = None
        self.left = False           # its asker has left it: a timeout


class Record:
    """A write that has begun: for each leg that it owes, whether its call is out."""

    def __init__(self, op, first, data, part, legs):
        self.op, self.first, self.data, self.part = op, first, data, part
        self.legs = {leg: OWED for leg in legs}
        self.landed = False

    def blocks(self):
        return range(self.first, self.first + len(self.data))


class Read:
    """A read that is out, of a client or of the block that a part is laid over."""

    def __init__(self, op, leg, blocks, is_base):
        self.op, self.leg, self.blocks, self.is_base = op, leg, blocks, is_base
        self.void = False


class Sync:
    """A sync that is out, with the set that it moved aside, of a Flush, a Sync or a promotion."""

    def __init__(self, leg, of, upto, moved):
        self.leg, self.of, self.upto, self.moved = leg, of, upto, moved


class Chunk:
    """The open copy: its region and how far it is, and the chunk that is reserved, if one is."""

    def __init__(self, leg, region):
        self.leg, self.region, self.cursor, self.length = leg, region, 0, 0
        self.bytes = self.call = None


class Stripe:
    """One stripe: records, reads, syncs, the open copy, its legs' states, its superblock."""

    def __init__(self, number, world):
        self.number, self.world, self.shape, self.on = number, world, world.shape, world.on
        legs, out = range(self.shape.legs), world.shape.out_first
        self.state = [OUT if leg in out else IN for leg in legs]
        self.behind = [set() for _ in legs]
        self.unsynced = [set() for _ in legs]
        self.aside = [set() for _ in legs]      # (one_set_for_two_syncs)
        self.opening = [0 for _ in legs]
        self.written = [0 for _ in legs]        # writes answered, and how many of them are durable
        self.covered = [0 for _ in legs]
        self.named = {leg for leg in legs if leg not in out}
        self.listed, self.lacking, self.marked = set(self.named), set(), set()
        self.array = world.zeroes(number)
        self.flushed = [None] * self.shape.blocks
        self.tickets = 0
        self.open(min(self.named))

    def open(self, master):
        self.master, self.settling, self.stopped = master, False, False
        self.records, self.reads, self.syncs, self.chunk = {}, {}, {}, None
        self.wanted, self.saving = set(), None

    # ---- looks

    def region(self, block):
        return block // self.shape.region

    def span(self, block):
        return self.region(block) // self.shape.span

    def regions(self):
        return set(range(self.region(self.shape.blocks - 1) + 1))

    def region_blocks(self, region):
        low = region * self.shape.region
        return range(low, min(low + self.shape.region, self.shape.blocks))

    def marked_regions(self):
        return {region for region in self.regions() if region // self.shape.span in self.marked}

    def busy(self, block):
        return next((r for r in self.records.values() if r.legs and block in r.blocks()), None)

    def is_clear(self, leg, block):
        chunk, region = self.chunk, self.region(block)
        return region not in self.behind[leg] or chunk is not None and chunk.leg == leg \
            and chunk.region == region and block < self.region_blocks(region)[0] + chunk.cursor

    def is_current(self, leg, block):
        return self.state[leg] != OUT and self.is_clear(leg, block)

    def is_last(self, leg):
        return self.state[leg] == IN and self.state.count(IN) == 1

    def chunk_blocks(self):
        chunk = self.chunk
        if chunk is None:
            return range(0)
        low = self.region_blocks(chunk.region)[0] + chunk.cursor
        return range(low, low + chunk.length)

    def left(self, leg):
        """How many blocks are to be read, and to be written, for a leg that joins."""
        blocks = sum(len(self.region_blocks(region)) for region in self.behind[leg])
        chunk = self.chunk
        if chunk is None or chunk.leg != leg:
            return 2 * blocks
        return 2 * (blocks - chunk.cursor) - (0 if chunk.bytes is None else chunk.length)

    def at_risk(self, leg):
        """The regions of a leg that are unsynced, those moved aside with them."""
        return set().union(self.unsynced[leg], self.aside[leg],
                           *(s.moved for s in self.syncs.values() if s.leg == leg))

    def is_late(self, call):
        return call.opening != self.opening[call.leg]

    # ---- writes

    def begin_refused(self, first, count):
        blocks = range(first, first + count)
        if self.stopped or self.settling:
            return True
        if not self.on('two_writers_a_block') and any(self.busy(b) for b in blocks):
            return True
        return self.meets_copy(first, count) and not self.on('write_into_a_chunk')

    def meets_copy(self, first, count):
        """Whether blocks meet the chunk that is reserved, or lie on both sides of the copy's place."""
        chunk, place = self.chunk, self.chunk_blocks()
        return chunk is not None and first < place.stop and place.start < first + count

    def begin(self, op, first, data, part=False):
        region = self.region(first)
        legs = [leg for leg in range(self.shape.legs)
                if self.is_current(leg, first) and self.is_current(leg, first + len(data) - 1)]
        for leg, state in enumerate(self.state):
            if state == OUT and not self.on('no_mark_at_begin'):
                self.behind[leg].add(region)
        self.tickets += 1
        self.records[op] = Record(op, first, data, part, legs)
        for block in self.records[op].blocks():
            self.flushed[block] = None
        self.world.note_begin(self, self.records[op].blocks())

    def holds_back(self, record, leg):
        return not self.on('write_beside_a_read') and any(
            not x.void and x.leg == leg and set(x.blocks) & set(record.blocks())
            for x in self.reads.values())

    def hand_out(self, op, leg):
        record = self.records[op]
        if self.holds_back(record, leg):
            record.legs[leg] = ASKED
            return
        record.legs[leg] = ISOUT
        self.world.call('write', self, leg, op, record.blocks(), record.data, op)

    def land(self, record, at_failover=False):
        """The write acts: the array has its bytes, and reads that are out there are void."""
        record.landed = True
        self.world.acts(record.op)
        for block, value in zip(record.blocks(), record.data):
            if record.part:
                need(value[0] == self.array[block][0], 'a part changed the rest of block %d', block)
            self.array[block] = value
        if self.on('no_void_at_failover' if at_failover else 'no_void_at_landing'):
            return
        for x in self.reads.values():
            x.void = x.void or bool(set(x.blocks) & set(record.blocks()))

    def note_written(self, call):
        self.written[call.leg] += 1
        if call.owner != 'copy' or not self.on('copies_unmarked'):
            self.unsynced[call.leg].add(self.region(call.blocks[0]))

    def answer_write(self, call, ok):
        record = self.records.get(call.owner)
        if self.is_late(call) or record is None or call.leg not in record.legs:
            return
        if not ok:
            self.lose_or_stop(call.leg)
            return
        self.note_written(call)
        del record.legs[call.leg]
        lands = call.leg == self.master or self.on('acts_at_first_answer')
        if lands and not record.landed:
            self.land(record)
        self.settled()

    def settled(self):
        self.settling = self.settling and any(r.legs for r in self.records.values())

    # ---- a leg goes out, and comes back

    def lose_or_stop(self, leg):
        if self.is_last(leg):
            self.stopped = True
        else:
            self.lose(leg)

    def put_back(self, leg, moved):
        self.unsynced[leg] |= moved

    def lose(self, leg, all_behind=False):
        self.state[leg] = OUT
        self.opening[leg] += 1
        if not self.on('no_mark_at_loss'):
            self.behind[leg] |= {self.region(r.first) for r in self.records.values() if r.legs}
        if all_behind:
            self.behind[leg] = self.regions()
        self.leave_syncs(leg)
        if self.chunk is not None and self.chunk.leg == leg:
            self.chunk = None
        for record in self.records.values():
            record.legs.pop(leg, None)
        for x in self.reads.values():
            x.void = x.void or x.leg == leg
        if leg == self.master:
            self.fail_over()
        self.settled()

    def leave_syncs(self, leg):
        """What its syncs moved aside is put back. They stay in the list until they are answered."""
        for sync in self.syncs.values():
            if sync.leg == leg and not self.on('a_loss_forgets_the_sets'):
                self.put_back(leg, sync.moved)
        self.unsynced[leg] |= self.aside[leg]
        self.aside[leg] = set()
        if self.on('lost_with_leg'):
            self.unsynced[leg] = set()

    def fail_over(self):
        if self.chunk is not None and self.chunk.call and self.chunk.bytes is None:
            self.chunk.call = None              # its read was of the old master: asked again
        self.master = self.state.index(IN)
        for record in self.records.values():
            if not record.landed and not self.on('failover_lands_nothing'):
                self.land(record, at_failover=True)
        self.settling = True

    def join(self, leg, more=()):
        self.state[leg] = JOIN
        self.opening[leg] += 1
        self.behind[leg] |= set(more)
        self.written[leg] += 1                  # what stands there is not known to be durable

    def lacks(self, leg):
        """Where a leg that comes back may lack something that it was written."""
        if self.on('attach_for_return'):
            return set()
        if self.on('by_the_marks'):
            return self.marked_regions()
        risk = self.at_risk(leg)
        return risk & self.marked_regions() if leg in self.lacking else risk

    # ---- reads

    def readable(self, first, count):
        """The legs that a read may be handed to."""
        blocks = range(first, first + count)
        if self.stopped or self.settling:
            return []
        quiet = not any(r.legs and self.region(r.first) == self.region(first)
                        for r in self.records.values())
        legs = [self.master]
        if quiet or self.on('reads_any_leg'):
            legs = [leg for leg in range(self.shape.legs) if self.is_current(leg, blocks[-1])]
        if self.on('read_beside_a_write'):
            return legs
        return [leg for leg in legs if not any(
            r.legs.get(leg) in (ASKED, ISOUT) and set(r.blocks()) & set(blocks)
            for r in self.records.values())]

    def ask_read(self, op, leg, first, count, is_base=False):
        blocks = range(first, first + count)
        call = self.world.call('read', self, leg, op, blocks, None, None)
        self.reads[call.key] = Read(op, leg, blocks, is_base)

    def answer_read(self, call, ok):
        """True where the read counts, None where its operation asks again, False where it failed."""
        x = self.reads.pop(call.key)
        if x.void and not self.on('late_read_taken'):
            return None
        if ok:
            return self.take(x, [call.found[b] for b in x.blocks])
        if x.void:
            return None
        if self.is_last(call.leg):
            return False
        self.lose(call.leg)
        return None

    def take(self, x, found):
        if x.is_base:
            if self.begin_refused(x.blocks[0], 1) and not self.on('part_begins_blindly') or \
                    not self.is_marked(x.blocks[0]) and not self.on('part_begins_unmarked'):
                return None
            need(found == [self.array[x.blocks[0]]], 'a part is laid over %s, and the array has %s',
                 found[0], self.array[x.blocks[0]])
            self.begin(x.op, x.blocks[0], [(found[0][0], x.op)], True)
            return None
        for block, value in zip(x.blocks, found):
            need(value == self.array[block], 'a read of block %d finds %s, and the array has %s',
                 block, value, self.array[block])
        self.world.acts(x.op)
        return True

    # ---- copies

    def reserve(self, leg, region):
        """The next chunk of a copy: nothing begins in it from now on."""
        if self.chunk is None:
            self.chunk = Chunk(leg, region)
        rest = len(self.region_blocks(region)) - self.chunk.cursor
        self.chunk.length = min(self.shape.chunk, rest)

    def may_read_chunk(self):
        return self.on('copy_over_a_write') or not any(self.busy(b) for b in self.chunk_blocks())

    def ask_copy(self):
        chunk, blocks = self.chunk, self.chunk_blocks()
        if chunk.bytes is None:
            call = self.world.call('read', self, self.master, 'copy', blocks, None, 'copy')
        else:
            call = self.world.call('write', self, chunk.leg, 'copy', blocks, chunk.bytes, 'copy')
        chunk.call = call.key
        if call.kind == 'write' and self.on('chunk_counts_at_hand_out'):
            self.advance()

    def advance(self):
        chunk = self.chunk
        chunk.cursor += chunk.length
        chunk.length, chunk.bytes, chunk.call = 0, None, None
        if chunk.cursor == len(self.region_blocks(chunk.region)):
            self.behind[chunk.leg].discard(chunk.region)
            self.chunk = None

    def is_chunks(self, call):
        chunk = self.chunk
        if chunk is None or chunk.call is None:
            return False
        if self.on('late_copy_taken'):
            return chunk.call[0] == call.kind and (call.kind == 'read' or chunk.leg == call.leg)
        return chunk.call == call.key and not self.is_late(call)

    def answer_copy(self, call, ok):
        if not self.is_chunks(call):
            return
        if ok and call.kind == 'read':
            self.chunk.bytes, self.chunk.call = [call.found[b] for b in call.blocks], None
        elif ok:
            self.note_written(call)
            self.advance()
        elif self.is_last(call.leg):
            self.give_up()
        else:
            self.chunk.call = None
            self.lose(call.leg)

    def give_up(self):
        self.chunk.length, self.chunk.call = 0, None
        if self.chunk.cursor == 0:
            self.chunk = None

    # ---- syncs

    def ask_sync(self, leg, of):
        """A sync is handed out. What is unsynced is moved aside, in a set of its own."""
        call = self.world.call('sync', self, leg, of, range(0), None, None)
        sync = Sync(leg, of, self.written[leg], self.unsynced[leg])
        self.syncs[call.key] = sync
        self.unsynced[leg] = set()
        if self.on('clean_at_hand_out'):
            self.covered[leg] = self.written[leg]
        if self.on('drops_the_set_at_hand_out'):
            sync.moved = set()
        if self.on('one_set_for_two_syncs'):
            self.aside[leg] |= sync.moved
            sync.moved = set()

    def answer_sync(self, call, ok, doubt):
        """True where the sync failed and its leg, the last in sync, stays."""
        sync = self.syncs.pop(call.key)
        leg = sync.leg
        if self.is_late(call) and not (self.on('late_sync_taken') and sync.of == 'promote'
                                       and self.state[leg] == JOIN and not self.behind[leg]):
            self.answer_late_sync(call, sync, ok)
            return False
        if ok:
            self.synced(sync, doubt)
            return False
        if not self.on('failed_sync_clears'):
            self.put_back(leg, sync.moved | self.aside[leg])
        self.aside[leg] = set()
        if self.is_last(leg):
            return True
        self.lose(leg, sync.of != 'flush' and not self.on('a_failed_sync_is_as_a_flush'))
        return False

    def answer_late_sync(self, call, sync, ok):
        if ok and self.on('a_late_flush_drops_its_set'):
            self.unsynced[sync.leg] -= sync.moved
        # a Sync, as ever, puts all behind where it fails late; of a Flush the set is back already
        is_there = self.state[sync.leg] == OUT and call.disk is self.world.disks[sync.leg]
        if not ok and sync.of == 'sync' and is_there and not self.on('a_late_failed_sync_is_ignored'):
            self.behind[sync.leg] = self.regions()

    def synced(self, sync, doubt):
        leg = sync.leg
        if doubt and not self.on('a_sync_in_doubt_drops_its_set'):
            self.put_back(leg, sync.moved)
        self.aside[leg] = set()
        upto = self.written[leg] if self.on('sync_covers_what_came_later') else sync.upto
        self.covered[leg] = max(self.covered[leg], upto)
        if self.on('sync_clears_all'):
            self.unsynced[leg] = set()
        if self.on('marks_of_other_leg'):
            self.unsynced = [set() for _ in self.unsynced]
        if sync.of == 'promote' and self.state[leg] == JOIN:
            if doubt and not self.on('promotes_in_doubt'):
                self.lose(leg)
            else:
                self.state[leg] = IN

    # ---- the superblock: which legs it may call in sync or say to lack marked spans alone

    def is_saved(self):
        return not self.shape.gate or self.on('reply_before_the_loss_is_saved') \
            or all(self.state[leg] == IN for leg in self.named)

    def is_marked(self, block):
        return not self.shape.gate or self.span(block) in self.marked

    def claims(self):
        legs = range(self.shape.legs)
        ins = {leg for leg in legs if self.state[leg] == IN}
        next_in = {leg for leg in legs if self.state[leg] == JOIN and not self.left(leg)}
        part = {leg for leg in legs if leg not in ins and leg in self.named | self.lacking
                and self.behind[leg] != self.regions()}
        return ins, ins | next_in, part, self.marked | self.wanted

    def says(self):
        """Whether the superblock says already what a save would say."""
        return self.claims() == (self.named, self.listed, self.lacking, self.marked)

    def begin_save(self):
        self.saving = self.claims()
        ins, listed, part, _ = self.saving
        self.before = (set(self.named), set(self.lacking))
        self.named, self.lacking = self.named | ins, self.lacking | part
        self.listed &= listed

    def end_save(self):
        self.named, self.listed, self.lacking, self.marked = (set(x) for x in self.saving)
        self.wanted -= self.marked
        self.saving = None

    def may_settle(self):
        return not self.records and all(self.state[leg] == IN for leg in self.named | self.lacking)
