#!/usr/bin/env python3
"""A model of a mirror whose stripes do no I/O: a step of a stripe hands out leg calls or takes their
answers; the calls are made outside, side by side, at any moment, and answered in any order. The server
is not built so yet: its stripes call their legs, one after the other. What is built is to keep these rules.

Modelled (stripe.py, world.py, moves.py):
  stripes    writes, also of parts, reads, copies by reserved chunks, promotions, flushes by Flush and
             by Sync, each with the set of unsynced regions that it moved aside; master, settling;
             the superblock: who may be named or lacks marked spans alone, saves, marks
  legs       arrays on disks. A call lands block by block between its hand-out and its answer, and
             after its leg has gone out until it returns. A sync is of the whole file, for the stripes
             that wait for one. One that fails may drop what it was to cover, and later ones say
             nothing of that: so the file believes none until all that was unsynced is written again.
  failures   of any call, of a call that is left (a timeout), of a leg by its operator; a leg that
             loses its power alone, with whatever is not synced; a crash of the server, and of all.
             A failed call puts its leg in doubt; it is then taken out of each stripe, comes back by
             an attach, in each stripe by Return once its calls there have returned, or is replaced.
  premises   in each stripe some leg in sync has lost nothing. A leg that loses its power fails a call
             before it is back (`hidden` shows why); some walks have it back only once it is out of
             every stripe, `quick` ones at once, and in `unread` ones that call is a read, taken for a
             bad sector: then nothing is promised of the leg until an attach. Pages that a failed sync
             dropped are seen as they were until the power is lost, and none is forgotten so by a
             server that ends alone. Calls of a server that ended never land.
Not modelled: fairness, limits of records and numbers, saves that fail, looks, reopening a stripe.

Tested after each move:
  - one array: each operation acts once, between its begin and its reply; a read finds the array; a
    part changes nothing else; each leg in sync, or current at a block, equals the array there unless a
    write is under way
  - flushed is durable: on each leg in sync, and on each that the superblock may name
  - a start finds what was flushed, the old array outside marked spans, and, if the process alone was
    lost, each block whose writes were answered
  - no move but a return adds to what is left to copy; where no move is left no operation waits
  - of the rules as they stand: calls that are out on a leg and meet are reads; a read that is out and
    not void is of a leg that has the array; what a leg may lose is unsynced, behind, or out

`histories` has for each naive rule of rules.py a history that breaks a promise, as short as found.

  calls.py --walks 1000 --seed 1      random walks of the rules as they stand
  calls.py --naive NAME               the history that catches a naive rule; --search looks for another
  calls.py --list                     the naive rules
  calls.py --test                     what ./run does: some walks, and each history
"""
import argparse
import ast
import os
import random
import sys
import time

from rules import NAIVE, SAFE
from stripe import IN, Broken, need
from world import Shape, World

WEIGHTS = {
    'made': 2.0, 'lands': 0.6, 'begins': 2.0, 'hands out': 2.0, 'fails alone': 0.03, 'times out': 0.05,
    'operator fails': 0.05, 'cut': 0.03, 'power': 0.5, 'takes out': 0.7, 'attaches': 0.5, 'returns': 0.8,
    'withdraws': 0.2, 'replaces': 0.5, 'starts anew': 0.02, 'all power is lost': 0.007, 'hardens': 0.5,
    'file synced': 1.5, 'gives up': 0.3, 'reserves': 0.8, 'saves': 0.7, 'saved': 0.8}


RULES = dict(NAIVE, **SAFE)


# ---- what is promised

def check(world):
    for s in world.stripes:
        if s.stopped:
            continue
        out = {(c.disk.number, b) for c in world.calls.values()
               if c.kind == 'write' and c.stripe == s.number for b in c.blocks}
        for block in range(world.shape.blocks):
            check_block(world, s, block, out)
            if world.shape.gate:
                check_superblock(world, s, block, out)
        if not world.shape.naive:
            check_marks(world, s, out)
            check_apart(world, s)


def check_block(world, s, block, out):
    """One array; each leg in sync, or current, equals it; what was flushed is durable."""
    record, value = s.busy(block), s.array[block]
    if record is not None and record.landed:
        need(record.data[block - record.first] == value, 'block %d: a landed write is not in the array',
             block)
    for leg, state in enumerate(s.state):
        disk = world.disks[leg]
        if s.flushed[block] is not None and state == IN and not world.is_unseen(disk, s.number):
            need(disk.kept[s.number][block] == {s.flushed[block]}, 'block %d of stripe %d: flushed as %s,'
                 ' and leg %d may keep %s', block, s.number, s.flushed[block], leg,
                 disk.kept[s.number][block])
        if s.number in disk.cut_in:
            continue                # it has lost something, and nobody could know it yet
        now, is_out = disk.now[s.number][block], (disk.number, block) in out
        waits = record is not None and (leg != s.master or record.landed or is_out)
        if (state == IN or s.is_current(leg, block)) and not waits:
            need(now == value, 'block %d of stripe %d: leg %d (%s) has %s, and the array %s', block,
                 s.number, leg, state, now, value)


def check_superblock(world, s, block, out):
    """What a start would find on each leg that the superblock may name."""
    claimed = any(block in r.blocks() for r in s.records.values())
    for leg in s.named | s.lacking:
        disk = world.disks[leg]
        kept, now = disk.kept[s.number][block], disk.now[s.number][block]
        if world.is_unseen(disk, s.number):
            continue
        need(len(kept) == 1 and s.array[block] in kept or s.is_marked(block), 'block %d: leg %d may be'
             ' named, may keep %s, and the span is not marked', block, leg, kept)
        if leg not in s.named:
            continue
        need(s.flushed[block] is None or kept == {s.flushed[block]}, 'block %d: flushed as %s, and leg'
             ' %d may be named and keep %s', block, s.flushed[block], leg, kept)
        if claimed or s.number in disk.cut_in:
            continue
        need(now == s.array[block], 'block %d: leg %d may be named, and has %s for %s', block, leg, now,
             s.array[block])
        need((disk.number, block) not in out, 'block %d: a write is out on leg %d, which may be named,'
             ' and none is under way', block, leg)


# ---- the rules' invariants, tested of the rules as they stand

def check_marks(world, s, out):
    """What a loss of its power would take of a leg is unsynced, behind or out."""
    for leg in range(world.shape.legs):
        disk, known = world.disks[leg], None
        for block, kept in enumerate(disk.kept[s.number]):
            if len(kept) > 1 and (disk.number, block) not in out:
                known = known or s.behind[leg] | s.at_risk(leg)
                need(s.region(block) in known, 'block %d: leg %d may lose it, and it is not unsynced',
                     block, leg)


def check_apart(world, s):
    """Calls that are out on a leg and meet in a block are reads, unless they are late or void; and a
    read that is out and not void is of a leg that has the array there."""
    live = [c for c in world.calls.values() if c.stripe == s.number and c.kind != 'sync'
            and not s.is_late(c) and (c.owner is not None or not s.reads[c.key].void)]
    live = [c for c in live if c.owner != 'copy' or s.chunk is not None and s.chunk.call == c.key]
    for i, a in enumerate(live):
        for b in live[i + 1:]:
            need(a.leg != b.leg or a.kind == b.kind == 'read' or not set(a.blocks) & set(b.blocks),
                 'two calls meet: %s and %s', a.key, b.key)
    for x in s.reads.values():
        for block in () if x.void or s.number in world.disks[x.leg].cut_in else x.blocks:
            now = world.disks[x.leg].now[s.number][block]
            need(now == s.array[block], 'a read is out on leg %d, which has %s for %s', x.leg, now,
                 s.array[block])


def check_rest(world):
    """Nothing can happen any more: then no operation waits."""
    for number, o in enumerate(world.ops):
        need(o.state in ('replied', 'failed') or world.stripes[o.stripe].stopped,
             'operation %d waits for ever: %s', number, world.shape.ops[number])


# ---- walks

def random_ops(rng, shape, kinds, count):
    ops = []
    for _ in range(count):
        kind, stripe = rng.choice(kinds), rng.randrange(shape.stripes)
        first = rng.randrange(shape.blocks)
        end = min((first // shape.region + 1) * shape.region, shape.blocks)
        spec = {'w': (first, rng.randint(1, end - first)), 'r': (first, rng.randint(1, end - first)),
                'p': (first,)}.get(kind, ())
        ops.append((kind, stripe) + spec)
    return tuple(ops)


def random_shape(rng, naive, focus):
    focus = dict(focus)
    blocks = rng.choice((1, 1, 2, 2, 3, 4))
    region = rng.choice((1, 2)) if blocks > 1 else 1
    gate, returns = rng.random() < 0.6, rng.random() < 0.85
    legs = rng.choice((1, 2, 2, 2, 2, 3, 3))
    shape = Shape(
        legs=legs, stripes=rng.choice((1, 1, 2, 2, 3)), blocks=blocks, region=region,
        chunk=rng.randint(1, region), span=rng.choice((1, 2)), gate=gate, returns=returns,
        out_first=(rng.randrange(legs),) if legs > 1 and rng.random() < 0.25 else (),
        garbage=rng.random() < 0.5, quick=rng.random() < 0.4,
        unread=legs == 2 and rng.random() < 0.2, fails=rng.choice((0, 1, 2, 4)),
        owns=rng.choice((0, 0, 1)), timeouts=rng.choice((0, 0, 1, 2)), outs=rng.choice((0, 0, 1)),
        attaches=rng.choice((1, 2, 4)), replaces=rng.choice((0, 0, 1)), cuts=rng.choice((0, 1, 1, 2)),
        restarts=rng.choice((0, 0, 1, 2)) if gate else 0, rests=rng.choice((0, 0, 2)),
        naive=frozenset(naive))
    kinds = focus.pop('kinds', 'wwwwwrrrpffsm')
    for name, value in focus.items():
        setattr(shape, name, value)
    shape.unread = shape.unread and shape.legs == 2
    shape.region = min(shape.region, shape.blocks)
    shape.chunk = min(shape.chunk, shape.region)
    shape.out_first = tuple(leg for leg in shape.out_first if leg < shape.legs and shape.legs > 1)
    shape.ops = random_ops(rng, shape, kinds, rng.choice((3, 5, 8, 12, 20)))
    return shape


def weight(world, move, slow, crawl, waits):
    own = world.shape.weights
    n = own.get(move[0], WEIGHTS.get(move[0], 1.0))
    if move[0] == 'starts':
        return n if move[1] in waits else 1e-9
    if move[0] in ('made', 'file synced') and not move[2]:
        call = world.calls.get(move[1])
        disk = call.disk if call else world.files[move[1]]
        n = own.get('fails', 0.06) if disk.power and disk is world.disks[disk.leg] else 0.5
    if move[0] in ('lands', 'made', 'answer'):
        call = world.calls[move[1]]
        return n * crawl if slow in ((call.leg, None), (call.leg, call.kind)) else n
    if move[0] in ('hardens', 'file synced'):
        leg = world.files[move[1]].leg
        return n * crawl if slow in ((leg, None), (leg, 'sync')) else n
    return n


def next_ops(world, clients):
    """Clients begin their operations in order, each one after the other."""
    news = [number for number, o in enumerate(world.ops) if o.state == 'new']
    return news[:max(0, clients - sum(o.state == 'begun' for o in world.ops))]


class Walk:
    """A random walk: its moves, and what it broke."""

    def __init__(self, seed, naive=(), focus=(), most=3000):
        rng = random.Random(seed)
        self.shape, self.moves, self.broke = random_shape(rng, naive, focus), [], None
        # a leg whose calls take long, or those of one kind
        slow = (rng.randrange(self.shape.legs), rng.choice((None, None, 'read', 'write', 'sync')))
        crawl = rng.choice((1, 0.2, 0.05, 0.01))
        clients = rng.choice((1, 2, 2, 3, 4))
        world = World(self.shape)
        try:
            while len(self.moves) < most:
                moves = world.moves()
                if not moves:
                    check_rest(world)
                    return
                waits = next_ops(world, clients)
                weights = [weight(world, m, slow, crawl, waits) for m in moves]
                self.moves.append(rng.choices(moves, weights)[0])
                world.do(self.moves[-1])
                check(world)
        except Broken as why:
            self.broke = str(why)


def replay(shape, moves):
    """The moves of these that can be done, up to the one that breaks a promise, and what it breaks."""
    world, done = World(shape), []
    try:
        for move in moves:
            if move in world.moves():
                done.append(move)
                world.do(move)
                check(world)
        if not world.moves():
            check_rest(world)
    except Broken as why:
        return done, str(why)
    return done, None


def shorten(shape, moves):
    """A history out of this one that breaks a promise, and does not without any one of its moves."""
    moves, why = replay(shape, moves)
    size = len(moves) // 2
    while size:
        at, before = len(moves), len(moves)
        while at > 0:
            at -= size
            less, broke = replay(shape, moves[:max(at, 0)] + moves[max(at, 0) + size:])
            if broke and len(less) < len(moves):
                moves, why = less, broke
                at = min(at, len(moves))
        if size > 1 or len(moves) == before:
            size //= 2
    return moves, why


def catch(name, first, most):
    """The first walk from this seed on that breaks a promise under a naive rule, and its seed."""
    for seed in range(first, first + most):
        walk = Walk(seed, (name,), RULES[name][1])
        if walk.broke:
            return walk, seed
    return None, first + most


def histories():
    """Of each naive rule a shape and a list of moves."""
    found = {}
    with open(os.path.join(os.path.dirname(os.path.abspath(__file__)), 'histories')) as file:
        for part in file.read().strip().split('\n\n'):
            name, shape, *moves = part.split('\n')
            found[name] = (ast.literal_eval(shape), [ast.literal_eval(move) for move in moves])
    return found


# ---- the command line

def run_walks(count, seed, naive=()):
    begun, steps, longest = time.time(), 0, 0
    for number in range(seed * 1000000, seed * 1000000 + count):
        walk = Walk(number, naive)
        steps, longest = steps + len(walk.moves), max(longest, len(walk.moves))
        if walk.broke:
            print('walk %d of %d moves: %s' % (number, len(walk.moves), walk.broke))
            show(walk.shape, *shorten(walk.shape, walk.moves))
            return False
    print('%d walks, %d moves, the longest %d: no promise broken, %.0f s'
          % (count, steps, longest, time.time() - begun), flush=True)
    return True


def show(shape, moves, why):
    sizes = ('legs', 'stripes', 'blocks', 'region', 'chunk', 'gate', 'quick', 'unread', 'returns',
             'out_first')
    print('  ' + ', '.join('%s %s' % (name, getattr(shape, name)) for name in sizes))
    for move in moves:
        told = ' '.join(str(x) for x in move[1:])
        if move[0] == 'starts':
            told += ' ' + str(shape.ops[move[1]])
        print('  %s %s' % (move[0], told))
    print('  -> %s (%d moves)' % (why, len(moves)), flush=True)


def show_naive(name, search, seed):
    """Prints the history that is kept of a naive rule, or one that walks find."""
    print('%s: %s' % (name, RULES[name][0]))
    kept = histories().get(name)
    if kept and not search:
        shape, moves = Shape(naive=frozenset([name]), **kept[0]), kept[1]
        show(shape, *replay(shape, moves))
        return True
    walk, _ = catch(name, seed, search or 5000)
    if walk is None:
        print('  not caught in %d walks' % (search or 5000))
        return False
    show(walk.shape, *shorten(walk.shape, walk.moves))
    return True


def is_caught(name, kept):
    """Whether the history breaks a promise at its end, and breaks none where the rule is kept."""
    if name not in kept:
        print('FAILED: %s has no history' % name)
        return False
    shape, moves = kept[name]
    done, broke = replay(Shape(naive=frozenset([name]), **shape), moves)
    right = replay(Shape(**shape), moves)[1]
    if broke is None or done != moves or right is not None:
        print('FAILED: %s: %s; with the rule: %s' % (name, broke, right))
        return False
    return True


def test(count, seed):
    kept = histories()
    passed = sum(is_caught(name, kept) for name in NAIVE)
    right = run_walks(count, seed)
    print('%d passed, %d failed' % (passed + right, len(NAIVE) - passed + (not right)))
    return right and passed == len(NAIVE)


def main():
    parser = argparse.ArgumentParser(description=__doc__, formatter_class=argparse.RawTextHelpFormatter)
    parser.add_argument('--walks', type=int, help='so many walks (1000; 400 with --test)')
    parser.add_argument('--seed', type=int, default=1, help='of the walks (1)')
    parser.add_argument('--naive', metavar='NAME', help='a history that a naive rule breaks')
    parser.add_argument('--search', type=int, metavar='N', default=0, help='look for it in N walks')
    parser.add_argument('--list', action='store_true', help='the naive rules')
    parser.add_argument('--test', action='store_true', help='walks, and each history')
    asked = parser.parse_args()
    if asked.list:
        for name, rule in RULES.items():
            print('%-34s %s%s' % (name, rule[0], ' (safe)' if name in SAFE else ''))
    elif asked.naive:
        sys.exit(not show_naive(asked.naive, asked.search, asked.seed))
    elif asked.test:
        sys.exit(not test(asked.walks or 400, asked.seed))
    else:
        sys.exit(not run_walks(asked.walks or 1000, asked.seed))


if __name__ == '__main__':
    main()
