"""What may happen next in the world of world.py, and what is not let happen: in each stripe some leg
in sync has lost nothing."""
from stripe import ASKED, IN, ISOUT, JOIN, OUT, OWED


class Moves:
    """The moves of a World."""

    # ---- what may happen next

    def moves(self):
        moves = []
        for number, o in enumerate(self.ops):
            if o.state == 'new':
                moves.append(('starts', number))
            elif o.state == 'begun' and not self.stripes[o.stripe].stopped:
                self.op_moves(number, o, moves)
        for s in self.stripes:
            if not s.stopped:
                self.write_moves(s, moves)
                self.copy_moves(s, moves)
                self.gate_moves(s, moves)
        for call in self.calls.values():
            self.call_moves(call, moves)
        for disk in self.files:
            self.file_moves(disk, moves)
        for leg in range(self.shape.legs):
            self.leg_moves(leg, moves)
        self.restart_moves(moves)
        return moves

    def op_moves(self, number, o, moves):
        s = self.stripes[o.stripe]
        if o.kind in 'fsm':
            self.flush_moves(number, o, s, moves)
        elif o.kind == 'r':
            if not any(x.op == number for x in s.reads.values()):
                moves += [('asks', number, leg) for leg in s.readable(*o.spec)]
                if self.on('answers_from_an_earlier_call') and \
                        all((o.stripe, b) in self.found for b in self.blocks(o)):
                    moves.append(('answers at once', number))
        elif number in s.records:
            record = s.records[number]
            early = self.on('claims_at_the_masters_answer') and record.landed
            if (early or not record.legs) and s.is_saved():
                moves.append(('claims', number))
        elif not o.acted:
            self.begin_moves(number, o, s, moves)

    def begin_moves(self, number, o, s, moves):
        count = o.spec[1] if o.kind == 'w' else 1
        first = o.spec[0]
        if not s.is_marked(first):
            if s.span(first) not in s.wanted:
                moves.append(('wants a mark', number))
        elif s.begin_refused(first, count):
            return
        elif o.kind == 'w':
            moves.append(('begins', number))
        elif not any(x.op == number for x in s.reads.values()) and s.master in s.readable(first, 1):
            moves.append(('asks for the base', number))

    def flush_moves(self, number, o, s, moves):
        waits = False
        for leg in range(self.shape.legs):
            passed = self.on('flush_passes_over_joining_legs') and s.state[leg] == JOIN
            if s.state[leg] == OUT or s.covered[leg] >= o.need[leg] or passed:
                continue
            waits = True
            if not any(x.leg == leg and x.upto >= o.need[leg] and s.opening[leg] == self.calls[k].opening
                       for k, x in s.syncs.items()):
                moves.append(('asks to sync', number, leg))
        if not waits and (o.kind == 'm' or s.is_saved()):
            moves.append(('ends', number))

    def write_moves(self, s, moves):
        for op, record in s.records.items():
            for leg, at in record.legs.items():
                twice = at == ISOUT and self.on('handed_out_twice') and \
                    self.made[('write', s.number, leg, op)] == 0
                if at == OWED or at == ASKED and not s.holds_back(record, leg) or twice:
                    moves.append(('hands out', s.number, op, leg))

    def copy_moves(self, s, moves):
        chunk = s.chunk
        for leg in range(self.shape.legs):
            if s.state[leg] != JOIN or s.settling:
                continue
            if chunk is None:
                moves += [('reserves', s.number, leg, region) for region in sorted(s.behind[leg])
                          if leg not in s.lacking or region in s.marked_regions()]
            elif chunk.leg == leg and not chunk.length:
                moves.append(('reserves', s.number, leg, chunk.region))
            if (not s.behind[leg] or self.on('promotes_while_behind')) and \
                    (not self.shape.gate or leg in s.listed):
                if self.on('promotes_without_a_sync'):
                    moves.append(('promotes', s.number, leg))
                elif not any(x.leg == leg and x.of == 'promote' and
                             self.calls[k].opening == s.opening[leg] for k, x in s.syncs.items()):
                    moves.append(('asks to promote', s.number, leg))
        if chunk is not None and chunk.length and chunk.call is None and not s.settling:
            if chunk.bytes is None and self.budget['rests'] > 0:
                moves.append(('gives up', s.number))
            if chunk.bytes is not None or s.may_read_chunk():
                moves.append(('asks to copy', s.number))

    def gate_moves(self, s, moves):
        if self.shape.gate and s.saving is not None:
            moves.append(('saved', s.number))
        elif self.shape.gate and not s.says():
            moves.append(('saves', s.number))

    def call_moves(self, call, moves):
        if call.result is not None:
            moves.append(('answer', call.key))
            return
        if call.kind != 'sync':
            if call.disk.power:
                moves += [('lands', call.key, b) for b in call.blocks if b not in call.landed]
                moves.append(('made', call.key, True))
            if self.may_fail(call.disk):
                moves.append(('made', call.key, False))
            if self.may_fail_alone(call):
                moves.append(('fails alone', call.key))
        s = self.stripes[call.stripe]
        if self.budget['timeouts'] > 0 and not call.left and not s.stopped and not s.is_late(call) \
                and not s.is_last(call.leg) and self.may_doubt(call.disk):
            moves.append(('times out', call.key))

    def file_moves(self, disk, moves):
        if disk.sync is None:
            if self.waiting(disk):
                moves.append(('file syncs', disk.number))
            return
        if disk.power:
            moves += [('hardens', disk.number, s.number) for s in self.stripes
                      if s.number not in disk.sync[1]]
            moves.append(('file synced', disk.number, True))
        if self.may_fail(disk):
            moves.append(('file synced', disk.number, False))

    def waiting(self, disk):
        """Sync calls that the next sync of the file is for."""
        joined = disk.sync[0] if disk.sync else []
        return [c for c in self.calls.values() if c.kind == 'sync' and c.disk is disk
                and c.result is None and c.key not in joined]

    def leg_moves(self, leg, moves):
        disk = self.disks[leg]
        running = [s for s in self.stripes if not s.stopped]
        outs = [s for s in running if s.state[leg] == OUT]
        if disk.whole and not self.on('per_stripe'):
            moves += [('takes out', s.number, leg) for s in running if s.state[leg] != OUT
                      and not s.is_last(leg) and self.may_lose(s.number, leg)]
        if self.budget['outs'] > 0 and self.may_doubt(disk) and not disk.whole:
            moves.append(('operator fails', leg))
        if self.budget['cuts'] > 0 and disk.power and self.shape.returns and \
                all(s.state[leg] == OUT or self.has_other(s, leg) for s in self.stripes):
            moves += [('cut', leg, old) for old in (-1, 0x5555, 0xaaaa)]
        if not disk.power and (len(outs) == len(running) or self.on('hidden')
                               or (self.shape.quick or self.shape.unread) and disk.told):
            moves.append(('power', leg))
        if disk.power and outs and self.budget['attaches'] > 0 and self.may_take_out(running, leg):
            moves.append(('attaches', leg))
        moves += [('returns', s.number, leg) for s in outs
                  if s.number in self.returning[leg] and self.may_return(s, leg)]
        if outs and len(outs) == self.shape.stripes:
            if leg not in self.withdrawn and self.budget['replaces'] > 0:
                moves.append(('withdraws', leg))
            elif leg in self.withdrawn and not any(
                    self.shape.gate and leg in s.named | s.lacking for s in outs):
                moves.append(('replaces', leg))

    def may_take_out(self, running, leg):
        return all(s.state[leg] == OUT or s.is_last(leg) or self.may_lose(s.number, leg)
                   or self.on('per_stripe') for s in running)

    def may_return(self, s, leg):
        if self.shape.gate and leg in s.named and not self.on('attaches_while_named'):
            return False
        kinds = ('write',) if self.on('drains_writes_alone') else ('write', 'sync')
        return self.on('attaches_with_calls_out') or not any(
            c.stripe == s.number and c.disk is self.disks[leg] and c.kind in kinds
            for c in self.calls.values())

    def restart_moves(self, moves):
        if self.budget['restarts'] <= 0 or not self.shape.gate:
            return
        if any(s.stopped for s in self.stripes) or not all(d.power for d in self.disks):
            return
        if any(s.state[d.leg] == IN and s.number in d.cut_in for s in self.stripes for d in self.disks):
            return
        if not any(any(d.dropped) for d in self.disks):
            moves += [('starts anew', pick) for pick in range(4)]
        moves += [('all power is lost', pick, old) for pick in range(4) for old in (-1, 0x5555, 0xaaaa)]

    # In each stripe some leg in sync has lost nothing: only with that is anything promised.

    def is_trusted(self, s, leg):
        d = self.disks[leg]
        return s.state[leg] == IN and d.power and not d.whole and s.number not in d.cut_in \
            and not d.lost[s.number]

    def has_other(self, s, leg):
        return any(self.is_trusted(s, other) for other in range(self.shape.legs) if other != leg)

    def may_lose(self, number, leg):
        s = self.stripes[number]
        return s.state[leg] != IN or s.is_last(leg) or self.has_other(s, leg)

    def may_doubt(self, disk):
        return disk is not self.disks[disk.leg] or \
            all(s.stopped or self.may_lose(s.number, disk.leg) for s in self.stripes)

    def may_fail_alone(self, call):
        fits = call.disk.power or self.shape.unread and call.kind == 'read'
        return fits and self.budget['owns'] > 0 and self.may_lose(call.stripe, call.leg)

    def is_unseen(self, disk, stripe):
        """The leg has lost something of the stripe, and is not known to fail as a whole: until it is
        attached nothing is promised of it."""
        return self.shape.unread and stripe in disk.cut_in

    def may_fail(self, disk):
        return not disk.power or self.budget['fails'] > 0 and self.may_doubt(disk)
