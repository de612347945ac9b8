"""Rules of the design, each taken away: what is then done, and where walks look for what it breaks."""

NAIVE = {
    # writes
    'two_writers_a_block': ('two writes of one block are under way', {}),
    'handed_out_twice': ('a call that is out is handed out again', {}),
    'no_mark_at_begin': (
        'a write begins, and its region does not fall behind on a leg that is out',
        {}),
    'no_mark_at_loss': (
        'a leg goes out, and regions with a write under way do not fall behind',
        {}),
    'acts_at_first_answer': (
        'a write acts as any leg has answered, not the master',
        dict(kinds='wr', blocks=1)),
    'failover_lands_nothing': ('writes that have not acted do not act as the master is lost', {}),
    'claims_at_the_masters_answer': ('a write is replied to before each leg has answered', {}),
    'reply_before_the_loss_is_saved': ('a reply, while a leg that went out may be named', {}),
    # reads
    'write_beside_a_read': ('a write is handed to a leg where a read of its block is out', {}),
    'read_beside_a_write': ('a read is handed to a leg where a write of its block is out', {}),
    'reads_any_leg': ('a read takes any current leg while a write of its block is under way', {}),
    'no_void_at_landing': ('reads that are out elsewhere are not void as a write acts', {}),
    'no_void_at_failover': ('nor as one acts at a failover', {}),
    'late_read_taken': ('an answer of a read that is void is taken', {}),
    'answers_from_an_earlier_call': ('a read is answered by a call made before it began', {}),
    'part_begins_blindly': ("a part begins as its block was read, and no row is asked anew", {}),
    'part_begins_unmarked': (
        "a part begins, and it is not asked anew whether its span is still marked",
        dict(kinds='pm', gate=True)),
    # copies
    'write_into_a_chunk': ('a write begins in a chunk that is reserved', {}),
    'copy_over_a_write': ('a chunk is read while a write of it is under way', {}),
    'chunk_counts_at_hand_out': ('a chunk counts as copied as its write is handed out', {}),
    'late_copy_taken': (
        "an answer of an earlier chunk's call is taken for this one's",
        dict(kinds='wr', legs=2, timeouts=1, replaces=1, attaches=2, out_first=(1,), stripes=1)),
    'promotes_while_behind': ('a leg is called in sync that is behind somewhere', {}),
    'promotes_without_a_sync': ('a leg is called in sync without its sync', {}),
    'late_sync_taken': (
        "an answer of an earlier promotion's sync is taken",
        dict(kinds='wf', legs=2, outs=1, replaces=1, attaches=1, out_first=(1,), stripes=1,
             blocks=1, gate=False, weights={'withdraws': 1, 'replaces': 2, 'operator fails': 0.3})),
    # legs
    'attaches_with_calls_out': ('a leg comes back while calls of it are out', {}),
    'attaches_while_named': ('a leg joins while the superblock may call it in sync', {}),
    'attach_for_return': ('a leg comes back behind only where it missed writes', {}),
    'per_stripe': (
        'a leg goes out, and comes back, only where a call of it failed',
        dict(kinds='wr', legs=2, cuts=1, attaches=2, stripes=2)),
    'copies_unmarked': (
        'what a copy writes is not unsynced',
        dict(kinds='wf', legs=2, cuts=1, attaches=4, stripes=1)),
    'lost_with_leg': ('a leg that goes out loses what is unsynced', {}),
    'start_unmarked': (
        'after a start nothing is unsynced',
        dict(kinds='w', legs=2, gate=True, restarts=1, cuts=1, attaches=1, blocks=1, stripes=1,
             fails=0, timeouts=0, returns=True, weights={'starts anew': 0.2, 'cut': 0.3, 'attaches':
             1})),
    # syncs and flushes
    'sync_covers_what_came_later': (
        'a sync counts for writes answered after its hand-out',
        dict(kinds='wf', blocks=1, stripes=1)),
    'flush_joins_a_sync_out': (
        'a flush takes a sync that was out when it began',
        dict(kinds='wf', blocks=1, stripes=1)),
    'joins_a_file_sync_that_runs': (
        "a stripe's sync takes a sync of the file that had begun",
        dict(kinds='wf', blocks=1, stripes=1)),
    'clean_at_hand_out': ('a leg counts as clean from the hand-out of its sync', {}),
    'flush_passes_over_joining_legs': (
        'a flush does not sync a leg that joins',
        dict(kinds='wf', legs=2, blocks=1, stripes=1, out_first=(1,), attaches=2)),
    'a_failed_sync_is_forgotten': (
        'after a failed sync the next one is believed',
        dict(kinds='wf', legs=1, fails=2, blocks=1, stripes=1)),
    'others_are_not_told': (
        'a failed sync of the file is told to those alone whose it was',
        dict(kinds='wf', legs=1, fails=2, blocks=1, stripes=2)),
    'a_write_out_is_not_lost': (
        'a failed sync has not lost what a write that is out has put',
        dict(kinds='wf', legs=1, fails=2, stripes=1, blocks=2, region=1)),
    'a_set_aside_is_not_lost': (
        'nor what another sync that is out has moved aside',
        dict(kinds='wf', legs=1, fails=2, stripes=1)),
    'a_write_under_way_counts_as_again': (
        'a write made while a sync failed counts as written again',
        dict(kinds='wwf', legs=1, fails=2, stripes=1, blocks=1, weights={'fails': 0.3, 'lands': 2})),
    # sets of what is unsynced
    'drops_the_set_at_hand_out': (
        'a sync drops what is unsynced at its hand-out',
        dict(kinds='wf', legs=2, cuts=1, attaches=2, stripes=1)),
    'sync_clears_all': (
        'a good sync drops also what was answered after its hand-out',
        dict(kinds='wf', legs=2, cuts=1, attaches=2, stripes=1)),
    'one_set_for_two_syncs': (
        'syncs of a leg that are out share one set',
        dict(kinds='wf', legs=2, cuts=1, attaches=2, stripes=1)),
    'failed_sync_clears': (
        'a failed sync drops its set',
        dict(kinds='wf', legs=2, cuts=1, attaches=2, stripes=1)),
    'a_loss_forgets_the_sets': (
        'a leg goes out, and the sets of its syncs are not put back',
        dict(kinds='wf', legs=2, cuts=1, attaches=2, stripes=1)),
    'a_late_flush_drops_its_set': (
        'a late good answer drops its set',
        dict(kinds='wf', legs=2, cuts=1, attaches=2, stripes=1)),
    'marks_of_other_leg': (
        'a sync of one leg drops what is unsynced of all',
        dict(kinds='wf', legs=2, cuts=1, attaches=2, stripes=1)),
    'flush_clears_out': (
        "others' flush drops what is unsynced of a leg that is out",
        dict(kinds='wf', legs=2, cuts=1, attaches=2, stripes=1)),
    # a leg in doubt
    'a_sync_in_doubt_drops_its_set': (
        'a good sync of a leg in doubt drops its set',
        dict(kinds='wrf', legs=2, cuts=1, attaches=1, owns=1, stripes=2, blocks=1, fails=0,
             timeouts=0, unread=True, returns=True, gate=False, weights={'cut': 0.3, 'power': 3,
             'fails alone': 1, 'attaches': 0.1, 'made': 1})),
    'doubt_at_the_answer': (
        'a leg is in doubt from the failed answer on, not from the failed call',
        dict(kinds='wr', legs=2, cuts=1, stripes=2, quick=True, blocks=1, fails=0, timeouts=0,
             owns=0, weights={'cut': 0.3, 'power': 3, 'takes out': 0.02, 'attaches': 0.05})),
    'takes_answers_in_doubt': (
        'a good answer of a leg that is to go out as a whole counts',
        dict(kinds='wr', legs=2, cuts=1, stripes=2, quick=True, blocks=1, fails=0, timeouts=0,
             owns=0, weights={'cut': 0.3, 'power': 3, 'takes out': 0.02, 'attaches': 0.05})),
    'hidden': ('power is lost and back before a call failed: no rule of a mirror helps', {}),
    # marks
    'settles_after_a_ticket': (
        'marks are cleared though a write began since the syncs',
        dict(kinds='wm', gate=True)),
    'settles_in_doubt': (
        'marks are cleared though a leg is in doubt',
        dict(kinds='wrm', legs=2, cuts=1, attaches=1, owns=1, stripes=2, blocks=1, fails=0,
             timeouts=0, restarts=0, unread=True, returns=True, gate=True, weights={'cut': 0.3,
             'power': 3, 'fails alone': 1, 'attaches': 0.1, 'made': 1})),
}

# Taken away, and no walk breaks a promise: what else sees to it.
SAFE = {
    'drains_writes_alone': (
        'a leg comes back while a sync of it is out',
        dict(kinds='wf', legs=2, timeouts=1, attaches=2, fails=2)),
    'a_late_failed_sync_is_ignored': (
        'a Sync that fails late puts nothing behind',
        dict(kinds='ws', legs=2, timeouts=1, attaches=2, fails=2)),
    'a_failed_sync_is_as_a_flush': (
        'a failed Sync puts behind what is unsynced alone',
        dict(kinds='ws', attaches=2, fails=2)),
    'a_return_clears': (
        'a leg that comes back is unsynced nowhere',
        dict(kinds='wf', attaches=4, cuts=2)),
    'by_the_marks': (
        'a leg comes back behind in each marked span',
        dict(gate=True, attaches=4, cuts=2)),
}
