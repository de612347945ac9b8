# The set-up on a fresh machine is these two: `make run` and `make check`.
RT ?= rt
export RT

.DEFAULT_GOAL := help
.PHONY: help try run script demo interop hostile install deb check tests gate-cost must-fail wrong-bodies fail-alloc bench bench-server fmt

help:
	@echo 'make try           two legs of 64 MiB from a server that is not proved, within three minutes; PORT as for make run'
	@echo 'make run           build nbdmirror and serve two legs of 64 MiB, until a quit; PORT=20809 for other ports than 10809 and 10810'
	@echo 'make demo          build nbdmirror and show it: a leg fails and comes back, the server is killed and starts again by itself'
	@echo 'make install       build nbdmirror and install it below PREFIX (/usr/local), in DESTDIR'
	@echo 'make deb           build nbdmirror and a package of it for Debian, out/nbdmirror_VERSION_amd64.deb'
	@echo 'make interop       other programs against nbdmirror; installs what is missing'
	@echo 'make hostile       clients, legs and crashes that do harm, for about three quarters of an hour; FORM=short for a minute or two'
	@echo 'make script        build nm_script and run it on the example script'
	@echo 'make check         the whole gate: every proof from nothing, every must-fail edit, every test'
	@echo 'make tests         the crates of tests alone, tests/rattle, with no proof'
	@echo 'make gate-cost     the gate from nothing, with what each crate costs written into docs/gate.txt'
	@echo 'make must-fail     the must-fail edits alone'
	@echo 'make wrong-bodies  the wrong bodies that stand outside the gate'
	@echo 'make fail-alloc    allocations of the tests failing in turn, and whether a step takes memory (no part of the gate)'
	@echo 'make bench         the stripe and the requests, timed beside plain Rust'
	@echo 'make bench-server  nbdmirror, timed beside nbdkit and qemu-nbd'
	@echo 'make fmt           lay out every crate'

try:
	@tools/try-server

run:
	@tools/preflight ports && tools/build-server && tools/run-server

demo:
	@tools/build-server && tools/demo

interop:
	@tools/build-server && interop/run

hostile:
	@tools/build-server && interop/hostile/run

install:
	@tools/build-server && packaging/install

deb:
	@tools/build-server && packaging/deb

script:
	@echo 'The first time this proves nm_script and what it stands on, which takes about 5 minutes on 4 cores.' >&2
	@tools/build-program nm_script
	@cd crates/nm_script && $(RT) run < stdin 2> ../../out/build/nm_script.log || { tail -n 20 ../../out/build/nm_script.log >&2; exit 1; }

check:
	@echo 'Proving every crate from nothing, then the must-fail edits, the tests and the programs.'
	@echo 'This takes an hour to an hour and a half on 4 cores; a line comes as each crate, edit and run ends, and out/gate.log has the rest.'
	@tools/gate

tests:
	@tools/try-tests

gate-cost:
	@tools/gate-cost --write

must-fail:
	@$(RT) must-fail

wrong-bodies:
	@tools/wrong-bodies

fail-alloc:
	@tools/fail-alloc

bench:
	@bench/run

bench-server:
	@tools/build-server && bench/server

fmt:
	@for crate in crates/*/; do (cd $$crate && $(RT) fmt) || exit 1; done
	@tools/try-tests --fmt
