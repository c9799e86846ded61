# Pitsagul: each target works from a fresh clone on a machine with the Rattle kit (the command rt).
.PHONY: demo demo-unproved demo-proved build install uninstall package test clients linux bench clean

# Which demo `make demo` is: unproved takes one to three minutes, proved proves every crate first.
DEMO = unproved

demo: demo-$(DEMO)

demo-unproved:
	@echo "== targetd is built here without its proofs, in one to three minutes; 'make build' proves it"
	@./tools/demo --unproved

demo-proved: build
	@echo "== a login and two TEST UNIT READYs on the proved targetd"
	@./tools/demo out/targetd

# Proves every crate, builds targetd and leaves it at crates/targetd/out/targetd.
build:
	@echo "== proving every crate and building targetd. It took 28 minutes on four processors of 2.5 GHz"
	@./tools/build

# Puts the program, its pages, an example and systemd units below DESTDIR and PREFIX. Nothing outside them is touched.
PREFIX = /usr/local
DESTDIR =
PROGRAM = crates/targetd/out/targetd

install:
	@test -x $(PROGRAM) || { echo "there is no $(PROGRAM): run 'make build' first"; exit 1; }
	@./tools/install "$(PROGRAM)" "$(PREFIX)" "$(DESTDIR)"

uninstall:
	@./tools/install --remove "$(PREFIX)" "$(DESTDIR)"

# Makes a Debian package of the program, and an archive for other systems, in out/.
package:
	@test -x $(PROGRAM) || { echo "there is no $(PROGRAM): run 'make build' first"; exit 1; }
	@./tools/package "$(PROGRAM)"

# The gate: the proofs, the wrong bodies, the cases, sockets, initiators, failing calls, the pages. On four processors
# it takes 30 to 80 minutes, by their speed.
test:
	@./tools/test

# Real initiators (libiscsi, QEMU) read and write disks of up to 1 GiB and tapes. Installs their packages where missing.
clients:
	@test -x crates/targetd/out/targetd || ./tools/build
	@./tools/clients

# Linux's own initiator attaches a disk and a tape, in a guest of QEMU by software emulation, which is slow. Installs
# qemu-system-x86 where it is missing, and downloads a kernel and programs by Debian packages, below tools/out.
linux:
	@test -x crates/targetd/out/targetd || ./tools/build
	@./tools/linux

# What commands cost and how fast they are answered, beside tgt and plain C programs, and what of that is aimed at.
# Installs the Debian packages libiscsi-bin, qemu-utils, qemu-block-extra and tgt where missing. Takes about ten minutes.
# PARTS names those parts that are to be measured alone, as in PARTS=fairness (tools/bench says which there are).
# Whether a change made the code faster is answered by `bench/run OLD NEW`, over two checkouts and without sockets.
PARTS =

bench:
	@test -x crates/targetd/out/targetd || ./tools/build
	@./tools/bench $(PARTS)

clean:
	@echo "== removing what was built"
	rm -rf out crates/*/out tools/out tools/__pycache__ tools/*/__pycache__
