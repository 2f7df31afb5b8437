# make run: will two boxes agree? make test: the gate. make bench: speed beside the reference implementation.
# make library, make install: libsternquast.a for C, and with PREFIX and DESTDIR its header and pkg-config file beside it.
# make tshark: frames beside what tshark shows of them. make check-time: how long each crate's check takes.

SHELL := /bin/bash -o pipefail
CARGO := cargo --offline --quiet
REFERENCE := --release --manifest-path tests/reference/Cargo.toml
COMPARE := --release --manifest-path tests/compare/Cargo.toml
VERDICT := .ci/verdict
BESIDE := .ci/beside
VERSION := 0.1
PREFIX ?= /usr/local
LIBRARY := target/staticlib/libsternquast.a
PROGRAMS := desk pair replay conform
CHECKED := gcc -std=c11 -Wall -Wextra -Werror -g -fsanitize=address,undefined -fno-sanitize-recover=all

.PHONY: run test programs engine library install judge terminal bench check-time tshark

# `rt run` proves the program, builds it, and says on standard error what it proves.
run:
	cd crates/pair && rt run < ../../examples/two-recorders.txt
	install -D -t target/bin crates/pair/out/pair

# The reference's own tests run beside `rt ci` where it leaves a core free. `rt ci` passes over a must-fail edit that is bad; the
# gate does not. What needs the proved library and programs runs over what was built of them; the verdict comes last again.
test:
	nice -n 19 $(CARGO) test $(REFERENCE) > $(BESIDE) 2>&1 & beside=$$!; rt ci | tee $(VERDICT) && ! grep -E '^rt: ok;.*, [0-9]+ bad' $(VERDICT) && { wait $$beside || { cat $(BESIDE); exit 1; }; }
	$(MAKE) programs engine judge
	target/judge/test
	$(CARGO) test $(COMPARE) -- --nocapture
	tests/runs/check.sh target/bin
	$(MAKE) terminal
	@tail -n 1 $(VERDICT)

# The programs as `rt ci` has built them.
programs:
	install -D -t target/bin $(foreach name,$(PROGRAMS),crates/$(name)/out/$(name))

# What `rt ci` proves of a static library it does not build.
engine:
	cd crates/entries && rt lib
	install -D -m 644 -t target/staticlib crates/entries/out/libentries.a

library:
	cd crates/sternquast_c && rt lib
	install -D -m 644 crates/sternquast_c/out/libsternquast_c.a $(LIBRARY)

install: library
	install -d $(DESTDIR)$(PREFIX)/include $(DESTDIR)$(PREFIX)/lib/pkgconfig
	install -m 644 include/sternquast.h $(DESTDIR)$(PREFIX)/include
	install -m 644 $(LIBRARY) $(DESTDIR)$(PREFIX)/lib
	sed 's|@PREFIX@|$(PREFIX)|; s|@VERSION@|$(VERSION)|' packaging/sternquast.pc.in > $(DESTDIR)$(PREFIX)/lib/pkgconfig/sternquast.pc

# The C programs of the gate, built over an installed library.
judge:
	$(MAKE) install DESTDIR=target/judge PREFIX=
	$(CHECKED) -Itarget/judge/include tests/judge/judge.c -Ltarget/judge/lib -lsternquast -o target/judge/test
	$(CHECKED) -Itarget/judge/include examples/judge.c -Ltarget/judge/lib -lsternquast -o target/judge/example

# Programs that read captures tell a terminal how far they are.
terminal:
	install -d target/terminal
	$(CHECKED) -D_GNU_SOURCE tests/terminal/terminal.c -o target/terminal/test
	target/terminal/test target/bin/replay < examples/two-recorders.txt
	target/terminal/test target/bin/conform < examples/one-port.txt

bench: engine
	for name in $(PROGRAMS); do (cd crates/$$name && rt run < stdin > /dev/null) || exit 1; done
	$(MAKE) programs
	$(CARGO) build $(REFERENCE) --bins
	$(CARGO) run $(COMPARE) --bin bench

# One crate after the other, on a machine that does nothing else.
check-time:
	tests/check-time.sh

# Not in the gate: it needs tshark, which tests/tshark/install.sh installs.
tshark: engine
	$(CARGO) run $(COMPARE) --bin tshark
