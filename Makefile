.PHONY: help run calls test quick lib install uninstall paper bench compare soak accuracy clean

PREFIX ?= /usr/local
VERSION := $(shell cat VERSION)
TO = $(DESTDIR)$(PREFIX)
PAPERS = $(TO)/share/doc/lagoon
MANUAL = $(TO)/share/man
MODULES = $(TO)/share/lagoon/python/lagoon
SONAME = liblagoon.so.$(firstword $(subst ., ,$(VERSION)))

help:
	@echo 'make run        the channel session of document 01: six lines (the first time it proves what it builds, some minutes)'
	@echo 'make calls      the program of all calls: target/bin/calls'
	@echo 'make test       the gate: proofs, must-fail edits, programs, tests, an hour; its last line is "N passed, M failed"'
	@echo 'make quick      the tests without comparisons and proofs, in two lanes: under a minute once the programs are proved'
	@echo 'make lib        the C library: target/lib/liblagoon.a and liblagoon.so; the header is include/lagoon.h'
	@echo 'make install    headers, library, the command lagoon, manual pages, examples and papers to PREFIX=$(PREFIX) (DESTDIR= before it)'
	@echo 'make uninstall  takes them away again'
	@echo 'make paper      docs/ARITHMETIC.md and docs/PROMISES.md as pages to print, in target/paper/'
	@echo 'make compare    the engine against another program, on fixed cases'
	@echo 'make soak       the same with fresh cases: SECONDS=600 SEED=17'
	@echo 'make bench      the engine beside plain C'
	@echo 'make accuracy   the figures of docs/ACCURACY.md'
	@echo 'make clean      removes target/ and what rt keeps beside the crates, crates/*/out/'

# the channel session of document 01; what is being proved is told on standard error
run:
	@made=; [ -e target/bin/run ] || { made='target/bin/run is made: it reads a session from standard input'; \
	    echo 'proving the run program, some minutes the first time; target/run.log tells all' >&2; }; \
	    tools/prove.py run && { [ -z "$$made" ] || echo "$$made" >&2; }
	@target/bin/run < tests/sessions/channel.in

calls:
	@[ -e target/bin/calls ] || echo 'proving the program of all calls, some minutes the first time; target/calls.log tells all' >&2
	@tools/prove.py calls

# the gate: proofs, must-fail edits, programs, and tests beside them
test:
	.ci/run

# for every day; what it runs is proved where it is not yet
quick:
	@tools/quick.sh

lib:
	@[ -e target/lib/liblagoon.a ] || echo 'proving the library, some minutes the first time; target/lagoon_c.log tells all' >&2
	@tools/lib.sh
	@echo "target/lib/liblagoon.a, $$(stat -c %s target/lib/liblagoon.a) bytes, and target/lib/liblagoon.so; include/lagoon.h tells what is in them"

install: lib
	@[ -e target/bin/run ] || tools/prove.py run
	@[ -e target/bin/calls ] || tools/prove.py calls
	install -d $(TO)/include $(TO)/lib/pkgconfig $(TO)/bin $(MANUAL)/man1 $(MANUAL)/man3 $(PAPERS)/examples $(MODULES)/built
	install -m 644 include/lagoon.h examples/lagoon_records.h $(TO)/include/
	install -m 644 target/lib/liblagoon.a $(TO)/lib/
	install -m 755 target/lib/liblagoon.so $(TO)/lib/liblagoon.so.$(VERSION)
	ln -sf liblagoon.so.$(VERSION) $(TO)/lib/$(SONAME)
	ln -sf $(SONAME) $(TO)/lib/liblagoon.so
	install -m 755 target/bin/run $(TO)/bin/lagoon-run
	install -m 755 bin/lagoon $(TO)/bin/
	install -m 644 python/lagoon/*.py python/lagoon/py.typed VERSION $(MODULES)/
	install -m 755 target/bin/calls $(MODULES)/built/
	ln -sf ../../../../../bin/lagoon-run $(MODULES)/built/run
	ln -sf ../../../../../lib/$(SONAME) $(MODULES)/built/liblagoon.so
	install -m 644 README.md CHANGES.md docs/*.md docs/*.svg $(PAPERS)/
	install -m 644 examples/* $(PAPERS)/examples/
	install -m 644 docs/man/*.1 $(MANUAL)/man1/
	install -m 644 docs/man/*.3 $(MANUAL)/man3/
	printf '%s\n' 'prefix=$(PREFIX)' 'Name: lagoon' 'Description: salt transport on a lagoon mesh, in whole numbers' 'Version: $(VERSION)' \
	    'Cflags: -I$${prefix}/include' 'Libs: -L$${prefix}/lib -llagoon' > $(TO)/lib/pkgconfig/lagoon.pc
	@[ -n '$(DESTDIR)' ] || echo 'ldconfig, once and as root, lets programs find $(SONAME) in $(PREFIX)/lib'

uninstall:
	rm -f $(TO)/include/lagoon.h $(TO)/include/lagoon_records.h $(TO)/lib/liblagoon.a $(TO)/lib/liblagoon.so* $(TO)/bin/lagoon-run $(TO)/bin/lagoon
	rm -f $(TO)/lib/pkgconfig/lagoon.pc $(MANUAL)/man1/lagoon.1 $(MANUAL)/man3/lagoon.3
	rm -rf $(PAPERS) $(TO)/share/lagoon

# the archive's page on A4
paper:
	tools/paper.py docs/ARITHMETIC.md -o target/paper
	tools/paper.py docs/PROMISES.md -o target/paper

# step, call and run beside plain C, and their growth with the lagoon
bench:
	bench/run.py

# the engine against the reference: fixed sessions, records and scripts of calls, and slips
compare:
	tests/compare.sh

# the same with fresh seeds: make soak SECONDS=600 SEED=17; what differs is kept in target/mismatch/
SECONDS ?= 600
SEED ?= $(shell date +%s)
soak:
	reference/soak.sh $(SECONDS) $(SEED)

# the figures of docs/ACCURACY.md, and its picture
accuracy:
	reference/build.sh
	python3 bench/accuracy.py --call target/compare/call_guarded --script target/compare/calls --fine --svg docs/accuracy.svg

clean:
	rm -rf target crates/*/out
