# The commands that README.md names.
.PHONY: all lib install uninstall deb test check fmt run demo bench bench-table trust docs accident dossier clean distclean help
PREFIX = /usr/local
DESTDIR =
# Where settings are: not under the prefixes that are the system's.
SYSCONFDIR = $(if $(filter /usr /usr/local,$(PREFIX)),/etc,$(PREFIX)/etc)

# the archive, the unit, pfcp-list, pfcp-restore and pfcp-check; only what has changed since
all:
	@scripts/build

# what is proved: the archive, a shared object of it, and the program pfcp-restore
lib:
	@scripts/build lib

# both libraries, the header, the pkg-config file, the programs, the man pages and the service under DESTDIR and PREFIX
install:
	@PREFIX='$(PREFIX)' SYSCONFDIR='$(SYSCONFDIR)' DESTDIR='$(DESTDIR)' scripts/install

# takes away what make install has installed with the same DESTDIR and PREFIX
uninstall:
	@PREFIX='$(PREFIX)' SYSCONFDIR='$(SYSCONFDIR)' DESTDIR='$(DESTDIR)' scripts/install --remove

# a Debian package of all of this, with the record of the last make test, in target/deb
deb:
	@scripts/deb

# every proof, every must-fail edit and every program (rt ci), then the C and Rust tests
test:
	@scripts/test

# the proofs only, of what has changed since they were last checked
check:
	@rt all check

# the layout of the Rattle sources
fmt:
	@for crate in crates/*/; do (cd "$$crate" && rt fmt) || exit 1; done

# the unit on UDP port 8805 of 127.0.0.1; make run ARGS='--help' lists its options
run:
	@scripts/run $(ARGS)

# a scripted exchange with the unit over the loopback interface
demo:
	@scripts/run --demo

# stack, instructions and time against bench/ordinary; the last line is the ratio
# make bench ARGS='--picture docs/benchmarks.svg' also writes the picture
bench:
	@scripts/bench $(ARGS)

# what keeping the table on the disk costs; make bench-table ARGS=FOLDER has the file there
bench-table:
	@scripts/bench-table $(ARGS)

# which definitions have to be believed, from the sources
trust:
	@scripts/trust

# docs/claims.md and docs/statements.md, and the tables of docs/trust.md and docs/rules.md, from the sources
docs:
	@scripts/docs

# the old program's two mistakes, made in a scratch copy and refused by the prover
accident:
	@scripts/accident

# one document to print and sign: what is promised, believed and proved, what was checked, and what was built; target/dossier.html, and a PDF where a
# browser prints it
dossier:
	@scripts/dossier $(ARGS)

# takes away what was compiled and packed; what is proved stays, since it takes minutes
clean:
	@rm -rf target/c target/lib target/deb

# takes away what is proved too, and what cargo has built
distclean: clean
	@rm -rf target crates/*/out second/target check/target bench/ordinary/target tests/differential/target

# these lines; CC, CFLAGS, LDFLAGS and HARDENING are heeded
help:
	@scripts/help
