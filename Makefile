# Watch, and write policies (analysts, operators)
#   make try               seconds: compiles the watch program, not proved, and shows the demo's listing and alerts
#   make demo              minutes, once: proves and builds the programs, and shows the same with the alerts explained
#   make month             proves and builds the month program, prints the figures of five days and draws their alerts
#   make policy            builds the program `policy`, which makes, checks and shows policies and explains alerts, and prints
#                          where it is
#   make record            builds the program `record`, which watches real programs, and prints where it is
#   make command           builds the one command `yaslaurel` with all its programs (docs/COMMAND.md), and prints where it is
#   make night             watches eight commands of a shell script, and explains the alert
#   make profiles-demo     turns the profiles in demo/profiles into a policy, and explains the alerts of a session from it
#   make vendor-demo       composes a vendor's policy with a house's, one source consenting
#
# Embed it (makers of platforms, in C, Rust or Python)
#   make lib               proves and builds target/lib: libyaslaurel.a, header, pkg-config file, FORMATS.md, manual pages
#   make install           these where a distribution has them, with the Rust crate and an example host: PREFIX=/usr/local,
#                          LIBDIR=PREFIX/lib, staged under DESTDIR
#   make install-programs  the programs `policy` and `record`, in PREFIX/bin
#   make uninstall         removes all these, under the same names
#   make dist              the release in target/dist, for makers without the prover: a tarball with libraries, programs, manual,
#                          documents and examples, and its SHA256SUMS
#   make deb               the same as Debian's packages
#   make fleet             the command `yaslaurel-fleet` for many hosts (docs/FLEET.md), with the Python package, in target/fleet, and prints where it is
#   make fleet-demo        three hosts on one machine: a log, a store and two workers of their own, and the alerts
#   make python            the Python package (docs/PYTHON.md), as source distribution and wheel in target/python, and prints where
#
# Change it (contributors)
#   make setup             installs what is missing by apt, as root: tools/needed.txt lists it
#   make test              everything that can fail, as the gate runs it; as root it begins with make setup
#   make soak              what takes long: live runs of `record` (races many times, the watched programs as another user too), 10,000 questions to policies, planted faults of hosts/analysis,
#                          and workers of many hosts killed for longer
#   make bench             ratios against Rust, in one run
#   make fleet-bench       many hosts beside the C loop, and the live monitor's throughput and recovery, in one run
#   make covering          the cover test alone, which the bench and a host test measure
#   make mutants CRATE=..  small changes of a crate, one at a time: which are still proved? SPECS=1 changes definitions, ABOVE=1 asks the
#                          crates that stand on it too, COUNT=10, SEED=1
#   make generated         the tables and pictures that documents have from the sources

.DEFAULT_GOAL = help
.PHONY: help try demo month policy record command night profiles-demo vendor-demo fleet fleet-demo fleet-bench lib install install-programs uninstall dist deb python setup test soak bench covering mutants generated

PREFIX = /usr/local
BINDIR = $(PREFIX)/bin
LIBDIR = $(PREFIX)/lib
INCLUDEDIR = $(PREFIX)/include
MANDIR = $(PREFIX)/share/man
DOCDIR = $(PREFIX)/share/doc/yaslaurel
# The Rust crate, for hosts that name it by its path.
CRATEDIR = $(PREFIX)/share/yaslaurel/rust
CRATE_SOURCES = $(patsubst hosts/rust/%,%,$(wildcard hosts/rust/src/*.rs))
INSTALL = install

# The version stands in the header.
VERSION = $(shell sed -nE 's/^.define YASLAUREL_VERSION_(MAJOR|MINOR|PATCH) ([0-9]+)u$$/\2/p' include/yaslaurel.h | paste -sd.)
# The pkg-config file for a prefix, an include folder and a library folder.
pkgconfig = sed -e 's|@PREFIX@|$(1)|' -e 's|@INCLUDEDIR@|$(2)|' -e 's|@LIBDIR@|$(3)|' -e 's|@VERSION@|$(VERSION)|' \
	include/yaslaurel.pc.in

# What stands at the head of this file.
help:
	@sed -n -e '/^$$/q' -e 's/^# \{0,1\}//p' Makefile

try:
	@demo/try

demo:
	@demo/run

month:
	@demo/month/run

policy:
	@hosts/build policy

record:
	@hosts/build record

command: lib
	@for program in watch month explain; do tools/prove $$program >&2 || exit 1; done
	@hosts/command/assemble target/command
	@echo $(CURDIR)/target/command/bin/yaslaurel

night:
	@demo/night/run

profiles-demo:
	@demo/profiles/run

vendor-demo:
	@demo/vendor/run

# The crate of the library's functions, and those that it stands on: proved and built again where a source, a definition or a proof
# of one of them has changed.
CRATES = capi $(shell sed -n 's/^capi staticlib://p' crates.txt)
target/lib/libyaslaurel.a: crates.txt $(shell find $(CRATES:%=crates/%) -name out -prune -o -name '*.rt' -print -o -name '*.antt' -print)
	@tools/prove --archive capi
	@mkdir -p target/lib
	@cp target/staticlib/libcapi.a $@

lib: target/lib/libyaslaurel.a
	@cp include/yaslaurel.h docs/FORMATS.md target/lib/
	@$(call pkgconfig,$${pcfiledir},$${prefix},$${prefix}) > target/lib/yaslaurel.pc
	@rm -rf target/lib/man
	@hosts/python/pages.py include/yaslaurel.h target/lib/man/man3

install: lib
	$(INSTALL) -d $(DESTDIR)$(INCLUDEDIR) $(DESTDIR)$(LIBDIR)/pkgconfig $(DESTDIR)$(MANDIR)/man3 $(DESTDIR)$(DOCDIR)/examples
	$(INSTALL) -d $(DESTDIR)$(CRATEDIR)/src
	$(INSTALL) -m 644 include/yaslaurel.h $(DESTDIR)$(INCLUDEDIR)/
	$(INSTALL) -m 644 target/lib/libyaslaurel.a $(DESTDIR)$(LIBDIR)/
	$(call pkgconfig,$(PREFIX),$(INCLUDEDIR),$(LIBDIR)) > $(DESTDIR)$(LIBDIR)/pkgconfig/yaslaurel.pc
	chmod 644 $(DESTDIR)$(LIBDIR)/pkgconfig/yaslaurel.pc
	$(INSTALL) -m 644 target/lib/man/man3/*.3 $(DESTDIR)$(MANDIR)/man3/
	$(INSTALL) -m 644 docs/FORMATS.md $(DESTDIR)$(DOCDIR)/
	$(INSTALL) -m 644 hosts/c/host.c hosts/c/guard.c $(DESTDIR)$(DOCDIR)/examples/
	$(INSTALL) -m 644 hosts/rust/Cargo.toml hosts/rust/build.rs $(DESTDIR)$(CRATEDIR)/
	$(INSTALL) -m 644 $(addprefix hosts/rust/,$(CRATE_SOURCES)) $(DESTDIR)$(CRATEDIR)/src/

install-programs: lib
	$(INSTALL) -d $(DESTDIR)$(BINDIR)
	$(INSTALL) -m 755 $$(hosts/build policy) $$(hosts/build record) $(DESTDIR)$(BINDIR)/

uninstall:
	rm -f $(DESTDIR)$(BINDIR)/policy $(DESTDIR)$(BINDIR)/record
	rm -f $(DESTDIR)$(INCLUDEDIR)/yaslaurel.h $(DESTDIR)$(LIBDIR)/libyaslaurel.a $(DESTDIR)$(LIBDIR)/pkgconfig/yaslaurel.pc
	rm -f $(DESTDIR)$(MANDIR)/man3/yaslaurel.3 $(DESTDIR)$(MANDIR)/man3/yaslaurel_*.3
	rm -f $(DESTDIR)$(DOCDIR)/FORMATS.md $(addprefix $(DESTDIR)$(DOCDIR)/examples/,host.c guard.c)
	rm -f $(addprefix $(DESTDIR)$(CRATEDIR)/,Cargo.toml build.rs $(CRATE_SOURCES))
	-rmdir --ignore-fail-on-non-empty $(addprefix $(DESTDIR),$(DOCDIR)/examples $(DOCDIR) $(CRATEDIR)/src $(CRATEDIR) $(dir $(CRATEDIR)))

dist:
	@packaging/dist target/dist

deb: dist
	@packaging/deb target/dist

fleet: lib
	@hosts/fleet/install target/fleet

fleet-demo: lib
	@demo/fleet/run

fleet-bench: lib
	@bench/fleet/run

python: lib
	@hosts/python/package target/python

setup:
	@tools/setup

test:
	@./.ci/run

covering:
	@tools/prove --archive covering

soak: lib
	@tests/host/record/soak
	@tests/host/analysis/run $(SEED) 10000
	@tests/host/analysis/faults $(SEED)
	@for program in watch month; do tools/prove $$program >&2 || exit 1; done
	@tests/host/fleet/soak

bench: lib covering
	bench/run

COUNT = 10
SEED = 1
mutants:
	@tools/mutants $(CRATE) --count $(COUNT) --seed $(SEED) $(if $(SPECS),--specs) $(if $(ABOVE),--above)

generated:
	@tools/documents/run
