# all:     proves and builds the program usbreg, prints its version, and writes its SHA-256 beside it. This is what
#          `make` does.
# trial:   compiles usbreg without proving it, and acts on three request lines over a
#          registry in memory.
# test:    the gate: `rt ci`, which proves every crate and its tests, tries the must-fail edits, and runs the tests and
#          each program, built by two compilers; then the scripts that try the program over files.
# mutants: tries the wrong bodies in mutants/, as many in one check as possible. A release runs it beside the gate.
# install: puts the program that `make` built into PREFIX/bin, its man page into PREFIX/share/man/man1, and the page for
#          makers and curators into PREFIX/share/usbreg/web, in the folder VERSION there. Folders of other versions stay.
# install-service: puts what a service needs beside it: the scripts of contrib/ into PREFIX/lib/usbreg, the files of nginx and of
#          the firewall and the settings into PREFIX/share/usbreg, the scripts for a move into PREFIX/share/usbreg/users, the
#          units into UNITS, and the file for logrotate into /etc.
# bench:   reads and writes lists and looks devices up beside plain readers, acts on requests and serves messages
#          beside plain registries, and prints ratios; times each kind of order on a full store; opens a large store of an
#          older schema; prints and replays a long record. Not part of the gate; it says which packages are missing.
# deb:     makes the Debian package of what `make` built, in out/. It needs dpkg-deb and readelf.
# release: proves and builds the last commit from nothing in the new folder TO, so that `usbreg --version` names the commit, and
#          makes the package of it there, with the lines to publish.

PREFIX ?= /usr/local
PROGRAM := crates/registry_cli/out/registry_cli
UNITS ?= /etc/systemd/system
PROGRAMS = $(shell find contrib -maxdepth 1 -type f -perm -u+x -printf '%f\n' | sort)
# The page, and its version: a digest of its files. Browsers keep what has it in its address, and ask for index.html again.
PAGE = $(DESTDIR)$(PREFIX)/share/usbreg/web
VERSION = $(shell export LC_ALL=C; cd web && sha256sum * | sha256sum | cut -c 1-16)
# What is installed names the folder into which it is installed, and the program there.
PLACED := sed -e 's:/usr/local/:$(PREFIX)/:g' -e 's:\(^\|[ (!]\)usbreg \(check\|export\|history\|replay\) :\1$(PREFIX)/bin/usbreg \2 :'

.PHONY: all trial test mutants install install-service deb release bench

all:
	@cd crates/registry_cli && rt run -- --version
	@cd $(dir $(PROGRAM)) && sha256sum $(notdir $(PROGRAM)) > $(notdir $(PROGRAM)).sha256

trial:
	@echo "Compiling usbreg without proving it. This takes some minutes on a busy machine." >&2
	@cd crates/registry_cli && rt try -- trial < ../../examples/first.jsonl
	@echo "Nothing was proved. Next: 'make' proves and builds usbreg, 'make install' installs it, 'make test' runs the gate." >&2

test:
	@scripts/gate.sh

mutants:
	@scripts/mutants.py --self-test
	@scripts/mutants.py

install:
	@test -x $(PROGRAM) || { echo "$(PROGRAM) is not there: 'make' builds it" >&2; exit 1; }
	install -D $(PROGRAM) "$(DESTDIR)$(PREFIX)/bin/usbreg"
	install -D -m 644 man/usbreg.1 "$(DESTDIR)$(PREFIX)/share/man/man1/usbreg.1"
	install -D -m 644 -t "$(PAGE)/$(VERSION)" $(filter-out web/index.html web/me.json,$(wildcard web/*))
	install -m 644 web/me.json "$(PAGE)/me.json"
	sed 's:"/web/:&$(VERSION)/:' web/index.html > "$(PAGE)/index.new"
	chmod 644 "$(PAGE)/index.new"
	mv -f "$(PAGE)/index.new" "$(PAGE)/index.html"

install-service:
	install -d "$(DESTDIR)$(PREFIX)/lib/usbreg" "$(DESTDIR)$(PREFIX)/share/usbreg" "$(DESTDIR)$(UNITS)"
	@set -e; put() { $(PLACED) "contrib/$$2" > "$$3/$$2"; chmod "$$1" "$$3/$$2"; }; \
	for it in $(PROGRAMS); do put 755 $$it "$(DESTDIR)$(PREFIX)/lib/usbreg"; done; \
	for it in hwdb.awk record_files.py; do put 644 $$it "$(DESTDIR)$(PREFIX)/lib/usbreg"; done; \
	for it in nginx.conf nginx-between.conf nginx-shared.conf firewall.nft settings etcd; do put 644 $$it "$(DESTDIR)$(PREFIX)/share/usbreg"; done; \
	for it in $$(cd contrib && ls *.service *.timer); do put 644 $$it "$(DESTDIR)$(UNITS)"; done
	@set -e; put() { install -D -m "$$1" "$$2" "$(DESTDIR)$(PREFIX)/share/usbreg/$${2#scripts/}"; }; \
	for it in scripts/users/*.py scripts/users/*.tsv scripts/lib/usbreg.py; do if [ -x $$it ]; then put 755 $$it; else put 644 $$it; fi; done
	install -D -m 644 contrib/usbreg.logrotate "$(DESTDIR)/etc/logrotate.d/usbreg"
	install -D -m 644 package/sysusers "$(DESTDIR)$(PREFIX)/lib/sysusers.d/usbreg.conf"
	install -D -m 644 package/tmpfiles "$(DESTDIR)$(PREFIX)/lib/tmpfiles.d/usbreg.conf"

bench:
	bench/run.sh
	bench/look_up.py
	bench/registry.py
	bench/serve.py
	bench/worst_orders.py
	bench/open_older.py
	bench/page_sizes.py
	bench/record.py
	bench/share.py

deb:
	@package/build.py --program $(PROGRAM)

release:
	@package/release.sh "$(TO)"
