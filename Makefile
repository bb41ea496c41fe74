# `install`, `dist`, `wheel` and `deb` take what `make library` has built. Every other target needs the Rattle kit (`rt` on the path) and Python 3;
# `test` also what tests/packages lists, `client`, `library`, `statement` and `card` a C compiler, `bench` Rust with cargo.
.PHONY: test help demo programs statement card client library archives link built install dist wheel deb bench clean

VERSION := $(shell cat VERSION)
MAJOR := $(firstword $(subst ., ,$(VERSION)))
PREFIX ?= /usr/local
LIBDIR ?= $(PREFIX)/lib
# A Python that sees Debian's packages; another python3 may come first on the path and does not.
PYTHON ?= /usr/bin/python3
LIBRARY := target/library
ARCHIVES := target/staticlib
PROGRAMS := account card probe replay safe_table sheet
# The archives of which the library is made: crate `quoting` with every call, then those with one call each that must be fast. In an archive of
# its own the compiler inlines all that a call runs; with two callers in one archive it inlines that into neither.
STATIC := quoting session_c c_call c_records c_scan
HOT := session c_call c_records c_scan
HEADERS := quoting.h quoting_typed.h quoting_lines.h quoting.hpp
# The values of this build in a file of lib/: $(call filled,NAME,PREFIX)
filled = sed -e 's|@PREFIX@|$(2)|' -e 's|@LIBDIR@|$(patsubst $(PREFIX)/%,$${prefix}/%,$(LIBDIR))|' -e 's|@VERSION@|$(VERSION)|' -e 's|@MAJOR@|$(MAJOR)|' lib/$(1).in
STRICT := -std=c11 -O2 -Wall -Wextra -Wpedantic -Werror -Iinclude

test:  ## the gate: proofs, must-fail edits, programs and all tests; tests alone: bash tests/run
	bash .ci/run

help:  ## this list
	@sed -n 's/^\([a-z]*\):[^#]*## \(.*\)/make \1\t\2/p' $(MAKEFILE_LIST) | expand -t 16

# Each result is shown as soon as what it rests on is proved (tools/demo.py).
demo:  ## a session, a month and a month's statement, each as soon as it is proved
	@$(PYTHON) tools/demo.py

# As they are now in their crates' folders; where one is not, nothing is put down.
programs:  ## target/bin: the programs, as the gate or `rt run` has built them
	rm -rf target/bin && mkdir -p target/bin
	for name in $(PROGRAMS); do [ ! -e crates/$$name/out/$$name ] || cp crates/$$name/out/$$name target/bin/$$name || exit 1; done

# The statement of a shipped month as a page that can be printed: target/brent.html. Two of its messages are refused, so the command ends with 1.
statement: library  ## target/brent.html: the statement of a shipped month
	rm -f target/brent.html
	PYTHON=$(PYTHON) ./quoting statement examples/programmes/brent.month --fix examples/programmes/brent.log \
		--title "Brent, November 2026" -o target/brent.html || [ -s target/brent.html ]
	@echo "the statement is target/brent.html"

# The weight card as a page that can be printed: target/card.html
card: library  ## target/card.html: the weight card
	PYTHON=$(PYTHON) ./quoting card -o target/card.html

# The C client of examples/client.c, over the proved session run: target/client FILE
client:  ## target/client: the C client of examples/client.c
	lib/archive session_c
	cc -O2 -Iinclude -o target/client examples/client.c target/staticlib/libsession.a

# Every proved call for C, with the refusals' sentences: target/library has both libraries, the header and what pkg-config reads.
# BUILT says from which commit and by which kit.
library: archives link  ## target/library: the library for C, with its headers and what pkg-config reads
	{ echo "version $(VERSION)"; echo "commit $$(git describe --always --dirty --abbrev=40 --exclude '*')"; echo "kit $$(rt version)"; } > $(LIBRARY)/BUILT

archives:
	lib/archive $(STATIC)

# The library of archives that are there, so that one that was built elsewhere can be linked too: make link ARCHIVES=FOLDER. Its other names
# are hard links, since `rt ci` refuses a tree with symbolic ones; so what `dist` and `deb` put together goes when it is packed.
link:
	mkdir -p $(LIBRARY)
	lib/link $(LIBRARY)/libquoting.a $(foreach crate,quoting $(HOT),$(ARCHIVES)/lib$(crate).a)
	cc $(STRICT) -fPIC -c lib/refusals.c -o $(LIBRARY)/refusals.o
	cc $(STRICT) -fPIC -c lib/version.c -o $(LIBRARY)/version.o
	ar rcs $(LIBRARY)/libquoting.a $(LIBRARY)/refusals.o $(LIBRARY)/version.o
	rm -f $(LIBRARY)/libquoting.so*
	cc -shared -Wl,-soname,libquoting.so.$(MAJOR) -Wl,--version-script=lib/quoting.map -Wl,-z,defs -Wl,-z,now -Wl,--gc-sections \
		-Wl,--whole-archive $(LIBRARY)/libquoting.a -Wl,--no-whole-archive -o $(LIBRARY)/libquoting.so.$(VERSION)
	for name in libquoting.so.$(MAJOR) libquoting.so; do ln -f $(LIBRARY)/libquoting.so.$(VERSION) $(LIBRARY)/$$name || exit 1; done
	cp $(addprefix include/,$(HEADERS)) $(LIBRARY)
	$(call filled,quoting.pc,$(PREFIX)) > $(LIBRARY)/quoting.pc
	$(PYTHON) tools/manual.py page > $(LIBRARY)/quoting.1
	$(PYTHON) tools/manual.py completion > $(LIBRARY)/quoting.bash

built:
	@[ -e $(LIBRARY)/libquoting.so ] || { echo "run make library first" >&2; exit 1; }

# Puts what `make library` has built where pkg-config and CMake find it: make install PREFIX=/usr LIBDIR=/usr/lib64 DESTDIR=/tmp/root
install: built  ## puts the library and the manual page under PREFIX (/usr/local), below DESTDIR
	install -d $(DESTDIR)$(PREFIX)/include $(DESTDIR)$(LIBDIR)/pkgconfig $(DESTDIR)$(LIBDIR)/cmake/quoting
	for header in $(HEADERS); do install -m 644 $(LIBRARY)/$$header $(DESTDIR)$(PREFIX)/include/$$header || exit 1; done
	install -m 644 $(LIBRARY)/libquoting.a $(DESTDIR)$(LIBDIR)/libquoting.a
	install -m 755 $(LIBRARY)/libquoting.so.$(VERSION) $(DESTDIR)$(LIBDIR)/libquoting.so.$(VERSION)
	ln -sf libquoting.so.$(VERSION) $(DESTDIR)$(LIBDIR)/libquoting.so.$(MAJOR)
	ln -sf libquoting.so.$(MAJOR) $(DESTDIR)$(LIBDIR)/libquoting.so
	$(call filled,quoting.pc,$(PREFIX)) > $(DESTDIR)$(LIBDIR)/pkgconfig/quoting.pc
	install -d $(DESTDIR)$(PREFIX)/share/man/man1 $(DESTDIR)$(PREFIX)/share/bash-completion/completions
	install -m 644 $(LIBRARY)/quoting.1 $(DESTDIR)$(PREFIX)/share/man/man1/quoting.1
	install -m 644 $(LIBRARY)/quoting.bash $(DESTDIR)$(PREFIX)/share/bash-completion/completions/quoting
	for name in quoting-config quoting-config-version; do \
		sed -e 's|@VERSION@|$(VERSION)|' -e 's|@MAJOR@|$(MAJOR)|' lib/$$name.cmake.in > $(DESTDIR)$(LIBDIR)/cmake/quoting/$$name.cmake || exit 1; done

# What `make library` has built, for machines without the kit, and without the kit here: a tar file that may be unpacked anywhere, in which BUILT
# says from which commit and by which kit, and a wheel of the Python package.
dist: built wheel  ## target/quoting-VERSION.tar.gz and a wheel: the library for machines without the kit
	rm -rf target/dist
	$(MAKE) -s install DESTDIR=$(CURDIR)/target/dist PREFIX=/quoting-$(VERSION) LIBDIR=/quoting-$(VERSION)/lib
	sed -e 's|@PREFIX@|$${pcfiledir}/../..|' -e 's|@LIBDIR@|$${prefix}/lib|' -e 's|@VERSION@|$(VERSION)|' lib/quoting.pc.in > target/dist/quoting-$(VERSION)/lib/pkgconfig/quoting.pc
	cp $(wildcard $(LIBRARY)/BUILT) docs/FORMATS.md CHANGELOG.md examples/client.c examples/month.c examples/pairs.cpp target/dist/quoting-$(VERSION)/
	tar -C target/dist --sort=name --owner=0 --group=0 --numeric-owner -czf target/quoting-$(VERSION).tar.gz quoting-$(VERSION)
	rm -rf target/dist

# The package has no extension module, so one wheel serves every Python 3 of this system: target/quoting-VERSION-py3-none-linux_x86_64.whl
wheel: built  ## target/quoting-VERSION-py3-none-*.whl: the Python package with the library
	$(PYTHON) -m pip wheel -q --no-deps --no-index --no-build-isolation -w target .

# target/libquoting_VERSION_ARCHITECTURE.deb, of what `make library` has built.
deb: ARCHITECTURE = $(shell dpkg --print-architecture)
deb: built  ## target/libquoting_VERSION_*.deb: the library as a Debian package
	rm -rf target/deb
	$(MAKE) -s install DESTDIR=$(CURDIR)/target/deb PREFIX=/usr LIBDIR=/usr/lib/$(shell cc -print-multiarch)
	install -d target/deb/DEBIAN
	sed -e 's|@VERSION@|$(VERSION)|' -e 's|@ARCHITECTURE@|$(ARCHITECTURE)|' lib/control.in > target/deb/DEBIAN/control
	echo "activate-noawait ldconfig" > target/deb/DEBIAN/triggers
	dpkg-deb --build --root-owner-group target/deb target/libquoting_$(VERSION)_$(ARCHITECTURE).deb >/dev/null
	rm -rf target/deb

# The proved meter's C call against two meters in Rust, the proved reader of FIX messages against two in Rust, and a call of the proved
# month against two months in Rust.
bench:  ## the proved meter against meters in Rust
	lib/archive session_c c_call c_records quoting
	objcopy --redefine-sym quoting_session=library_session target/staticlib/libquoting.a target/staticlib/libquoting_others.a
	cd bench && cargo run --release --offline --quiet

# What the gate has passed is kept beside the kit, so the next one still proves only what has changed.
clean:  ## removes all that is built, with the proofs' results
	rm -rf target build crates/*/out python/*.egg-info .mypy_cache bench/target
	find . -name __pycache__ -prune -exec rm -rf {} +
