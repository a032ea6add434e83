# Drives `rt`, `cargo` and `install`, which do the work; `make help` says what there is.
.DELETE_ON_ERROR:
.PHONY: all check test bench install uninstall clean help

# Where `make install` puts things, below DESTDIR if that is given. The names in small letters are those of the GNU standards.
prefix ?= /usr/local
PREFIX ?= $(prefix)
includedir ?= $(PREFIX)/include
INCLUDEDIR ?= $(includedir)
libdir ?= $(PREFIX)/lib
LIBDIR ?= $(libdir)
PKGCONFIGDIR ?= $(LIBDIR)/pkgconfig
FOLDERS = $(PREFIX) $(INCLUDEDIR) $(LIBDIR) $(PKGCONFIGDIR)

HEADER := include/housechervil.h
LIBRARY := target/staticlib/libhousechervil.a
# rt builds in the out/ of each crate, which it also sets aside; the archive is copied to where all that links it looks
BUILT := crates/housechervil/out/libhousechervil.a
SOURCES := crates.txt $(shell find crates \( -name must-fail -o -name out \) -prune -o -type f -print)
# the one place where the version stands
VERSION := $(shell sed -n 's/^\#define HC_VERSION "\([^"]*\)".*/\1/p' $(HEADER))

all: $(LIBRARY)

$(LIBRARY): $(SOURCES)
	cd crates/housechervil && rt lib
	install -D -m 644 $(BUILT) $@

check:
	.ci/run

test:
	.ci/tests

bench: $(LIBRARY)
	cd bindings/rust && cargo bench --offline --locked --bench speed

# A library that is there is installed as it stands: the one who installs may have no `rt`, and should prove nothing as root. `make` brings
# it up to date. In the pkg-config file the folders are said in terms of the prefix, so that a tree that was moved can still be used.
install:
	@test '$(words $(FOLDERS)) $(words $(filter /%,$(FOLDERS)))' = '4 4' || { echo 'PREFIX and the folders are absolute paths without spaces: $(FOLDERS)' >&2; exit 1; }
	@test -n '$(VERSION)' || { echo '$(HEADER) has no HC_VERSION' >&2; exit 1; }
	@test -f $(LIBRARY) || $(MAKE) all
	@$(MAKE) -q all || echo '$(LIBRARY) is older than some of its sources, and is installed as it stands' >&2
	install -d '$(DESTDIR)$(INCLUDEDIR)' '$(DESTDIR)$(LIBDIR)' '$(DESTDIR)$(PKGCONFIGDIR)'
	install -m 644 $(HEADER) '$(DESTDIR)$(INCLUDEDIR)/housechervil.h'
	install -m 644 $(LIBRARY) '$(DESTDIR)$(LIBDIR)/libhousechervil.a'
	text=$$(sed -e 's|@PREFIX@|$(PREFIX)|' -e 's|@VERSION@|$(VERSION)|' \
	    -e 's|@INCLUDEDIR@|$(INCLUDEDIR:$(PREFIX)/%=$${prefix}/%)|' -e 's|@LIBDIR@|$(LIBDIR:$(PREFIX)/%=$${prefix}/%)|' housechervil.pc.in) && \
	    printf '%s\n' "$$text" | install -m 644 /dev/stdin '$(DESTDIR)$(PKGCONFIGDIR)/housechervil.pc'

uninstall:
	rm -f '$(DESTDIR)$(INCLUDEDIR)/housechervil.h' '$(DESTDIR)$(LIBDIR)/libhousechervil.a' '$(DESTDIR)$(PKGCONFIGDIR)/housechervil.pc'

clean:
	rm -rf target bindings/rust/target crates/*/out

help:
	@echo 'make             proves and builds the static library, $(LIBRARY)'
	@echo 'make check       the gate, .ci/run: every proof from nothing, every must-fail edit, every program and test'
	@echo 'make test        .ci/tests: the tests alone, over what is proved'
	@echo 'make bench       the benchmark of docs/PERFORMANCE.md'
	@echo 'make install     header, library and pkg-config file, to PREFIX, now $(PREFIX), below DESTDIR if that is given'
	@echo 'make uninstall   removes these three files from there'
	@echo 'make clean       removes all that was proved and built'
