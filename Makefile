# The library for C: the archive, the shared library, their headers, and the programs over them. The code comes from proved crates, so
# building it needs the Rattle toolchain (`rt`); using it needs a C compiler alone.
#
#     make                        target/c/liblandovireph.a and .so, landovireph.pc, the CMake package, and the programs
#     make examine                the program examine alone, and the archive under it
#     make check                  the host tests in C
#     make install PREFIX=DIR     headers, libraries, .pc file, CMake package, examine and man pages to DIR (default /usr/local);
#                                 LIBDIR, INCLUDEDIR, BINDIR and MANDIR for other folders, DESTDIR for a staged installation
#     make uninstall              takes away what the same install put there
#     make demonstration          the pictures of docs/ANSWER.md, to target/c/demonstration

# The library is for x86-64. On another machine a cross compiler builds it and the programs; host/wrap makes each of them a script that
# runs it by bin/run.
ifneq ($(shell uname -m),x86_64)
ifeq ($(origin CC),default)
CC = x86_64-linux-gnu-gcc
endif
export AR = x86_64-linux-gnu-ar
export NM = x86_64-linux-gnu-nm
FINISH = host/wrap $@
BUILT = .x86-64
endif

PREFIX ?= /usr/local
LIBDIR ?= $(PREFIX)/lib
INCLUDEDIR ?= $(PREFIX)/include
BINDIR ?= $(PREFIX)/bin
MANDIR ?= $(PREFIX)/share/man
DESTDIR ?=
CFLAGS ?= -O2 -g

# The exported calls are in the crate landovireph; the code that theirs comes from is in any crate but the programs'.
SOURCES := $(filter-out crates/layout/% crates/rent/% crates/replay/% crates/script% crates/text/% crates/bench_calls/%, $(wildcard crates/*/src/*.rt))
LIBRARY = crates/landovireph/out/liblandovireph.a

OUT = target/c
HEADERS = include/landovireph.h include/landovireph_table.h
VERSION := $(shell sed -n 's/^.define LANDOVIREPH_VERSION "\(.*\)"/\1/p' include/landovireph.h)
MAJOR := $(firstword $(subst ., ,$(VERSION)))
SONAME = liblandovireph.so.$(MAJOR)
SHARED = liblandovireph.so.$(VERSION)
COMPILE = $(CC) -std=gnu99 -Wall -Wextra $(CPPFLAGS) $(CFLAGS) -Iinclude
PROGRAMS = $(OUT)/replay $(OUT)/examine $(OUT)/guard $(OUT)/range $(OUT)/stack
DEMONSTRATION = $(OUT)/samples $(OUT)/gridder $(OUT)/tidy $(OUT)/sources
PACKAGE = landovireph.pc landovirephConfig.cmake landovirephConfigVersion.cmake

all: $(OUT)/liblandovireph.a $(OUT)/liblandovireph.so $(PACKAGE:%=$(OUT)/%) $(PROGRAMS) $(DEMONSTRATION)

examine: $(OUT)/examine

# Proves the crate and what it is made of, where that is not done, and compiles what is proved.
$(LIBRARY): $(SOURCES)
	cd crates/landovireph && rt lib
	@touch $@

$(OUT)/version.o: host/version.c include/landovireph.h
	@mkdir -p $(OUT)
	$(COMPILE) -fPIC -c $< -o $@

$(OUT)/liblandovireph.a: $(LIBRARY) $(OUT)/version.o host/take host/names include/landovireph.h
	host/take include/landovireph.h $(LIBRARY) $(OUT)/version.o $@

# Only the header's names are given, under a version; -nostartfiles since the library has nothing to start or end.
$(OUT)/$(SHARED): $(OUT)/liblandovireph.a host/names
	{ echo 'LANDOVIREPH_$(MAJOR) { global:'; host/names include/landovireph.h | sed 's/$$/;/'; echo 'local: *; };'; } >$(OUT)/symbols
	$(CC) -shared -nostartfiles $(LDFLAGS) -Wl,-soname,$(SONAME) -Wl,--version-script=$(OUT)/symbols -Wl,-z,defs -Wl,-z,relro,-z,now \
	    -Wl,--whole-archive $< -Wl,--no-whole-archive -o $@
	host/take --test include/landovireph.h $@

# No symbolic links here, since `rt ci` takes none in a checkout; an installation has them.
$(OUT)/liblandovireph.so: $(OUT)/$(SHARED)
	ln -f $< $(OUT)/$(SONAME)
	ln -f $< $@

$(PACKAGE:%=$(OUT)/%): $(OUT)/%: host/%.in include/landovireph.h Makefile
	@mkdir -p $(OUT)
	sed -e 's|@PREFIX@|$(PREFIX)|' -e 's|@LIBDIR@|$(LIBDIR)|' -e 's|@INCLUDEDIR@|$(INCLUDEDIR)|' -e 's|@VERSION@|$(VERSION)|' \
	    -e 's|@SHARED@|$(SHARED)|' -e 's|@SONAME@|$(SONAME)|' $< > $@

$(OUT)/replay: host/replay.c host/funnel.c host/elastic.c host/runs.c host/images.c host/line.c host/table.c \
    host/replay.h host/runs.h host/line.h host/table.h host/mix64.h
$(OUT)/examine: host/examine.c host/look.c host/report.c host/picture.c host/limits.c host/progress.c \
    host/look.h host/report.h host/picture.h host/limits.h host/progress.h
$(OUT)/guard: host/guard.c host/model.c host/model.h host/mix64.h
$(OUT)/stack: host/stack.c
$(OUT)/range: host/range.c host/model.c host/model.h

$(PROGRAMS): $(HEADERS) $(OUT)/liblandovireph.a host/wrap
	$(COMPILE) -Ihost $(filter %.c,$^) $(OUT)/liblandovireph.a -lm -o $@
	$(FINISH)

$(OUT)/gridder $(OUT)/tidy: examples/gridder/files.c examples/gridder/files.h

$(DEMONSTRATION): $(OUT)/%: examples/gridder/%.c examples/gridder/grid.h $(HEADERS) $(OUT)/liblandovireph.a
	$(COMPILE) $(filter %.c,$^) $(OUT)/liblandovireph.a -lm -o $@
	$(FINISH)

check: all
	host/test

demonstration: $(DEMONSTRATION)
	examples/gridder/demonstrate

# The files of the package are made anew, since the folders may be others than at the time of `make`.
install: $(OUT)/liblandovireph.a $(OUT)/liblandovireph.so $(OUT)/examine
	rm -f $(PACKAGE:%=$(OUT)/%)
	$(MAKE) $(PACKAGE:%=$(OUT)/%) PREFIX='$(PREFIX)' LIBDIR='$(LIBDIR)' INCLUDEDIR='$(INCLUDEDIR)'
	install -d '$(DESTDIR)$(INCLUDEDIR)' '$(DESTDIR)$(LIBDIR)/pkgconfig' '$(DESTDIR)$(LIBDIR)/cmake/landovireph' '$(DESTDIR)$(BINDIR)' \
	    '$(DESTDIR)$(MANDIR)/man1' '$(DESTDIR)$(MANDIR)/man3'
	install -m 644 $(HEADERS) '$(DESTDIR)$(INCLUDEDIR)/'
	install -m 644 $(OUT)/liblandovireph.a '$(DESTDIR)$(LIBDIR)/'
	install -m 755 $(OUT)/$(SHARED) '$(DESTDIR)$(LIBDIR)/'
	ln -sf $(SHARED) '$(DESTDIR)$(LIBDIR)/$(SONAME)'
	ln -sf $(SONAME) '$(DESTDIR)$(LIBDIR)/liblandovireph.so'
	install -m 644 $(OUT)/landovireph.pc '$(DESTDIR)$(LIBDIR)/pkgconfig/'
	install -m 644 $(OUT)/landovirephConfig.cmake $(OUT)/landovirephConfigVersion.cmake '$(DESTDIR)$(LIBDIR)/cmake/landovireph/'
	install -m 755 $(OUT)/examine$(BUILT) '$(DESTDIR)$(BINDIR)/examine'
	install -m 644 man/examine.1 '$(DESTDIR)$(MANDIR)/man1/'
	install -m 644 man/landovireph.3 '$(DESTDIR)$(MANDIR)/man3/'

uninstall:
	rm -f $(HEADERS:include/%='$(DESTDIR)$(INCLUDEDIR)/%') '$(DESTDIR)$(LIBDIR)/liblandovireph.a' '$(DESTDIR)$(LIBDIR)/$(SHARED)' \
	    '$(DESTDIR)$(LIBDIR)/$(SONAME)' '$(DESTDIR)$(LIBDIR)/liblandovireph.so' '$(DESTDIR)$(LIBDIR)/pkgconfig/landovireph.pc' \
	    '$(DESTDIR)$(LIBDIR)/cmake/landovireph/landovirephConfig.cmake' \
	    '$(DESTDIR)$(LIBDIR)/cmake/landovireph/landovirephConfigVersion.cmake' '$(DESTDIR)$(BINDIR)/examine' \
	    '$(DESTDIR)$(MANDIR)/man1/examine.1' '$(DESTDIR)$(MANDIR)/man3/landovireph.3'
	[ ! -d '$(DESTDIR)$(LIBDIR)/cmake/landovireph' ] || rmdir --ignore-fail-on-non-empty '$(DESTDIR)$(LIBDIR)/cmake/landovireph'

clean:
	rm -rf $(OUT)

.PHONY: all examine check demonstration install uninstall clean

# Two runs of rt would wait for one another.
.NOTPARALLEL:
