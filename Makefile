# The library for C and the planners' workstation: `make` builds the archive, the shared object, the digest
# program and `plan`; `make story` builds what `plan` needs and plays its story; `make install` puts everything
# under PREFIX with the header, the manual pages and a pkg-config file. Proving and compiling the library are rt's;
# here are linking, copying and the workstation, which is C.

PREFIX ?= /usr/local
VERSION := 2.8.0
SONAME := libluffa.so.2

# rt compiles for x86-64 alone: on another processor the compiler that links is one for x86-64.
GCC := $(if $(filter x86_64,$(shell uname -m)),gcc,x86_64-linux-gnu-gcc)
AR := $(if $(filter x86_64,$(shell uname -m)),ar,x86_64-linux-gnu-ar)

# libpq, where pkg-config finds it: then there is a second program, plan-postgresql, to which `plan` hands over what is
# about a sheet in PostgreSQL. `plan` itself is the same everywhere, and loads no library of libpq's for a sheet in a
# file. On another processor libpq isn't for x86-64.
LIBPQ := $(if $(filter x86_64,$(shell uname -m)),$(shell pkg-config --exists libpq 2>/dev/null && \
    echo -DPLAN_POSTGRESQL $$(pkg-config --cflags --libs libpq)))

# The tests name others here, so as to leave these alone.
LUFFA_ARCHIVE ?= target/staticlib/libluffa.a
LUFFA_LIB ?= target/lib
LUFFASUM ?= target/bin/luffasum
PLAN ?= target/bin/plan

.PHONY: all story install clean
.NOTPARALLEL:
# An archive that isn't whole isn't left for the next make.
.DELETE_ON_ERROR:
all: $(LUFFA_ARCHIVE) $(LUFFA_LIB)/libluffa.so $(LUFFASUM) $(PLAN) $(if $(LIBPQ),$(PLAN)-postgresql)

# rt knows by itself what has to be proved again; the sources say when to ask it. In a crate's folder `rt all check` proves the crate and those
# that it stands on, crates that don't need each other side by side; `rt lib` would take them one after the other, and here finds them proved. A
# proof takes up to 3 GB. Each static library is one object: the calls on columns join the archive as a second one, which is linked only where
# they are called. The first one alone is all that the workstation needs, and is proved before the rest.
SOURCES := crates.txt $(shell find crates/*/src -name '*.rt')
PROVE := rt all check --jobs $(shell awk -v cores=$$(nproc) '/^MemAvailable/ { n = int($$2 / 3000000) } \
    END { print n < 1 ? 1 : n < cores ? n : cores }' /proc/meminfo)
FIRST := target/staticlib/first/libluffa.a
$(FIRST): $(SOURCES)
	cd crates/luffa_c && $(PROVE) && rt lib
	mkdir -p $(@D) && cp crates/luffa_c/out/libluffa_c.a $@
target/staticlib/libluffa.a: $(FIRST)
	cd crates/luffa_columns_c && $(PROVE) && rt lib
	cp $(FIRST) $@
	cd crates/luffa_columns_c/out && $(AR) x libluffa_columns_c.a
	$(AR) rs $@ crates/luffa_columns_c/out/luffa_columns_c.o
	rm crates/luffa_columns_c/out/luffa_columns_c.o
target/bin/luffasum: $(SOURCES)
	cd crates/luffasum && $(PROVE) && rt run <stdin >/dev/null
	mkdir -p $(@D) && cp crates/luffasum/out/luffasum $@

$(PLAN) $(PLAN)-postgresql: $(FIRST) include/luffa.h $(wildcard workstation/*.[ch])
	mkdir -p $(@D)
	$(GCC) -std=c11 -O2 -Wall -Wextra -Wconversion -Iinclude workstation/*.c $(FIRST) $(if $(filter %-postgresql,$@),$(LIBPQ)) -o $@

story: $(PLAN)
	@workstation/story $(PLAN)

# -z defs: a name that neither the archive nor the C library has is an error here already.
# Its other name is a hard link: rt takes no checkout with a symbolic one in it.
$(LUFFA_LIB)/libluffa.so: $(LUFFA_ARCHIVE) luffa.map
	mkdir -p $(LUFFA_LIB)
	$(GCC) -shared -Wl,-soname,$(SONAME) -Wl,--version-script,luffa.map -Wl,-z,defs \
	    -Wl,--whole-archive $(LUFFA_ARCHIVE) -Wl,--no-whole-archive -o $(LUFFA_LIB)/$(SONAME)
	ln -f $(LUFFA_LIB)/$(SONAME) $@

install: all
	install -d $(addprefix $(DESTDIR)$(PREFIX)/,bin include lib/pkgconfig share/man/man1)
	install -m 644 include/luffa.h $(DESTDIR)$(PREFIX)/include/
	install -m 644 $(LUFFA_ARCHIVE) $(DESTDIR)$(PREFIX)/lib/libluffa.a
	install -m 755 $(LUFFA_LIB)/$(SONAME) $(DESTDIR)$(PREFIX)/lib/
	ln -sf $(SONAME) $(DESTDIR)$(PREFIX)/lib/libluffa.so
	sed 's|@PREFIX@|$(PREFIX)|; s|@VERSION@|$(VERSION)|' luffa.pc.in >$(DESTDIR)$(PREFIX)/lib/pkgconfig/luffa.pc
	install -m 755 $(LUFFASUM) $(DESTDIR)$(PREFIX)/bin/luffasum
	install -m 755 $(PLAN) $(DESTDIR)$(PREFIX)/bin/plan
	$(if $(LIBPQ),install -m 755 $(PLAN)-postgresql $(DESTDIR)$(PREFIX)/bin/plan-postgresql)
	install -m 644 man/luffasum.1 man/plan.1 $(DESTDIR)$(PREFIX)/share/man/man1/

# What rt made stays: to prove it again takes minutes.
clean:
	rm -f $(LUFFA_LIB)/libluffa.so $(LUFFA_LIB)/$(SONAME) $(PLAN) $(PLAN)-postgresql
	rm -rf target/story
