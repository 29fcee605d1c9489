# The desk's command and what is installed with it. The library is proved and built by the Rattle kit
# (`rt lib` in crates/varnwalnut); everything else here is plain C, and nothing of it is proved.
#
#   make                              the library, the command and its manual page, in target/desk
#   make library                      the library alone, where the kit builds it
#   make install PREFIX=.. DESTDIR=.. command, headers, libraries, manual page, pkg-config file
#   make dist                         an archive of these, for people without the kit
#   make shared                       target/desk/libvarnwalnut.so, for callers such as examples/trip.py
#   make check                        the whole verdict, ./test
#   make clean                        takes away target/desk alone: no proof is lost

PREFIX ?= /usr/local
CFLAGS ?= -O2
FLAGS = -std=c99 -Wall -Wextra -Wpedantic -Wconversion -Iinclude -Itools

VERSION := $(shell sed -n 's/^\#define VARNWALNUT_VERSION "\(.*\)"$$/\1/p' include/varnwalnut.h)
NAME = varnwalnut-$(VERSION)-x86_64-linux
OUT = target/desk
LIBRARY = crates/varnwalnut/out/libvarnwalnut.a

SOURCES = $(wildcard tools/*.c)
HEADERS = $(wildcard tools/*.h tools/*.def include/*.h)
OBJECTS = $(SOURCES:tools/%.c=$(OUT)/%.o)
PROVED := crates.txt $(shell find crates -path 'crates/*/out' -prune \
    -o -type f \( -name '*.rt' -o -name '*.antt' \) -print)

.PHONY: all library install uninstall dist shared check clean

all: $(OUT)/varnwalnut $(OUT)/varnwalnut.1 $(OUT)/libvarnwalnut_text.a

library: $(LIBRARY)

$(LIBRARY): $(PROVED)
	@command -v rt > /dev/null || { echo 'The Rattle kit is not installed: there is no command rt.'; exit 1; }
	@echo 'The library is proved and built. The first time that takes a good while.'
	cd crates/varnwalnut && rt lib

$(OUT)/%.o: tools/%.c $(HEADERS)
	@mkdir -p $(OUT)
	$(CC) $(FLAGS) $(CFLAGS) -c $< -o $@

$(OUT)/varnwalnut: $(OBJECTS) $(LIBRARY)
	$(CC) $(CFLAGS) $(LDFLAGS) $(OBJECTS) $(LIBRARY) -o $@

# The help and the manual page have one source, tools/help.c.
$(OUT)/varnwalnut.1: $(OUT)/varnwalnut
	$(OUT)/varnwalnut help --man > $@.new
	mv $@.new $@

$(OUT)/libvarnwalnut_text.a: $(OUT)/refusal_text.o
	rm -f $@
	$(AR) rc $@ $<

# The library's code does not mind where it is loaded, so a shared object can be made of it.
shared: $(OUT)/libvarnwalnut.so
$(OUT)/libvarnwalnut.so: $(LIBRARY) $(OUT)/varnwalnut
	$(CC) -shared -o $@ -Wl,--whole-archive $(LIBRARY) -Wl,--no-whole-archive

install: all
	mkdir -p $(DESTDIR)$(PREFIX)/bin $(DESTDIR)$(PREFIX)/include $(DESTDIR)$(PREFIX)/lib/pkgconfig \
	    $(DESTDIR)$(PREFIX)/share/man/man1
	install -m 755 $(OUT)/varnwalnut $(DESTDIR)$(PREFIX)/bin/varnwalnut
	install -m 644 include/varnwalnut.h include/varnwalnut_text.h $(DESTDIR)$(PREFIX)/include
	install -m 644 $(LIBRARY) $(OUT)/libvarnwalnut_text.a $(DESTDIR)$(PREFIX)/lib
	install -m 644 $(OUT)/varnwalnut.1 $(DESTDIR)$(PREFIX)/share/man/man1/varnwalnut.1
	sed -e 's|@PREFIX@|$(PREFIX)|' -e 's|@VERSION@|$(VERSION)|' tools/varnwalnut.pc.in \
	    > $(DESTDIR)$(PREFIX)/lib/pkgconfig/varnwalnut.pc

uninstall:
	cd $(DESTDIR)$(PREFIX) && rm -f bin/varnwalnut include/varnwalnut.h include/varnwalnut_text.h \
	    lib/libvarnwalnut.a lib/libvarnwalnut_text.a lib/pkgconfig/varnwalnut.pc share/man/man1/varnwalnut.1

# The archive may be unpacked anywhere: its pkg-config file goes by its own place.
dist: all
	rm -rf $(OUT)/$(NAME)
	$(MAKE) install PREFIX=/$(NAME) DESTDIR=$(OUT)
	sed -i 's|^prefix=.*|prefix=$${pcfiledir}/../..|' $(OUT)/$(NAME)/lib/pkgconfig/varnwalnut.pc
	mkdir -p $(OUT)/$(NAME)/docs
	cp README.md $(OUT)/$(NAME)
	cp docs/FORMAT.md docs/CHANGES.md $(OUT)/$(NAME)/docs
	cp -R examples $(OUT)/$(NAME)
	tar --sort=name --owner=0 --group=0 --numeric-owner --mtime='2026-01-01 00:00Z' -C $(OUT) -cf - $(NAME) | \
	    gzip -9n > $(OUT)/$(NAME).tar.gz
	rm -rf $(OUT)/$(NAME)
	@echo $(OUT)/$(NAME).tar.gz

check:
	./test

clean:
	rm -rf $(OUT)
