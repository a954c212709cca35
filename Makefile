# The command `jwe`, and what C hosts link, installed.
#
#   make                                    builds the command, and proves the archive where there is none or it is old
#   make install PREFIX=.. [DESTDIR=..]     header, archive, pkg-config file, command and manual page
#   make uninstall PREFIX=.. [DESTDIR=..]
#
# BUILD is where the command is built; a build with other flags needs another.
PREFIX ?= /usr/local
BUILD ?= target/command
CFLAGS ?= -O2 -g

archive := target/staticlib/libhost.a
sources := $(wildcard command/*.c)
headers := include/jwe_gateway.h $(wildcard command/*.h)
version := $(shell sed -n 's/^\#define JWE_GATEWAY_VERSION "\(.*\)"/\1/p' include/jwe_gateway.h)
root := $(DESTDIR)$(PREFIX)
installed := include/jwe_gateway.h lib/libjwe_gateway.a lib/pkgconfig/jwe_gateway.pc bin/jwe share/man/man1/jwe.1

all: $(BUILD)/jwe

$(BUILD)/jwe: $(sources) $(headers) $(archive)
	mkdir -p $(BUILD)
	$(CC) -std=c11 -Wall -Wextra -Wpedantic $(CPPFLAGS) $(CFLAGS) $(LDFLAGS) -Iinclude $(sources) $(archive) -o $@

$(archive): crates.txt $(shell find crates/*/src -name '*.rt')
	tests/fresh host

install: $(BUILD)/jwe
	install -d $(addprefix $(root)/,$(sort $(dir $(installed))))
	install -m 644 include/jwe_gateway.h $(root)/include/jwe_gateway.h
	install -m 644 $(archive) $(root)/lib/libjwe_gateway.a
	sed 's|@PREFIX@|$(abspath $(PREFIX))|; s|@VERSION@|$(version)|' jwe_gateway.pc.in >$(root)/lib/pkgconfig/jwe_gateway.pc
	chmod 644 $(root)/lib/pkgconfig/jwe_gateway.pc
	install -m 755 $(BUILD)/jwe $(root)/bin/jwe
	install -m 644 man/jwe.1 $(root)/share/man/man1/jwe.1

uninstall:
	rm -f $(addprefix $(root)/,$(installed))

clean:
	rm -rf $(BUILD)

.PHONY: all install uninstall clean
