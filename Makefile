# make: proves and builds the libraries, and the command line. make install PREFIX=/usr/local: headers, libraries, pkg-config
# file and command line, for C programs and for people; DESTDIR is put before it, as packagers need.
PREFIX ?= /usr/local
CARGO_TARGET_DIR ?= rust/target
VERSION := $(shell sed -n 's/^version = "\(.*\)"/\1/p' rust/Cargo.toml)
prefix := $(shell realpath -m "$(PREFIX)")
into := $(DESTDIR)$(prefix)
headers := $(wildcard include/*.h)
libraries := libnekahuiro.a libnekahuiro_edition2.a libnekahuiro_pairs.a

.PHONY: all install uninstall
all:
	@./nekahuiro --version

install: all
	install -d "$(into)/include" "$(into)/lib/pkgconfig" "$(into)/bin"
	install -m 644 $(headers) "$(into)/include"
	install -m 644 $(libraries:%=target/staticlib/%) "$(into)/lib"
	sed 's|@PREFIX@|$(prefix)|; s|@VERSION@|$(VERSION)|' include/nekahuiro.pc.in > "$(into)/lib/pkgconfig/nekahuiro.pc"
	install -m 755 "$(CARGO_TARGET_DIR)/release/nekahuiro-cli" "$(into)/bin/nekahuiro"

uninstall:
	rm -f $(patsubst include/%,"$(into)/include/%",$(headers)) $(libraries:%="$(into)/lib/%") "$(into)/lib/pkgconfig/nekahuiro.pc" "$(into)/bin/nekahuiro"
