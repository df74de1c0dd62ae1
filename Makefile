# Proves the library, and installs it where pkg-config and CMake find it.
#
#   make                              proves it and writes target/staticlib/libwaylluqen.a
#   make install PREFIX=/opt/mine     installs that archive, the header, what pkg-config and CMake read, the licence
#   make uninstall PREFIX=/opt/mine   removes these files, and the two folders that are theirs alone
#
# PREFIX, LIBDIR, INCLUDEDIR and DOCDIR are absolute paths; blanks in them are fine. DESTDIR stands before
# them where a file is written, and in no file.

PREFIX = /usr/local
LIBDIR = $(PREFIX)/lib
INCLUDEDIR = $(PREFIX)/include
DOCDIR = $(PREFIX)/share/doc/waylluqen

archive = target/staticlib/libwaylluqen.a
header = host/include/waylluqen.h
version = $(shell sed -n 's/^.define WAYLLUQEN_VERSION "\(.*\)"$$/\1/p' $(header))

headers = $(DESTDIR)$(INCLUDEDIR)
lib = $(DESTDIR)$(LIBDIR)
doc = $(DESTDIR)$(DOCDIR)
pc = $(lib)/pkgconfig/waylluqen.pc
cmake = $(lib)/cmake/waylluqen
config = $(cmake)/waylluqen-config.cmake
config_version = $(cmake)/waylluqen-config-version.cmake

.PHONY: all install uninstall
# `make -j all install` has to prove first.
.NOTPARALLEL:

# rt knows what is proved already, so it is always asked.
all:
	@host/prove staticlib waylluqen

check_absolute = $(foreach name,PREFIX LIBDIR INCLUDEDIR DOCDIR,$(if $(filter /%,$(firstword $($(name)))),,\
    $(error $(name) has to be an absolute path, and is '$($(name))')))

# The shell, sed, pkg-config or CMake would take these for something else.
odd = ' " \ ; | & $$ \#
check_letters = $(foreach letter,$(odd),$(if $(findstring $(letter),$(headers)$(lib)$(doc)$(PREFIX)),\
    $(error a path to install to has a $(letter) in it)))

# Folders count too: a file that was removed leaves no other trace. rt writes to crates/NAME/out, which are no sources.
sources = crates.txt $(filter-out %/out,$(wildcard crates/*/*))
newer = $(shell find $(sources) -newer $(archive) | head -n 1)
check_archive = $(if $(wildcard $(archive)),,$(error $(archive) is missing: run 'make' first))$(if $(newer),\
    $(error $(archive) is older than $(newer): run 'make' first))

# What is below the prefix says so in the .pc file: pkg-config can move the prefix.
below_prefix = $(subst $(PREFIX)/,$${prefix}/,$1)

# It runs no rt, which root may not have. `install -d` would change the modes of folders that are there already.
install:
	$(check_absolute)$(check_letters)$(check_archive)
	umask 022 && mkdir -p '$(headers)' '$(lib)/pkgconfig' '$(cmake)' '$(doc)'
	install -m 644 $(header) '$(headers)'
	install -m 644 $(archive) '$(lib)'
	install -m 644 LICENSE '$(doc)'
	install -m 644 host/install/waylluqen.pc.in '$(pc)'
	install -m 644 host/install/waylluqen-config.cmake.in '$(config)'
	install -m 644 host/install/waylluqen-config-version.cmake.in '$(config_version)'
	sed -i 's|@VERSION@|$(version)|' '$(pc)' '$(config_version)'
	sed -i 's|@LIBDIR@|$(LIBDIR)|; s|@INCLUDEDIR@|$(INCLUDEDIR)|' '$(config)'
	sed -i 's|@LIBDIR@|$(call below_prefix,$(LIBDIR))|; s|@INCLUDEDIR@|$(call below_prefix,$(INCLUDEDIR))|' '$(pc)'
	sed -i 's|@PREFIX@|$(PREFIX)|' '$(pc)'

uninstall:
	$(check_absolute)$(check_letters)
	rm -f '$(headers)/waylluqen.h' '$(lib)/libwaylluqen.a' '$(doc)/LICENSE' '$(pc)' '$(config)' '$(config_version)'
	rmdir '$(cmake)' '$(doc)' 2>/dev/null || true
