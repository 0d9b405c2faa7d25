# make                              proves and builds the archive (rt), and over it the command (cargo)
# make library                      the archive alone, in target/staticlib
# make check                        the gate: everything proved from nothing, every test
# make install PREFIX=/usr/local    puts what make built where it belongs; it builds nothing itself, so it needs neither rt nor cargo
# make uninstall PREFIX=..          takes the same files away
# make clean                        removes the archive and the command; what was proved, in crates/*/out, stays
#
# DESTDIR is put before every path, for packages. BINDIR, LIBDIR, INCLUDEDIR, MANDIR and DATADIR, for completions, may be given too.
# install-library, install-command, install-completions, which asks the command for them, and install-man are the parts of install. The proved programs (target/bin) are not installed: the command gives their answers.

PREFIX = /usr/local
BINDIR = $(PREFIX)/bin
LIBDIR = $(PREFIX)/lib
INCLUDEDIR = $(PREFIX)/include
DATADIR = $(PREFIX)/share
MANDIR = $(DATADIR)/man
RT = rt
CARGO = cargo
INSTALL = install

archive := target/staticlib/libcapi.a
command := rust/target/release/cartsundial
header := include/cartsundial.h
sections := 1 3 5
version := $(shell awk '/define CARTSUNDIAL_VERSION_(MAJOR|MINOR|PATCH) / { printf "%s%s", dot, $$3; dot = "." }' $(header))

folders = $(PREFIX) $(BINDIR) $(LIBDIR) $(INCLUDEDIR) $(DATADIR) $(MANDIR)
ifneq ($(words $(folders)) $(words $(filter /%,$(folders))),6 6)
$(error PREFIX and what is given beside it are folders that start with / and have no spaces: $(folders))
endif
pages_of = $(notdir $(wildcard man/*.$(1)))
# Where the shells look for what completes a command.
bash := bash-completion/completions/cartsundial
zsh := zsh/site-functions/_cartsundial
fish := fish/vendor_completions.d/cartsundial.fish
installed = $(BINDIR)/cartsundial $(LIBDIR)/libcartsundial.a $(LIBDIR)/pkgconfig/cartsundial.pc $(INCLUDEDIR)/cartsundial.h \
    $(addprefix $(DATADIR)/,$(bash) $(zsh) $(fish)) \
    $(foreach section,$(sections),$(addprefix $(MANDIR)/man$(section)/,$(call pages_of,$(section))))

.PHONY: all library command check install install-library install-command install-completions install-man uninstall clean

all: library command

library:
	RT='$(RT)' .ci/build capi

command: library
	$(CARGO) build --release --offline --locked --manifest-path rust/Cargo.toml --target-dir rust/target --package command

check:
	.ci/run

# Reached only where there is no such file.
$(archive) $(command):
	@echo '$@ is not there: make writes it' >&2; exit 1

install: install-library install-command install-completions install-man

install-library: $(archive)
	$(INSTALL) -d '$(DESTDIR)$(LIBDIR)/pkgconfig' '$(DESTDIR)$(INCLUDEDIR)'
	$(INSTALL) -m 644 $(archive) '$(DESTDIR)$(LIBDIR)/libcartsundial.a'
	$(INSTALL) -m 644 $(header) '$(DESTDIR)$(INCLUDEDIR)/cartsundial.h'
	printf '%s\n' 'prefix=$(PREFIX)' \
	    'libdir=$(patsubst $(PREFIX)/%,$${prefix}/%,$(LIBDIR))' \
	    'includedir=$(patsubst $(PREFIX)/%,$${prefix}/%,$(INCLUDEDIR))' '' \
	    'Name: cartsundial' \
	    'Description: PCI Express boards planned, sheets judged, packets routed and traces labelled, over proved code' \
	    'Version: $(version)' 'Cflags: -I$${includedir}' 'Libs: -L$${libdir} -lcartsundial' \
	    > '$(DESTDIR)$(LIBDIR)/pkgconfig/cartsundial.pc'
	chmod 644 '$(DESTDIR)$(LIBDIR)/pkgconfig/cartsundial.pc'

install-command: $(command)
	$(INSTALL) -d '$(DESTDIR)$(BINDIR)'
	$(INSTALL) -m 755 $(command) '$(DESTDIR)$(BINDIR)/cartsundial'

install-completions: $(command)
	$(foreach shell,bash zsh fish,$(INSTALL) -d '$(DESTDIR)$(DATADIR)/$(dir $($(shell)))' && \
	    $(command) completions $(shell) > '$(DESTDIR)$(DATADIR)/$($(shell))' && chmod 644 '$(DESTDIR)$(DATADIR)/$($(shell))' &&) :

install-man:
	$(foreach section,$(sections),$(INSTALL) -d '$(DESTDIR)$(MANDIR)/man$(section)' && \
	    $(INSTALL) -m 644 $(wildcard man/*.$(section)) '$(DESTDIR)$(MANDIR)/man$(section)' &&) :

uninstall:
	rm -f $(foreach file,$(installed),'$(DESTDIR)$(file)')

clean:
	rm -f $(archive) $(command)
