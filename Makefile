# Builds, checks and installs dbck: make, make check, make test, make install, make uninstall, make deb, make static.
PREFIX ?= /usr/local
DESTDIR ?=
INSTALL ?= install

VERSION := $(shell sed -n 's/^const VERSION: &str = "\(.*\)";$$/\1/p' crates/dbcli/src/arguments.rt)
PROGRAM := crates/dbck/out/dbck
BIN := $(DESTDIR)$(PREFIX)/bin
SHARE := $(DESTDIR)$(PREFIX)/share
# What the manual refers to.
DOCUMENTS := DECISIONS FAULTS FORMAT REPAIR

# Where the toolchain is.
KIT = $(patsubst %/,%,$(dir $(shell rt doc)))

# A name with a blank would be two.
ifneq ($(words x$(DESTDIR)$(PREFIX)x),1)
$(error DESTDIR and PREFIX must not have blanks)
endif

# The folders that `uninstall` removes if they are empty. Those that every system has below /usr and /usr/local stay.
SHARED := $(if $(filter /usr /usr/local,$(PREFIX:%/=%)),,bin share/man/man1)
EMPTIED := share/doc/dbck share/bash-completion/completions share/zsh/site-functions share/fish/vendor_completions.d $(SHARED)

.PHONY: all check test install uninstall deb static version

# `rt run` builds only what is proved, and again only what has changed. The other targets depend on it, so that none of them takes
# a program that is older than the sources.
all:
	cd crates/dbck && rt run -- --version

# The gate: every proof, must-fail edit, test and program, and then the runs of the built program. CI calls this.
check:
	@tests/gate.sh

# What can be run without a proof, in minutes: the tests, and the runs of the program that is built, if there is one.
test:
	@tests/unproved.sh $(PROGRAM)

install: all
	$(INSTALL) -D -m 755 $(PROGRAM) $(BIN)/dbck
	$(INSTALL) -D -m 644 docs/dbck.1 $(SHARE)/man/man1/dbck.1
	$(INSTALL) -D -m 644 completions/dbck.bash $(SHARE)/bash-completion/completions/dbck
	$(INSTALL) -D -m 644 completions/_dbck $(SHARE)/zsh/site-functions/_dbck
	$(INSTALL) -D -m 644 completions/dbck.fish $(SHARE)/fish/vendor_completions.d/dbck.fish
	$(INSTALL) -d $(SHARE)/doc/dbck
	$(INSTALL) -m 644 $(DOCUMENTS:%=docs/%.md) $(SHARE)/doc/dbck
	$(INSTALL) -m 755 docs/both-ways.sh $(SHARE)/doc/dbck

uninstall:
	rm -f $(BIN)/dbck $(SHARE)/man/man1/dbck.1 $(SHARE)/bash-completion/completions/dbck \
	    $(SHARE)/zsh/site-functions/_dbck $(SHARE)/fish/vendor_completions.d/dbck.fish
	rm -f $(DOCUMENTS:%=$(SHARE)/doc/dbck/%.md) $(SHARE)/doc/dbck/both-ways.sh
	cd $(DESTDIR)$(PREFIX)/ 2> /dev/null || exit 0; for folder in $(EMPTIED); do \
	    [ ! -d $$folder ] || rmdir -p --ignore-fail-on-non-empty $$folder || exit; done

deb: all
	packaging/make-deb $(PROGRAM) $(VERSION)

# The same object file, linked with a C library that it brings along.
static: all
	$(CC) -static -o $(PROGRAM)-static $(PROGRAM).o $(KIT)/c/libos_c.a $(KIT)/c/liblibc_c.a

version:
	@echo $(VERSION)
