# Installs the programs, the library, the man pages and what goes with them. In a release nothing is
# built; else the programs have to be proved first: tools/prove agc agc_watch libagc.
#
#     make install PREFIX=DIR    to DIR/bin, lib, include and share; with DESTDIR=ROOM all below
#                                ROOM, for packages
#     make uninstall PREFIX=DIR  takes these files away again
#
# bindir, includedir, libdir, datarootdir, docdir and mandir may be others than those of PREFIX, to
# both by the same words.
PREFIX ?= /usr/local
DESTDIR ?=
bindir = $(PREFIX)/bin
datarootdir = $(PREFIX)/share
docdir = $(datarootdir)/doc/agc
mandir = $(datarootdir)/man
HERE := $(dir $(abspath $(lastword $(MAKEFILE_LIST))))
NAMES := agc agc_watch
ifneq ($(wildcard $(HERE)crates/agc/src),)
PROGRAMS := $(foreach it,$(NAMES),$(HERE)crates/$(it)/out/$(it))
else
PROGRAMS := $(addprefix $(HERE),$(NAMES))
endif
BASH = $(datarootdir)/bash-completion/completions
ZSH = $(datarootdir)/zsh/site-functions

# The workbench, into which agc_watch writes pages: a release has it beside the programs.
WORKBENCH = $(call files,workbench.html share/workbench.html)

# The files that are copied, from this folder, and for each its folder: FILE=FOLDER
files = $(patsubst $(HERE)%,%,$(wildcard $(addprefix $(HERE),$(1))))
PLACED = $(foreach it,README.md CHANGELOG.md CONTRIBUTING.md $(call files,PROVED-BY.txt),$(it)=$(docdir)) \
    $(foreach it,$(call files,docs/*.*),$(it)=$(docdir)/docs) \
    $(foreach it,$(call files,docs/embedding/*.*),$(it)=$(docdir)/docs/embedding) \
    $(foreach it,$(call files,examples/*.*),$(it)=$(docdir)/examples) \
    $(foreach it,$(call files,teaching/*.*),$(it)=$(docdir)/teaching) \
    $(foreach it,$(call files,teaching/benches/*.*),$(it)=$(docdir)/teaching/benches) \
    $(foreach it,$(call files,share/man/*.[1-8]),$(it)=$(mandir)/man$(patsubst .%,%,$(suffix $(it)))) \
    share/completions/agc_watch.bash=$(BASH) share/completions/_agc_watch=$(ZSH) \
    $(foreach it,$(docdir) $(datarootdir)/agc,$(WORKBENCH)=$(it))

.PHONY: all install uninstall
all: $(PROGRAMS)
	@$(MAKE) --no-print-directory -C $(HERE)libagc all

$(PROGRAMS):
	@echo '$@ is not there: tools/prove $(notdir $@) makes it' >&2; exit 1

# libagc/Makefile looks whether PREFIX can be taken.
install: $(PROGRAMS)
	@$(MAKE) --no-print-directory -C $(HERE)libagc install
	install -d '$(DESTDIR)$(bindir)'
	install -m 755 $(PROGRAMS) '$(DESTDIR)$(bindir)'
	@set -e; for it in $(PLACED); do to='$(DESTDIR)'$${it#*=}; \
	    install -d "$$to"; install -m 644 $(HERE)$${it%%=*} "$$to"; done
	mv '$(DESTDIR)$(BASH)/agc_watch.bash' '$(DESTDIR)$(BASH)/agc_watch'
	ln -sf agc_watch '$(DESTDIR)$(BASH)/agc'

uninstall:
	@$(MAKE) --no-print-directory -C $(HERE)libagc uninstall
	@for it in $(NAMES); do rm -f '$(DESTDIR)$(bindir)/'$$it; done
	@for it in $(PLACED); do rm -f '$(DESTDIR)'$${it#*=}/$$(basename $${it%%=*}); done
	rm -f '$(DESTDIR)$(BASH)/agc_watch' '$(DESTDIR)$(BASH)/agc'
	@for it in '$(docdir)/docs/embedding' '$(docdir)/docs' '$(docdir)/examples' '$(docdir)/teaching/benches' \
	    '$(docdir)/teaching' '$(docdir)' '$(datarootdir)/agc'; \
	    do to='$(DESTDIR)'$$it; \
	    if [ -d "$$to" ]; then rmdir --ignore-fail-on-non-empty "$$to"; fi; done
