# What `make install` puts where, and how `make uninstall` takes it away again. The Makefile includes this.

PREFIX ?= /usr/local
BINDIR ?= $(PREFIX)/bin
LIBDIR ?= $(PREFIX)/lib
INCLUDEDIR ?= $(PREFIX)/include
DATADIR ?= $(PREFIX)/share
MANDIR ?= $(DATADIR)/man
DOCDIR ?= $(DATADIR)/doc/fmtcanon
BASHDIR ?= $(DATADIR)/bash-completion/completions
ZSHDIR ?= $(DATADIR)/zsh/site-functions
FISHDIR ?= $(DATADIR)/fish/vendor_completions.d
# A folder below PREFIX in which this Python looks for modules, if there is one.
PYTHONDIR ?= $(shell python3 packaging/python_folder.py '$(subst ','\'',$(PREFIX))')
PYTHON ?= /usr/bin/env python3

# Recipes pass these folders through a shell. They are checked before anything is installed or removed.
FOLDERS = PREFIX BINDIR LIBDIR INCLUDEDIR DATADIR MANDIR DOCDIR BASHDIR ZSHDIR FISHDIR PYTHONDIR
places:
	@env $(foreach name,DESTDIR $(FOLDERS),$(name)='$(subst ','\'',$($(name)))') \
	    python3 packaging/folders.py check DESTDIR $(FOLDERS)

# Which folders an installation made, so that `make uninstall` can remove them.
MADE = $(DOCDIR)/folders

PKGCONFIG = 'prefix=$(PREFIX)' 'libdir=$(LIBDIR)' 'includedir=$(INCLUDEDIR)' '' \
    'Name: fmtcanon' 'Description: Canonical texts of printf formats' 'Version: $(VERSION)' \
    'Libs: -L$${libdir} -lfmtcanon' 'Cflags: -I$${includedir}'
# The package of a command: `check` is a function of the module.
MODULE_OF_NAME = $$(echo $$name | sed 's/^check$$/checker/')
# What a command that is written in Python begins with, with the folder of the module.
COMMAND = '\#!$(PYTHON)' 'import sys' '' \
    '\# Python puts the folder of this file before the standard library, unless it is told not to.' \
    'if not (sys.flags.isolated or getattr(sys.flags, "safe_path", False)):' '    del sys.path[0]' \
    'sys.path.append("$(PYTHONDIR)")' '' "from fmtcanon.$(MODULE_OF_NAME).command import main" '' 'sys.exit(main())'
CALLS = sed -n 's/^[a-z0-9_][a-z0-9_ ]* \**\(fmtcanon_[a-z_]*\)(.*/\1/p' include/fmtcanon.h
MODULES = $(patsubst python/%/__init__.py,%,$(sort $(wildcard python/fmtcanon/__init__.py python/fmtcanon/*/__init__.py)))
# The commands that are written in Python.
COMMANDS = check diff explain lsp po replace
# The manual pages of commands. That of the program comes with it.
PAGES = $(if $(PROGRAM),man/fmtcanon.1) $(COMMANDS:%=man/fmtcanon-%.1)

install: places built
	python3 packaging/folders.py make "$(DESTDIR)" $(MADE) $(BINDIR) $(INCLUDEDIR) $(LIBDIR)/pkgconfig $(PYTHONDIR) \
	    $(addprefix $(PYTHONDIR)/,$(MODULES)) $(MANDIR)/man1 $(MANDIR)/man3 $(BASHDIR) $(ZSHDIR) $(FISHDIR) \
	    $(DOCDIR)/docs $(DOCDIR)/docs/internals $(DOCDIR)/docs/try $(DOCDIR)/examples $(DOCDIR)/examples/ci \
	    $(DOCDIR)/examples/first
	install -m 644 include/fmtcanon.h $(DESTDIR)$(INCLUDEDIR)
	install -m 644 $(C)/libfmtcanon.a $(DESTDIR)$(LIBDIR)
	install -m 644 $(SHARED) $(DESTDIR)$(LIBDIR)
	ln -sf libfmtcanon.so.$(VERSION) $(DESTDIR)$(LIBDIR)/$(SONAME)
	ln -sf $(SONAME) $(DESTDIR)$(LIBDIR)/libfmtcanon.so
	printf '%s\n' $(PKGCONFIG) > $(DESTDIR)$(LIBDIR)/pkgconfig/fmtcanon.pc
	chmod 644 $(DESTDIR)$(LIBDIR)/pkgconfig/fmtcanon.pc
	for part in $(MODULES); do install -m 644 python/$$part/*.py $(DESTDIR)$(PYTHONDIR)/$$part || exit 1; done
	install -m 644 python/fmtcanon/py.typed $(DESTDIR)$(PYTHONDIR)/fmtcanon
	install -m 644 python/fmtcanon/formats/words.json $(DESTDIR)$(PYTHONDIR)/fmtcanon/formats
	ln -sfr $(DESTDIR)$(LIBDIR)/$(SONAME) $(DESTDIR)$(PYTHONDIR)/fmtcanon/$(SONAME)
	for name in $(COMMANDS); do printf '%s\n' $(COMMAND) > $(DESTDIR)$(BINDIR)/fmtcanon-$$name && \
	    chmod 755 $(DESTDIR)$(BINDIR)/fmtcanon-$$name || exit 1; done
	install -m 644 $(PAGES) $(DESTDIR)$(MANDIR)/man1
	install -m 644 man/*.3 $(DESTDIR)$(MANDIR)/man3
	for call in $$($(CALLS)); do echo '.so man3/fmtcanon.3' > $(DESTDIR)$(MANDIR)/man3/$$call.3 && \
	    chmod 644 $(DESTDIR)$(MANDIR)/man3/$$call.3 || exit 1; done
	for name in $(COMMANDS); do \
	    install -m 644 completions/fmtcanon-commands.bash $(DESTDIR)$(BASHDIR)/fmtcanon-$$name && \
	    install -m 644 completions/fmtcanon-commands.fish $(DESTDIR)$(FISHDIR)/fmtcanon-$$name.fish || exit 1; done
	install -m 644 completions/_fmtcanon-commands $(DESTDIR)$(ZSHDIR)
	install -m 644 LICENSE README.md CHANGELOG.md SECURITY.md $(DESTDIR)$(DOCDIR)
	install -m 644 docs/*.md docs/*.svg $(DESTDIR)$(DOCDIR)/docs
	install -m 644 docs/internals/*.md $(DESTDIR)$(DOCDIR)/docs/internals
	install -m 644 docs/try/* $(DESTDIR)$(DOCDIR)/docs/try
	install -m 644 examples/*.c $(DESTDIR)$(DOCDIR)/examples
	install -m 644 examples/ci/* $(DESTDIR)$(DOCDIR)/examples/ci
	install -m 644 examples/first/* $(DESTDIR)$(DOCDIR)/examples/first
ifneq ($(PROGRAM),)
	install -m 755 $(PROGRAM) $(DESTDIR)$(BINDIR)/fmtcanon
	ln -sfr $(DESTDIR)$(BINDIR)/fmtcanon $(DESTDIR)$(PYTHONDIR)/fmtcanon/program
	install -m 644 completions/fmtcanon.bash $(DESTDIR)$(BASHDIR)/fmtcanon
	install -m 644 completions/_fmtcanon $(DESTDIR)$(ZSHDIR)
	install -m 644 completions/fmtcanon.fish $(DESTDIR)$(FISHDIR)
endif

# Removes the files that an installation would make, and then the folders that it made, if they are empty. An
# installation of an older version has no list of them: then the folders with its name are removed.
uninstall: places built
	stage=$$(mktemp -d) && trap 'rm -rf "$$stage"' EXIT && \
	$(MAKE) -s install DESTDIR="$$stage/root" > /dev/null && \
	{ cp $(DESTDIR)$(MADE) "$$stage/made" 2> /dev/null || true; } && cd "$$stage/root" && \
	find . ! -type d | while read -r file; do rm -f "$(DESTDIR)/$$file"; done && \
	for part in $(MODULES); do rm -rf "$(DESTDIR)$(PYTHONDIR)/$$part/__pycache__"; done && \
	find . -depth -type d -path '*/fmtcanon*' | while read -r folder; do \
	    rmdir "$(DESTDIR)/$$folder" 2> /dev/null || true; done && \
	python3 "$(CURDIR)/packaging/folders.py" remove "$(DESTDIR)" "$$stage/made"
