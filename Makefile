# ti, the terminfo toolkit. `make help` prints the targets: the lines of this head that begin with
# two signs.
#
##   make            builds the programs ti, ti-everyday (ti-tic, ti-infocmp, ti-tput, ti-clear,
##                   ti-toe, ti-tabs, ti-tset, ti-reset, ti-fmt and ti-lint) and ti-lsp, proving every
##                   crate below them
##   make help       prints this list
##   make docs       lists the contracts of all crates and their definitions, in out/docs/
##   make check      checks a change without proofs
##   make test       runs every proof and test, as CI does
##   make cli        runs only the black-box cases, on the built program
##   make editor     runs the sources with marks through the language server and ti-lint
##   make integration  runs the program with editors, and with programs in a terminal
##   make package    checks pages, completions, install and packages
##   make newcomers  runs the commands of the pages in a new system of Debian, as root
##   make hostile    runs malicious inputs of full size, and 20,000 random ones
##   make audit      tries all wrong bodies, which the prover must refuse; with CRATES="A B" those
##                   of some crates, with SINCE=COMMIT those of the crates that changed since it
##                   and of those above them
##   make library    builds the C library: libti.a, libti.so.2 and ti.pc
##   make tinfo      builds the C library and libtinfo.so.6 over it, for programs that
##                   are built for ncurses's
##   make program, make everyday, make lsp   build one of the programs: ti, ti-everyday, ti-lsp
##   make bench      measures the tools and ncurses's on the same work, and edits of lists
##   make install    installs what is built, and its pages, below DESTDIR and PREFIX (which is
##                   /usr/local): ti, ti-everyday with its links, ti-lsp with the files for
##                   editors, the C library and libtinfo.so.6; with completions, README, docs and
##                   examples. Nothing is built, unless no program is
##   make install-library   installs only the C library, with its headers and page, into
##                   LIBDIR and INCLUDEDIR
##   make install-python    installs the module for Python, into PYTHONDIR
##   make install-tinfo     installs only libtinfo.so.6, into LIBDIR/ti, with ti-run and its page
##   make uninstall  removes all of these
##   make dist       makes ti-VERSION.tar.gz of the last commit, which builds
##   make deb        makes Debian packages of the built programs, in packages/
##   make wheel      makes the wheel of the module for Python, in packages/
##   make release    makes archives of the built programs and of the source, the wheel, and the
##                   extension of Visual Studio Code, in packages/
##   make reproduce  builds two clones of the last commit, and compares what they give

PREFIX ?= /usr/local
BINDIR ?= $(PREFIX)/bin
MANDIR ?= $(PREFIX)/share/man
BASHDIR ?= $(PREFIX)/share/bash-completion/completions
ZSHDIR ?= $(PREFIX)/share/zsh/site-functions
FISHDIR ?= $(PREFIX)/share/fish/vendor_completions.d
DOCDIR ?= $(PREFIX)/share/doc/ti
EXAMPLESDIR = $(DOCDIR)/examples
VIMDIR ?= $(PREFIX)/share/vim/vimfiles
NVIMDIR ?= $(PREFIX)/share/nvim/site
EMACSDIR ?= $(PREFIX)/share/emacs/site-lisp
LSPDIR ?= $(PREFIX)/share/ti-lsp
LIBDIR ?= $(PREFIX)/lib
INCLUDEDIR ?= $(PREFIX)/include
PYTHONDIR ?= $(PREFIX)/lib/python3/dist-packages
VERSION := $(shell cat VERSION)

PROGRAM = crates/ti/out/ti
LSP = crates/ti_lsp/out/ti_lsp
EVERYDAY = crates/ti_everyday/out/ti_everyday
EXAMPLES = $(wildcard examples/*)
# pages that are installed with their pictures, as they are here. Of their links those to editors
# lead to the examples, and those to what is not below DOCDIR become their words
DOCS = README.md SECURITY.md $(wildcard docs/*.md docs/*.svg)
# pages that `make docs` makes, which are installed if they are there
MADE = CONTRACTS.md DEFINITIONS.md
LINKS = -e 's!\]\((\.\./)?editors/!](\1examples/editors/!g' \
	-e 's!\[([^]]*)\]\((\.\./)?(man|include|bindings|CHANGELOG|CONTRIBUTING|LICENSE)[^)]*\)!\1!g' \
	-e 's!/usr/share/doc/ti\>!$(DOCDIR)!g' -e 's!/usr/share/ti-lsp\>!$(LSPDIR)!g'
# what README says to those who have the sources is not installed
OF_SOURCES = -e '/^<!-- sources -->$$/,/^<!-- installed -->$$/d'
# what is for one editor and runs as it is, and what a user copies
VIM_FILES = $(patsubst editors/vim/%,%,$(wildcard editors/vim/*/terminfo.vim))
EDITORS = $(wildcard $(addprefix editors/,*.el *.json *.lua *.toml *.vim *.xml textmate/* vim/*/* vscode/*))
EDITOR_DIRS = vscode textmate vim/syntax vim/ftplugin vim/ftdetect vim
# the links to ti-everyday
TOOL_NAMES = ti-tic ti-infocmp ti-tput ti-clear ti-toe ti-tabs ti-tset ti-reset ti-fmt ti-lint
# the pages of each program, and those of all
PAGES_OF_PROGRAM = man/ti.1 man/ti-profile-tic.1 man/ti-profile-infocmp.1 man/ti-profile-tput.1 man/ti-session.1
PAGES_OF_EVERYDAY = man/ti-everyday.1 $(TOOL_NAMES:%=man/%.1)
PAGES_OF_ALL = man/ti-report.7 man/ti-hints.7
PAGES = $(PAGES_OF_PROGRAM) $(PAGES_OF_EVERYDAY) $(PAGES_OF_ALL) man/ti-lsp.1
PAGES_THERE = $(PAGES_OF_ALL) $(if $(wildcard $(PROGRAM)),$(PAGES_OF_PROGRAM)) \
	$(if $(wildcard $(EVERYDAY)),$(PAGES_OF_EVERYDAY)) $(if $(wildcard $(LSP)),man/ti-lsp.1)
LIBRARY = crates/ti_c/out/lib
HEADERS = ti.h ti.hpp ti_names.h
# what ti.h declares: each name leads to the page
CALLS := $(shell sed -n 's/.*\b\(ti_[a-z_]*\)\x28.*/\1/p' include/ti.h | sort -u)
LIBRARY_FILES = $(addprefix $(INCLUDEDIR)/,$(HEADERS)) $(LIBDIR)/libti.a $(LIBDIR)/libti.so.2 $(LIBDIR)/libti.so \
	$(LIBDIR)/pkgconfig/ti.pc $(MANDIR)/man3/ti.3 $(CALLS:%=$(MANDIR)/man3/%.3)
PYTHON_FILES = ti/__init__.py ti/py.typed
# not where the loader looks by itself: the system's libtinfo.so.6 stays the one that is found
TINFODIR = $(LIBDIR)/ti
TINFO = $(LIBRARY)/ti/libtinfo.so.6
TINFO_FILES = $(TINFODIR)/libtinfo.so.6 $(TINFODIR)/ti-run.so $(BINDIR)/ti-run $(MANDIR)/man1/ti-run.1
PC_VALUES = -e 's|@PREFIX@|$(PREFIX)|' -e 's|@LIBDIR@|$(LIBDIR)|' -e 's|@INCLUDEDIR@|$(INCLUDEDIR)|'

.PHONY: all help docs check test cli editor integration package hostile audit library tinfo lsp
.PHONY: program everyday bench newcomers probe
.PHONY: install install-built install-program install-everyday install-lsp install-editors install-docs
.PHONY: install-library install-python install-tinfo
.PHONY: uninstall uninstall-library uninstall-python uninstall-tinfo
.PHONY: dist deb wheel release reproduce

all: program everyday lsp

program:
	./ti --help >/dev/null

help:
	@sed -n 's/^##  //p' Makefile

docs:
	python3 -B docs/definitions.py out/docs
	python3 -B docs/contracts.py out/docs

check:
	tests/check

test:
	tests/run

cli: program everyday
	python3 tests/cli/run.py

editor: lsp everyday
	python3 tests/editor/run.py

integration: all
	python3 tests/integration/run.py

package: program everyday
	python3 tests/package/run.py

newcomers: all tinfo
	python3 tests/newcomers/run.py

# what a view of the C library shows of files, for the tests
probe: library
	$(or $(CC),cc) -std=c99 -O1 -Wall -Wextra -Wpedantic -Werror -Iinclude tests/probe.c $(LIBRARY)/libti.a \
		-o crates/ti_c/out/probe

hostile: program lsp probe
	python3 tests/hostile/run.py --all

audit:
	tests/audit $(CRATES) $(if $(SINCE),--since $(SINCE))

library:
	python3 build/library.py
	sed $(PC_VALUES) include/ti.pc.in >$(LIBRARY)/ti.pc

tinfo: library
	python3 build/tinfo.py

lsp:
	python3 build/build.py ti_lsp

everyday:
	python3 build/build.py ti_everyday

bench: all
	python3 bench/run.py

# What is built is installed as it is, so that root needs no toolchain.
install:
	test -x $(PROGRAM) || test -x $(EVERYDAY) || test -x $(LSP) || $(MAKE) all
	$(MAKE) -s install-built

install-built: $(if $(wildcard $(PROGRAM)),install-program) $(if $(wildcard $(EVERYDAY)),install-everyday)
install-built: $(if $(wildcard $(LSP)),install-lsp) $(if $(wildcard $(LIBRARY)/libti.a),install-library)
install-built: $(if $(wildcard $(TINFO)),install-tinfo) install-editors install-docs

install-program:
	install -D -m 755 $(PROGRAM) "$(DESTDIR)$(BINDIR)/ti"
	install -D -m 644 completions/ti.bash "$(DESTDIR)$(BASHDIR)/ti"
	install -D -m 644 completions/_ti "$(DESTDIR)$(ZSHDIR)/_ti"
	install -D -m 644 completions/ti.fish "$(DESTDIR)$(FISHDIR)/ti.fish"

install-everyday:
	install -D -m 755 $(EVERYDAY) "$(DESTDIR)$(BINDIR)/ti-everyday"
	install -D -m 644 completions/ti.bash "$(DESTDIR)$(BASHDIR)/ti"
	install -D -m 644 completions/_ti "$(DESTDIR)$(ZSHDIR)/_ti"
	install -D -m 644 completions/ti.fish "$(DESTDIR)$(FISHDIR)/ti.fish"
	for tool in $(TOOL_NAMES); do \
		ln -sf ti-everyday "$(DESTDIR)$(BINDIR)/$$tool"; \
		ln -sf ti "$(DESTDIR)$(BASHDIR)/$$tool"; \
		ln -sf ti.fish "$(DESTDIR)$(FISHDIR)/$$tool.fish"; \
	done

# the extension of Visual Studio Code takes the server on the PATH
install-lsp:
	install -D -m 755 $(LSP) "$(DESTDIR)$(BINDIR)/ti-lsp"
	install -d "$(DESTDIR)$(LSPDIR)"
	python3 -B build/extension.py "$(DESTDIR)$(LSPDIR)/ti-lsp.vsix"

install-editors:
	for file in $(EDITORS); do \
		install -D -m 644 "$$file" "$(DESTDIR)$(EXAMPLESDIR)/$$file" || exit 1; \
	done
	for file in $(VIM_FILES); do \
		install -D -m 644 "editors/vim/$$file" "$(DESTDIR)$(VIMDIR)/$$file" && \
		install -D -m 644 "editors/vim/$$file" "$(DESTDIR)$(NVIMDIR)/$$file" || exit 1; \
	done
	install -D -m 644 editors/terminfo-mode.el "$(DESTDIR)$(EMACSDIR)/terminfo-mode.el"

install-docs:
	for page in $(PAGES_THERE); do \
		install -D -m 644 "$$page" "$(DESTDIR)$(MANDIR)/man$${page##*.}/$${page##*/}" || exit 1; \
	done
	install -d "$(DESTDIR)$(EXAMPLESDIR)" "$(DESTDIR)$(DOCDIR)/docs"
	install -m 644 $(EXAMPLES) "$(DESTDIR)$(EXAMPLESDIR)"
	for file in $(DOCS) examples/README.md; do \
		sed -E $(OF_SOURCES) $(LINKS) "$$file" >"$(DESTDIR)$(DOCDIR)/$$file" && \
		chmod 644 "$(DESTDIR)$(DOCDIR)/$$file" || exit 1; \
	done
	for page in $(MADE); do \
		test ! -f "out/docs/$$page" || \
		install -m 644 "out/docs/$$page" "$(DESTDIR)$(DOCDIR)/docs/$$page" || exit 1; \
	done

install-library:
	test -f $(LIBRARY)/libti.a || $(MAKE) library
	install -d "$(DESTDIR)$(INCLUDEDIR)" "$(DESTDIR)$(LIBDIR)/pkgconfig" "$(DESTDIR)$(MANDIR)/man3"
	install -m 644 $(addprefix include/,$(HEADERS)) "$(DESTDIR)$(INCLUDEDIR)"
	install -m 644 $(LIBRARY)/libti.a "$(DESTDIR)$(LIBDIR)/libti.a"
	install -m 755 $(LIBRARY)/libti.so.2 "$(DESTDIR)$(LIBDIR)/libti.so.2"
	ln -sf libti.so.2 "$(DESTDIR)$(LIBDIR)/libti.so"
	sed $(PC_VALUES) include/ti.pc.in >"$(DESTDIR)$(LIBDIR)/pkgconfig/ti.pc"
	chmod 644 "$(DESTDIR)$(LIBDIR)/pkgconfig/ti.pc"
	install -m 644 man/ti.3 "$(DESTDIR)$(MANDIR)/man3/ti.3"
	for call in $(CALLS); do ln -sf ti.3 "$(DESTDIR)$(MANDIR)/man3/$$call.3" || exit 1; done

# it calls libti.so.2 by its name, so it runs with any version of Python
install-python:
	for file in $(PYTHON_FILES); do \
		install -D -m 644 "python/$$file" "$(DESTDIR)$(PYTHONDIR)/$$file" || exit 1; \
	done

# ti-run finds the library from where it is itself, so that both can be moved together
install-tinfo:
	test -f $(TINFO) || $(MAKE) tinfo
	install -d "$(DESTDIR)$(BINDIR)" "$(DESTDIR)$(TINFODIR)" "$(DESTDIR)$(MANDIR)/man1"
	install -m 644 $(TINFO) "$(DESTDIR)$(TINFODIR)/libtinfo.so.6"
	install -m 644 $(dir $(TINFO))ti-run.so "$(DESTDIR)$(TINFODIR)/ti-run.so"
	sed "s|@LIBRARIES@|$$(realpath -m --relative-to='$(BINDIR)' '$(TINFODIR)')|" tinfo/ti-run.in \
		>"$(DESTDIR)$(BINDIR)/ti-run"
	chmod 755 "$(DESTDIR)$(BINDIR)/ti-run"
	install -m 644 man/ti-run.1 "$(DESTDIR)$(MANDIR)/man1/ti-run.1"

uninstall: uninstall-library uninstall-python uninstall-tinfo
	rm -f "$(DESTDIR)$(BINDIR)/ti" "$(DESTDIR)$(BINDIR)/ti-lsp" "$(DESTDIR)$(LSPDIR)/ti-lsp.vsix"
	rmdir "$(DESTDIR)$(LSPDIR)" 2>/dev/null || true
	for page in $(PAGES); do \
		rm -f "$(DESTDIR)$(MANDIR)/man$${page##*.}/$${page##*/}"; \
	done
	rm -f "$(DESTDIR)$(BASHDIR)/ti" "$(DESTDIR)$(ZSHDIR)/_ti" "$(DESTDIR)$(FISHDIR)/ti.fish"
	for example in $(EXAMPLES); do rm -f "$(DESTDIR)$(EXAMPLESDIR)/$${example##*/}"; done
	for file in $(EDITORS); do rm -f "$(DESTDIR)$(EXAMPLESDIR)/$$file"; done
	for part in $(EDITOR_DIRS); do \
		rmdir "$(DESTDIR)$(EXAMPLESDIR)/editors/$$part" 2>/dev/null || true; \
	done
	rmdir "$(DESTDIR)$(EXAMPLESDIR)/editors" 2>/dev/null || true
	for file in $(VIM_FILES); do rm -f "$(DESTDIR)$(VIMDIR)/$$file" "$(DESTDIR)$(NVIMDIR)/$$file"; done
	rm -f "$(DESTDIR)$(EMACSDIR)/terminfo-mode.el"
	for file in $(DOCS) $(MADE:%=docs/%); do rm -f "$(DESTDIR)$(DOCDIR)/$$file"; done
	rmdir "$(DESTDIR)$(EXAMPLESDIR)" "$(DESTDIR)$(DOCDIR)/docs" "$(DESTDIR)$(DOCDIR)" \
		2>/dev/null || true
	rm -f "$(DESTDIR)$(BINDIR)/ti-everyday"
	for tool in $(TOOL_NAMES); do \
		rm -f "$(DESTDIR)$(BINDIR)/$$tool" "$(DESTDIR)$(BASHDIR)/$$tool" "$(DESTDIR)$(FISHDIR)/$$tool.fish"; \
	done

uninstall-library:
	for file in $(LIBRARY_FILES); do rm -f "$(DESTDIR)$$file"; done

uninstall-python:
	for file in $(PYTHON_FILES); do rm -f "$(DESTDIR)$(PYTHONDIR)/$$file"; done
	rmdir "$(DESTDIR)$(PYTHONDIR)/ti" 2>/dev/null || true

uninstall-tinfo:
	for file in $(TINFO_FILES); do rm -f "$(DESTDIR)$$file"; done
	rmdir "$(DESTDIR)$(TINFODIR)" 2>/dev/null || true

dist:
	git archive --format=tar.gz --prefix=ti-$(VERSION)/ -o ti-$(VERSION).tar.gz HEAD
	@echo ti-$(VERSION).tar.gz

deb: all library tinfo
	python3 build/packages.py deb

wheel: library
	python3 build/wheel.py

release: all library tinfo
	python3 build/packages.py release

reproduce:
	build/reproduce
