# Installs the built program, edit-tiles, their manual pages, completions, documents and the tiles of these, and takes them
# away again. It proves and builds nothing, and needs no toolchain: `make install` builds first.

PREFIX ?= /usr/local
ZSH ?= share/zsh/site-functions
PLACE = $(DESTDIR)$(PREFIX)

# What is installed: the file here, and its place below PREFIX; first what can be run.
PROGRAMS = \
	build/tileshell:bin/tileshell \
	tools/edit-tiles:share/tileshell/edit-tiles
FILES = \
	tools/listed.py:share/tileshell/listed.py \
	man/tileshell.1:share/man/man1/tileshell.1 \
	man/edit-tiles.1:share/man/man1/edit-tiles.1 \
	man/tileshell-script.5:share/man/man5/tileshell-script.5 \
	completions/tileshell.bash:share/bash-completion/completions/tileshell \
	completions/tileshell.zsh:$(ZSH)/_tileshell \
	completions/tileshell.fish:share/fish/vendor_completions.d/tileshell.fish \
	completions/requests.txt:share/tileshell/requests.txt \
	crates/tileshell_program/data/t0.pbf:share/tileshell/t0.pbf \
	tests/data/faulty.pbf:share/tileshell/faulty.pbf \
	tests/data/states.pbf:share/tileshell/states.pbf \
	README.md:share/doc/tileshell/README.md \
	CHANGELOG.md:share/doc/tileshell/CHANGELOG.md \
	docs/GUIDE.md:share/doc/tileshell/docs/GUIDE.md \
	docs/FINDING.md:share/doc/tileshell/docs/FINDING.md \
	docs/MANY_TILES.md:share/doc/tileshell/docs/MANY_TILES.md \
	docs/FORMATS.md:share/doc/tileshell/docs/FORMATS.md \
	docs/PROVED.md:share/doc/tileshell/docs/PROVED.md \
	docs/EXAMPLE.md:share/doc/tileshell/docs/EXAMPLE.md \
	docs/LIBRARY.md:share/doc/tileshell/docs/LIBRARY.md \
	debian/copyright:share/doc/tileshell/copyright

# edit-tiles is next to the file that it needs, and this leads to it.
LINK = bin/edit-tiles
LEADS_TO = ../share/tileshell/edit-tiles

.PHONY: install uninstall sources

install:
	set -e; for file in $(PROGRAMS); do install -D -m 755 "$${file%%:*}" "$(PLACE)/$${file#*:}"; done
	set -e; for file in $(FILES); do install -D -m 644 "$${file%%:*}" "$(PLACE)/$${file#*:}"; done
	ln -sf $(LEADS_TO) "$(PLACE)/$(LINK)"

uninstall:
	rm -f "$(PLACE)/$(LINK)"
	for file in $(PROGRAMS) $(FILES); do rm -f "$(PLACE)/$${file#*:}"; done
	set -e; for folder in doc/tileshell/docs doc/tileshell tileshell; do \
		test ! -d "$(PLACE)/share/$$folder" || rmdir --ignore-fail-on-non-empty "$(PLACE)/share/$$folder"; \
	done

# The files here that are installed, a line for each.
sources:
	@for file in $(PROGRAMS) $(FILES); do echo "$${file%%:*}"; done
