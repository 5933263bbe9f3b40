# Proves, builds and checks tileshell. It needs the Rattle toolchain, whose command is `rt`, and Python 3.

PREFIX ?= /usr/local
VERSION := $(shell sed -n 's/^const VERSION: &str = "\(.*\)";/\1/p' crates/tile_command_line/src/command_line.rt)
RELEASE := tileshell-$(VERSION)-$(shell uname -sm | tr 'A-Z ' 'a-z-')

.PHONY: all help quick crate rows pages fuzz check bench bench-hostile compare install uninstall deb tar clean toolchain
.PHONY: check-program check-random-runs check-types check-refused-growths check-failing-calls

## make              proves the program, and leaves it as build/tileshell
all: toolchain
	tools/build
	mkdir -p build
	cp crates/tileshell_program/out/tileshell_program build/tileshell

## make help         this list
help:
	@sed -n 's/^## //p' Makefile

## make quick        before each commit: layout, lints, pages, proofs of what has changed, transcripts, rows
quick: toolchain
	for crate in crates/*/; do (cd $$crate && rt fmt) || exit 1; done
	tools/lint
	tools/pages --check
	tools/build tileshell_program run_laws row_tests
	$(MAKE) all
	tools/transcripts
	$(MAKE) rows

## make crate C=NAME proves one crate over kept work, its tests too, and tries its wrong bodies
crate: toolchain
	tools/build $(C)
	cd crates/$(C) && rt check --test
	rt must-fail $(C)
	tools/wrong-bodies $(C)

## make rows         whole runs and single calls: the tables of crates/row_tests/data
rows: toolchain
	tools/build row_tests
	cd crates/row_tests/data && ../out/row_tests $$(cat ../args)

## make pages        writes the parts of the pages in docs/ that are made from the sources
pages:
	tools/pages

## make fuzz SECONDS=60  compares build/tileshell with the model of tools/ on random tiles and scripts; a SEED gives the same again
fuzz:
	python3 tools/fuzz --seconds $(or $(SECONDS),60) $(if $(SEED),--seed $(SEED))

## make check        the whole gate, from nothing: proofs, tests, rows, wrong bodies, transcripts, random runs, memory and calls that fail
check: toolchain
	tools/lint
	tools/pages --check
	tools/wrong-bodies --with-proofs --then "$(MAKE) check-program"

# what is tried of the program, alongside the wrong bodies that are left once everything is proved
check-program:
	mkdir -p build
	cp crates/tileshell_program/out/tileshell_program build/tileshell
	tools/transcripts
	$(MAKE) --jobs --output-sync=target check-random-runs check-types check-refused-growths check-failing-calls

check-random-runs:
	python3 tools/fuzz --seconds 60

check-types:
	tools/types

check-refused-growths:
	tools/refused-growths --self-test
	tools/refused-growths

check-failing-calls:
	tools/failing-calls --self-test
	tools/failing-calls

## make bench        speed and memory compared with other programs; TILESHELL=PATH measures a program that was built before
bench: $(if $(TILESHELL),,all)
	python3 bench/bench.py $(or $(TILESHELL),build/tileshell)

## make bench-hostile time and memory on hostile tiles; fails if they are not bounded as they should be
bench-hostile: $(if $(TILESHELL),,all)
	python3 bench/hostile.py $(or $(TILESHELL),build/tileshell)

## make compare TILES=".."  what tileshell lists of TILES, as they are and edited, and TILES with each geometry shifted, compared with what GDAL says
compare: all
	compare/gdal.py build/tileshell $(TILES)
	compare/gdal.py --script compare/edits.script build/tileshell $(TILES)
	compare/gdal.py --shift -30 3 build/tileshell $(TILES)

## make install      the program and edit-tiles, manual pages, completions and documents under PREFIX; `make -f install.mk install` builds nothing
install: all
	$(MAKE) -f install.mk install PREFIX="$(PREFIX)"

## make uninstall    removes what `make install` put there
uninstall:
	$(MAKE) -f install.mk uninstall PREFIX="$(PREFIX)"

## make deb          a Debian package of the program, in build/deb
deb: all
	rm -rf build/deb
	mkdir -p build/deb/tileshell
	cp -r debian build/deb/tileshell
	cp --parents install.mk $$($(MAKE) --silent --no-print-directory -f install.mk sources) build/deb/tileshell
	cd build/deb/tileshell && dpkg-buildpackage --build=binary --no-sign
	lintian --fail-on error,warning build/deb/*.changes

## make tar          a tar archive of what `make install` puts under PREFIX, with its checksum, in build
tar: all
	rm -rf build/$(RELEASE)
	$(MAKE) -f install.mk install DESTDIR=build/$(RELEASE) PREFIX=
	cd build && tar --sort=name --owner=0 --group=0 --numeric-owner --mtime="$$(git log -1 --format=%cI)" -c $(RELEASE) | gzip -9n > $(RELEASE).tar.gz
	cd build && sha256sum $(RELEASE).tar.gz > $(RELEASE).tar.gz.sha256

## make clean        removes what was built, and the kept work of proofs
clean:
	rm -rf build bench/build crates/*/out

toolchain:
	@command -v rt > /dev/null || { echo "tileshell needs the Rattle toolchain: its command rt is not on the PATH" >&2; exit 1; }
	@version="$$(rt version)"; grep -qF "logic $${version##*logic }" README.md || { echo "README.md names another logic than this Rattle toolchain has: $$version" >&2; exit 1; }
