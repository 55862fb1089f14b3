PREFIX ?= /usr/local
# Where libraries go, such as /usr/lib64 or /usr/lib/x86_64-linux-gnu. A relative folder is relative to the current
# folder.
override PREFIX := $(abspath $(PREFIX))
LIBDIR ?= $(PREFIX)/lib
override LIBDIR := $(abspath $(LIBDIR))
# The prefix that capn.pc names. In the archive, this prefix is the folder where capn.pc lies.
PC_PREFIX ?= $(PREFIX)
# The version is in the file VERSION.
VERSION := $(shell cat VERSION)
# With --anew, the whole run proves and tries again even what an earlier run has passed on this machine.
ANEW ?=
# The crates whose edits are tried. If it is empty, all edits that are due are tried.
CRATES ?=
PROGRAM := crates/capn
# The kit's folder. Its c/liblibc_c.a has the allocator in C: malloc, realloc and free.
KIT ?= $(dir $(shell rt doc))
# The folder of the library for C. It has no symbolic link, because the gate rejects every symbolic link.
BUILD := build
SHELL := bash
.SHELLFLAGS := -o pipefail -c

# The pages that are installed with the program and with the library. They lie in the same folders as in the repository,
# so that their links work. The files that they link to are installed, too. So is contrib/, except for the scripts that
# try it in a clone.
PAGES := README.md LICENSE NOTICE $(wildcard docs/*.md docs/capn.[13] docs/internals/*.md docs/pictures/*.svg) \
	$(wildcard .ci/*.md .ci/refused bench/*.md release/*.md tests/*.md vectors/*) \
	$(wildcard $(sort $(shell grep -ohs 'crates/[a-z_]*/specs/[A-Za-z/]*\.antt' docs/internals/*.md))) \
	$(filter-out %/run,$(sort $(shell find contrib -type f ! -path '*/__pycache__/*' 2> /dev/null)))
# The headers.
HEADERS := $(wildcard c/*.h c/*.hpp)
# For verify-dist: FILE is a file of a release. BUILT is a clone where its commit is already built. OVER is a clone
# where the gate passed its commit. The crates below the program and the library, which the gate proved there, aren't
# proved again.
FILE ?= dist/*
BUILT ?=
OVER ?=

.PHONY: try program run test test-all quick edits pages write bench interop library beside linked
.PHONY: install install-library uninstall uninstall-library release dist verify-dist clean-root

# Shows the stored run before any proof, in a minute or a few. The program that runs here is not proved.
try:
	@.ci/needs try
	@echo "compiling capn without a proof, and running it: some minutes"
	@.ci/stored-run try
	@echo "nothing was proved: this is not the proved program, which make run builds"

# Proves and builds the program: crates/capn/out/capn. Proves only the crates that it needs. Where processors and memory
# allow, it proves several crates at a time. It prints a line for each crate that is done.
program:
	@.ci/needs run
	@echo "proving and building capn: 30 to 70 minutes on four cores, less where an earlier run has proved the same"
	@.ci/prove capn

# Proves and builds the program, and shows its stored run: the input bytes and the output bytes.
run: program
	@.ci/stored-run built

# The lines of the gate that need no prover, and the lines that need what the gate builds. .ci/README.md says when each
# fails.
PAGE_LINES := .ci/lines .ci/docs .ci/borders .ci/cited .ci/toolchain .ci/version .ci/lists .ci/readings \
	.ci/counts .ci/places tests/named release/completions tests/pages/touched tests/pages/words tests/cases \
	release/symbols release/manual release/links tests/release/steps tests/release/needs
BUILT_LINES := release/recursion tests/program/statuses tests/program/full-disk tests/program/failures \
	tests/program/allocations tests/vectors .ci/library release/installs release/glibc

# The gate proves every crate of the product, and runs every test and stored case. It fails if edits are due.
test:
	@.ci/needs test
	@.ci/steps test $(PAGE_LINES) .ci/edits .ci/prove $(BUILT_LINES)

# The whole run, which a release needs. Besides the gate, it proves the tests, and tries all edits that must fail. It
# alone writes build/PROVED, which says what passed for which commit. With ANEW=--anew it proves again what earlier runs
# have passed.
test-all:
	@.ci/needs test
	@rm -f $(BUILD)/PROVED
	@.ci/steps test-all $(PAGE_LINES) ".ci/prove --all $(ANEW)" $(BUILT_LINES) tests/c/two-compilers release/proved

# Runs all tests and stored cases without a proof. It is for a tree that is being changed.
quick:
	@tests/quick

# Tries the edits that must fail, and records which were refused. It tries the edits that are due, or the edits of
# CRATES.
edits:
	@.ci/edits --try $(CRATES)

# Runs the lines of the gate that need no prover, in a minute.
pages:
	@.ci/steps pages $(PAGE_LINES) .ci/edits

# Writes everything that scripts write into pages, packages and tests.
write:
	.ci/version --write && .ci/lists --write && .ci/readings --write && tests/cases --write
	release/completions --write && release/manual --write && tests/pages/touched --write && .ci/counts --write

# Prints the shortest time of each operation on each shape of message, in nanoseconds per byte.
bench:
	cd crates/bench && rt run > /dev/null && ./out/bench times

# Tests the program and the library with what the gate doesn't need: other languages, sanitizers and other readers.
# - Each language calls the library on every stored vector. C makes a million calls, and calls in two threads.
# - The tests of C, C++ and Python run once more under sanitizers, and the tests of Go under the race detector.
# - The guide's recipes and the programs of the pages are run.
# - C++, Rust, Go and Python read 20,000 messages, valid and hostile, as C reads them.
# The rest needs the reference implementation, and is skipped if it isn't installed:
# - Messages that the reference implementation wrote, and pairs of messages that its builders wrote, are read.
# - The cases of vectors/ are answered by the reference implementation and by the crate capnp, and compared.
# - The lines of docs/DIFFERENCES.md and the table of hostile inputs are tried.
# - If make runs as root, all of this and the languages over the library also run in a root of Debian 13.
# The tests use the program that the gate builds, or an installed one: make interop CAPN=/usr/local/bin/capn.
interop: $(if $(CAPN),,beside)
	./tests/c/agree
	./tests/c/watched
	./tests/c/sanitized
	./tests/pages/recipes
	./tests/pages/readme
	./tests/pages/signing
	@if command -v python3 > /dev/null; then CAPN="$(CAPN)" python3 -B tests/pages/guide.py bash; \
	else echo "guide: skipped, since there is no python3"; fi
	./tests/pages/callers
	./tests/pages/beside
	./tests/reference/run
	./tests/reference/differences
	@if command -v python3 > /dev/null; then ./tests/reference/vectors && ./tests/reference/pairs && \
		./tests/reference/orphans; else echo "vectors, pairs, orphans: skipped, since there is no python3"; fi
	./tests/reference/debian-13
	@if command -v python3 > /dev/null; then ./tests/program/archives && ./tests/program/marks && ./tests/program/texts \
		&& ./tests/program/annotations && ./tests/program/memory; \
	else echo "archives, marks, texts, annotations, memory: skipped, since there is no python3"; fi
	./contrib/annotate/run
	./contrib/dask/run
	@if command -v python3 > /dev/null; then \
	  (cd crates/bench && rt run > /dev/null) && CAPN="$(CAPN)" ./bench/seconds short busy; \
	else echo "seconds: skipped, since there is no python3"; fi
	@if command -v python3 > /dev/null; then ./tests/python/run && ./tests/python/sanitized && ./tests/reference/hostile; \
	else echo "python, hostile: skipped, since there is no python3"; fi
	./tests/c/languages

# Proves the library for C: the archive of capn_c, and the files that are made from it.
library:
	@.ci/needs library
	@.ci/prove capn_c
	@$(MAKE) --no-print-directory linked

# Proves the program and the library in one run. `make test` does this and more. It took 28 minutes from nothing, on a
# machine with four cores and no other work (bench/gate.md). Other machines take up to twice as long. The longest chain
# of crates that wait for one another is capn_words, value, target, walk, layout, canon, serve, archive, orders, tool
# and capn.
beside:
	@.ci/needs library
	@.ci/prove capn capn_c
	@$(MAKE) --no-print-directory linked

# Links the static and the shared library. Both contain the archive, the allocator, the texts and the defaults as one
# object, in which only the names capn_* are visible. The proved calls are named proved_capn_*, and the calls of
# c/defaults.c call them. This target proves nothing, and compiles only the texts and the defaults.
linked:
	@test -f "$(KIT)c/liblibc_c.a" || { echo "there is no rt, whose folder has the allocator in C" >&2; exit 1; }
	@test -f crates/capn_c/out/libcapn_c.a || { echo "there is no proved archive: run make library" >&2; exit 1; }
	rm -f $(BUILD)/*.o $(BUILD)/libcapn.* && mkdir -p $(BUILD)
	cd $(BUILD) && ar x ../crates/capn_c/out/libcapn_c.a && ar x $(KIT)c/liblibc_c.a heap.pic.o
	$(CC) -O2 -fPIC -Wall -Wextra -Werror -DCAPN_VERSION_TEXT='"$(VERSION)"' -c c/text.c -o $(BUILD)/text.o
	$(CC) -O2 -fPIC -Wall -Wextra -Werror -c c/defaults.c -o $(BUILD)/defaults.o
	cd $(BUILD) && nm -g --defined-only capn_c.o | sed -n 's/.* \(capn_.*\)/\1 proved_\1/p' > proved.names
	cd $(BUILD) && objcopy --redefine-syms=proved.names capn_c.o
	cd $(BUILD) && ld -r -o capn.o capn_c.o heap.pic.o text.o defaults.o \
		&& objcopy --wildcard --keep-global-symbol='capn_*' capn.o
	cd $(BUILD) && ar rcsD libcapn.a capn.o
	cd $(BUILD) && $(CC) -shared -o libcapn.so.1 -Wl,-soname,libcapn.so.1 -Wl,-z,defs,-z,now capn.o

# Installs the program, its manual page, completions and pages. It builds nothing, so that root proves and builds
# nothing.
install: into := $(DESTDIR)$(PREFIX)
install:
	@test -x $(PROGRAM)/out/capn || { echo "there is no program to install: run make program first" >&2; exit 1; }
	install -D -m 755 $(PROGRAM)/out/capn $(into)/bin/capn
	install -D -m 644 docs/capn.1 $(into)/share/man/man1/capn.1
	install -D -m 644 docs/capn.bash $(into)/share/bash-completion/completions/capn
	install -D -m 644 docs/capn.zsh $(into)/share/zsh/site-functions/_capn
	install -D -m 644 docs/capn.fish $(into)/share/fish/vendor_completions.d/capn.fish
	for it in $(PAGES); do \
		install -D -m $$(test -x $$it && echo 755 || echo 644) $$it $(into)/share/doc/capn/$$it || exit 1; done

# Removes the files that install put there, by their names.
uninstall: into := $(DESTDIR)$(PREFIX)
uninstall:
	rm -f $(into)/bin/capn $(into)/share/man/man1/capn.1 $(into)/share/bash-completion/completions/capn
	rm -f $(into)/share/zsh/site-functions/_capn $(into)/share/fish/vendor_completions.d/capn.fish
	rm -f $(addprefix $(into)/share/doc/capn/,$(PAGES))
	test ! -d $(into)/share/doc/capn || find $(into)/share/doc/capn -type d -empty -delete

# Installs the library for C: both forms, the headers, its manual page, and the files for pkg-config and CMake. It
# builds nothing either.
install-library: into := $(DESTDIR)$(PREFIX)
install-library:
	@test -f $(BUILD)/libcapn.a -a -f $(BUILD)/libcapn.so.1 \
		|| { echo "there is no library to install: run make library first" >&2; exit 1; }
	install -d -m 755 $(into)/include
	install -m 644 $(HEADERS) $(into)/include
	install -D -m 644 $(BUILD)/libcapn.a $(DESTDIR)$(LIBDIR)/libcapn.a
	install -D -m 755 $(BUILD)/libcapn.so.1 $(DESTDIR)$(LIBDIR)/libcapn.so.1
	ln -sf libcapn.so.1 $(DESTDIR)$(LIBDIR)/libcapn.so
	install -d -m 755 $(DESTDIR)$(LIBDIR)/pkgconfig $(DESTDIR)$(LIBDIR)/cmake/capn
	include=$$(realpath -ms --relative-to=$(LIBDIR)/cmake/capn $(PREFIX)/include); \
	for it in pkgconfig/capn.pc cmake/capn/capn-config.cmake cmake/capn/capn-config-version.cmake; do \
		sed -e 's,@PREFIX@,$(PC_PREFIX),; s,@LIBDIR@,$(patsubst $(PREFIX)/%,$${prefix}/%,$(LIBDIR)),' \
			-e "s,@VERSION@,$(VERSION),; s,@INCLUDE@,$$include," c/$${it##*/}.in \
			| install -m 644 /dev/stdin $(DESTDIR)$(LIBDIR)/$$it || exit 1; done
	install -D -m 644 docs/capn.3 $(into)/share/man/man3/capn.3
	for it in $(PAGES); do \
		install -D -m $$(test -x $$it && echo 755 || echo 644) $$it $(into)/share/doc/libcapn/$$it || exit 1; done

# Removes the files that install-library put there, by their names.
uninstall-library: into := $(DESTDIR)$(PREFIX)
uninstall-library: libraries := $(DESTDIR)$(LIBDIR)
uninstall-library:
	rm -f $(addprefix $(into)/include/,$(notdir $(HEADERS))) $(into)/share/man/man3/capn.3
	rm -f $(addprefix $(libraries)/,libcapn.a libcapn.so.1 libcapn.so pkgconfig/capn.pc)
	rm -f $(libraries)/cmake/capn/capn-config.cmake $(libraries)/cmake/capn/capn-config-version.cmake
	rm -f $(addprefix $(into)/share/doc/libcapn/,$(PAGES))
	for it in $(libraries)/cmake/capn $(into)/share/doc/libcapn; do \
		test ! -d $$it || find $$it -type d -empty -delete; done

# Makes a release of the current commit. It does the whole run, makes the files, and tries them, step by step. A run
# goes on where an earlier run stopped. With OVER, the last step takes what the whole run proved in this clone, as
# verify-dist does with OVER=.
release:
	release/all $(if $(OVER),--over $(OVER))

# Makes the files of a release in dist/ from the program and the libraries that are built. It needs Debian's dpkg-dev,
# lintian and python3-wheel, and what docs/PYTHON.md lists. If the whole run hasn't passed, the names of the files say
# so.
dist:
	release/dist

# Checks whether the files of a release are what their commit builds. The files are those of dist/, or FILE.
verify-dist:
	release/verify $(if $(BUILT),--built $(BUILT)) $(if $(OVER),--over $(OVER)) $(FILE)

# Installs, uses and removes the files of dist/ in roots of Debian 12 and 13 that have nothing else.
clean-root:
	release/clean-root --debian 12
	release/clean-root --debian 13
