# Short names for the commands of the toolchain.
#
#   make run < FILE           runs a script on standard input, on the built-in image; if needed, it first proves and builds the program that
#                             does so (iom_player), on all cores
#   make try < FILE           runs a script so without any proof, in half a minute; with WORDS="check --settled", the whole program with
#                             these words, on the files of FILES=".."
#   make build                proves and builds the whole program, if needed
#   make test                 every proof from nothing, the edits that must be refused, every test
#   make edits [CRATES=..]    tries the edits of crates/*/edits, or those of the named crates, many in one check
#   make rows                 runs the scripts of crates/iom_rows/data, and prints each answer that is not the expected one
#   make bench [OTHER=FILE]   lines per second, of explain too, and images loaded, assembled and listed; also of another program
#   make fuzz [OTHER=FILE]    compares the program with another one, or its own words, on cases made to harm; MINUTES=1, SEED=1
#   make peer                 compares the program with QEMU's IOMMU (QEMU 10); CASES=5000, SEED=1
#   make linux                runs the IOMMU driver of Linux over the C library; OPERATIONS=3000, SEED=1
#   make boot                 boots a kernel on QEMU with our IOMMU (contrib/qemu); it needs a network
#   make library              builds the C library, its header and its pkg-config file into c/out, where the Python module finds it
#   make page                 builds the page that shows the model in a browser into web/out; it proves a copy of the crates (web/build.py)
#   make install PREFIX=..    copies the program, its man page and its completions for bash and zsh, and the C library to PREFIX, or to
#                             /usr/local if PREFIX is not given
#   make dist, make deb       packs both into dist/, as an archive or as Debian packages
#   make wheel                packs the Python module and the library into dist/, as a wheel for pip

PREFIX = /usr/local
MINUTES = 1
SEED = 1
CASES = 5000
OPERATIONS = 3000
CRATES =
WORDS =
FILES =
program = crates/rviommu/out/rviommu
player = crates/iom_player/out/iom_player
library = c/out/lib/librviommu.so
sources = $(shell find crates -name out -prune -o -type f \( -name '*.rt' -o -name '*.antt' \) -print)

# On standard error, so that standard output has only the program's answers.
has_rt = command -v rt >/dev/null || { echo "rt, the command of the Rattle kit, is not on the path" >&2; exit 1; }
has_python = command -v python3 >/dev/null || { echo "python3 is not on the path" >&2; exit 1; }

.PHONY: run try build test edits rows bench fuzz peer linux boot library page install dist deb wheel

$(program): crates.txt $(sources)
	@$(has_rt)
	@$(has_python)
	@packaging/build.py
	@touch $@

$(player): crates.txt $(sources)
	@$(has_rt)
	@$(has_python)
	@packaging/build.py iom_player
	@touch $@

$(library): crates.txt $(sources) c/build.py c/guard.c c/rviommu.pc.in include/rviommu.h include/rviommu_record.h include/rviommu_events.h
	@$(has_rt)
	@$(has_python)
	@c/build.py >/dev/null
	@touch $@

build: $(program)

run: $(player)
	@$(player)

try:
	@$(has_rt)
	@$(has_python)
	@packaging/try.py $(WORDS) -- $(FILES)

test:
	@$(has_rt)
	@$(has_python)
	rt ci
	tests/edits.py
	sh tests/refused_memory.sh
	@test -x $(program) || packaging/build.py
	@test -x $(player) || packaging/build.py iom_player
	tests/program.py $(program)
	c/build.py
	tests/c_library.py $(program)
	tests/package.py $(program)
	@if command -v chromium >/dev/null && test -f web/out/index.html; then set -x; tests/page.py $(program); fi

edits:
	@$(has_rt)
	@$(has_python)
	tests/edits.py $(CRATES)

rows:
	@$(has_rt)
	@cd crates/iom_rows && rt run -- data </dev/null 2>/dev/null

bench: $(program)
	@$(has_python)
	bench/bench.py $(program) $(OTHER)

fuzz: $(program)
	@$(has_python)
	tests/fuzz.py $(program) $(or $(OTHER),$(program)) $(MINUTES) $(SEED)

peer: $(program)
	@$(has_python)
	tests/peer/peer.py $(program) $(CASES) $(SEED)

linux: $(library)
	tests/linux/linux.sh c/out/lib/librviommu.a $(OPERATIONS) $(SEED)

boot: $(program) $(library)
	@$(has_python)
	contrib/qemu/build.py >/dev/null
	contrib/qemu/boot.py contrib/qemu/out $(program)

library:
	@$(has_rt)
	@$(has_python)
	c/build.py

page:
	@$(has_rt)
	@$(has_python)
	web/build.py

install: $(program) $(library)
	install -d $(DESTDIR)$(PREFIX)/bin
	install -m 755 $(program) $(DESTDIR)$(PREFIX)/bin/rviommu
	install -d $(DESTDIR)$(PREFIX)/share/man/man1
	install -m 644 man/rviommu.1 $(DESTDIR)$(PREFIX)/share/man/man1/rviommu.1
	install -d $(DESTDIR)$(PREFIX)/share/bash-completion/completions
	install -m 644 completions/rviommu.bash $(DESTDIR)$(PREFIX)/share/bash-completion/completions/rviommu
	install -d $(DESTDIR)$(PREFIX)/share/zsh/site-functions
	install -m 644 completions/_rviommu $(DESTDIR)$(PREFIX)/share/zsh/site-functions/_rviommu
	install -d $(DESTDIR)$(PREFIX)/include
	install -m 644 include/rviommu.h include/rviommu_record.h include/rviommu_events.h $(DESTDIR)$(PREFIX)/include
	install -d $(DESTDIR)$(PREFIX)/lib/pkgconfig
	install -m 644 c/out/lib/librviommu.a $(DESTDIR)$(PREFIX)/lib
	cp -P c/out/lib/librviommu.so c/out/lib/librviommu.so.* $(DESTDIR)$(PREFIX)/lib
	install -m 644 c/out/lib/pkgconfig/rviommu.pc $(DESTDIR)$(PREFIX)/lib/pkgconfig/rviommu.pc

dist: $(program) $(library)
	@packaging/package.sh dist $(program)

deb: $(program) $(library)
	@packaging/package.sh deb $(program)

wheel: $(library)
	@mkdir -p dist
	@cd python && python3 -B -c 'import backend; print("dist/" + backend.build_wheel("../dist"))'
