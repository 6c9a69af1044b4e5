# make        proves what the program needs and builds it: the executable is ./sas. A line for each crate; build.log has the rest
# make test   the whole gate: every proof from nothing, the edits that must fail, and the cases over the programs that the
#             gate built; the last line is 'N passed, M failed', and the exit status is 0 exactly if M is 0
# make lib    proves what the library needs and builds it, with $CC or cc, into library/out/; docs/LIBRARY.md says what is there
# make install    installs what was built, below PREFIX (/usr/local), with DESTDIR in front: libraries in its folder LIBDIR (lib), the
#                 package of Python in PYTHONDIR, and the program as NAME (sas); proves nothing. make uninstall removes it;
#                 docs/INSTALL.md says which files these are
# make dist   packs what was built into sas-VERSION-PLATFORM.tar.gz, with a program that needs no other file; docs/INSTALL.md
# make deb    packs what was built into sas_VERSION_amd64.deb, a package of Debian
# make bench  measures ./sas over inputs of a fiftieth of the size, in a minute; docs/SPEED.md says how to measure in full
# make clean  removes what was built and packed, and the inputs of `make bench`
#
# `make lib`, `make dist` and `make deb` take PLATFORM: x86_64-linux, if left out, or aarch64-linux, of which docs/INSTALL.md says more.
#
# `rt`, the command of the toolchain, has to be on the PATH where something is proved, and python3; `make lib`, `make dist`, `make deb` and
# `make test` want a C compiler, $CC or cc, too, and for aarch64-linux $CC or aarch64-linux-gnu-gcc. The tests use what is there of gcc,
# g++, clang, clang++, rustc, cargo, cmake, pkg-config, pip, nm, readelf, valgrind, GNU parallel, Slurm, qemu-aarch64-static,
# qemu-x86_64-static, dpkg-deb and apt-get; .ci/run installs some of these. JOBS is how many processors `make` and `make lib` use to prove;
# each takes one to four GB.

JOBS ?= $(shell nproc)

.PHONY: program test lib install uninstall dist deb bench clean

PREFIX = /usr/local
LIBDIR = lib
PYTHONDIR =
NAME = sas
PLATFORM = x86_64-linux
PLACE = "PREFIX=$(PREFIX)" "LIBDIR=$(LIBDIR)" "PYTHONDIR=$(PYTHONDIR)" "NAME=$(NAME)" "DESTDIR=$(DESTDIR)"

program:
	@python3 build.py sas $(JOBS)
	@cp crates/sas/out/sas sas
	@echo "built ./sas"

test:
	@python3 cases/gate.py

lib:
	@python3 library/build.py $(JOBS) $(PLATFORM)

install:
	@./install.sh install $(PLACE)

uninstall:
	@./install.sh uninstall $(PLACE)

dist:
	@python3 release/dist.py . $(PLATFORM)

deb:
	@python3 release/deb.py . $(PLATFORM)

bench:
	@test -x sas || { echo "there is no ./sas yet; make builds it"; exit 1; }
	@python3 bench/run.py ./sas bench/out --scale 0.02 --rounds 3

clean:
	rm -rf crates/*/out out bench/out library/out* library/rust/target sas *-unproved build.log gate.log sas-*.tar.gz sas_*.deb
