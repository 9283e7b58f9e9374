# make                  proves and builds the program and the library for C (64-bit ARM: make -C c arm64)
# make try              compiles the program without a proof, in a minute or two, if it isn't proved, and tries it
# make check CRATE=NAME proves a crate, over the crates below it
# make gate             runs the gate: every proof, must-fail edit, test and check
# make install          puts the program and the library for C, if it is built, below PREFIX (/usr/local), and removes what an older version
#                       put there; tools/install.sh says which other folders can be chosen, DESTDIR and LIBDIR among them
# make uninstall        removes what was installed there
# make release          packs out/larboardyuzu-VERSION.tar.gz for a machine without the kit, with SHA256SUMS and a bill of materials beside
#                       it; of a library that isn't built it says so
# make check-release    packs it as it stands, committed or not, unpacks it in an empty folder and tries it there without the kit
# make deb              packs what is built for Debian: the program, and the library for C for each processor
# make check-packages   tries make install and make deb in empty folders
# make sums             packs a release and writes SHA256SUMS, which is committed with a version
# make compare          compares what is built and packed with SHA256SUMS
# make clean            removes what is packed, and the program without a proof
# make help             prints these lines
archive := out/larboardyuzu-$(shell cat VERSION).tar.gz
.PHONY: all help try check gate install uninstall release check-release deb check-packages sums compare clean

all:
	./larboardyuzu prove
	$(MAKE) -C c

help:
	@sed -n '/^archive/q; s/^# //p' Makefile

try:
	./larboardyuzu selftest 0 --packets 100

check:
	@[ -n '$(CRATE)' ] && [ -d 'crates/$(CRATE)' ] || { echo 'make check CRATE=NAME: crates/ has no crate of this name'; exit 1; }
	cd 'crates/$(CRATE)' && rt check

gate:
	.ci/run

# Nothing that is older than its sources is installed or packed.
install:
	@tools/built.py old
	@tools/install.sh install

uninstall:
	@tools/install.sh uninstall

release:
	@tools/release.py pack

check-release:
	@UNCOMMITTED=1 tools/release.py pack
	@tools/check_release.py $(archive)

deb:
	@tools/built.py old
	@tools/packages.py make

check-packages:
	@tools/check_packages.py all

sums:
	@tools/release.py sums

compare:
	@tools/release.py compare

clean:
	rm -rf out/release out/larboardyuzu-*.tar.gz out/larboardyuzu-*.spdx.json out/SHA256SUMS out/deb out/unproved
