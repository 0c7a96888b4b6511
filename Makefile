# Builds, checks and installs aotcp; packaging/README.md says more.
PREFIX ?= /usr/local
DESTDIR ?=
# no: without proofs, in some minutes
PROVE ?= yes
OUT ?= out/programs

help:
	@echo 'make programs [PROVE=no]             aotcp, aoscope, ao-nc, libaotcp, manual pages and completions, in $(OUT)'
	@echo 'make check                           the gate: proves everything and runs all of it'
	@echo 'make check-pages                     whether pages and completions say what --help says'
	@echo 'make install [PREFIX= DESTDIR=]      puts in place what make programs built; make uninstall takes it away'
	@echo 'make dist                            the sources of the last commit, as out/aotcp-VERSION.tar.gz'

programs:
	packaging/programs $(if $(filter no,$(PROVE)),quick,proved) $(OUT)
	packaging/pages $(OUT)

check:
	.ci/run

check-pages:
	packaging/check $(OUT)

install:
	packaging/install $(OUT) '$(PREFIX)' '$(DESTDIR)'

uninstall:
	packaging/install --remove $(OUT) '$(PREFIX)' '$(DESTDIR)'

dist:
	packaging/dist out

.PHONY: help programs check check-pages install uninstall dist
