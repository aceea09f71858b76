# make                    builds overlay unproved, with all its checks, to out/overlay-unproved
# make inspect            builds inspect so, to out/inspect-unproved
# make prove              passes the gate: each proof, edit, test and program; the proved programs are crates/overlay/out/overlay
#                         and crates/inspect/out/inspect
# make test               runs the scripts outside the gate on the programs that are built, the proved ones where both are
# make install PREFIX=..  puts the programs that are built, their manual pages, the schema and the examples (/usr/local if not given)

PREFIX = /usr/local
DESTDIR =
PROGRAMS = overlay inspect
SOURCES := crates.txt $(shell find crates -path '*/src/*' -name '*.rt')
# the proved program of a name where it is built, else the unproved one
built = $(if $(wildcard crates/$(1)/out/$(1)),crates/$(1)/out/$(1),out/$(1)-unproved)

.PHONY: all inspect prove test install clean

all: out/overlay-unproved

inspect: out/inspect-unproved

out/%-unproved: $(SOURCES) tools/build_unproved.py
	tools/build_unproved.py --program $* $@

prove:
	.ci/run
	tools/install.py --record

test: $(foreach it,$(PROGRAMS),$(filter out/%,$(call built,$(it))))
	tests/all.py $(foreach it,$(PROGRAMS),$(call built,$(it)))

install:
	tools/install.py --destdir '$(DESTDIR)' '$(PREFIX)'

clean:
	rm -rf out
