# What there is to do here: `make` says it. packaging/here does it with the programs that are here; .ci/run is the gate.
# BUILD: where everything is built. PREFIX: where it is installed. UNPROVED=1: by programs without proofs. GATE: the log of a gate.
BUILD  ?= callers/build
PREFIX ?= /usr/local

help demo test install release:
	@BUILD='$(BUILD)' PREFIX='$(PREFIX)' DESTDIR='$(DESTDIR)' UNPROVED='$(UNPROVED)' GATE='$(GATE)' packaging/here $@

prove:
	@env -u MAKEFLAGS -u MFLAGS -u MAKELEVEL -u MAKEOVERRIDES .ci/run

.PHONY: help demo test install release prove
