# The usual names: each target is one call of a script, which says with --help what it does.

# The plan that `make try`, `make run` and `make boot` take, under the schedule in its first lines.
PLAN ?= plans/one-send.toml
export MCTOWER ?= crates/mctower/out/mctower

.PHONY: help try test prove run gate boot page

help:  ## lists these targets
	@sed -n 's/^\([a-z]*\): *## /make \1	/p' Makefile

try:  ## builds without proofs, and runs PLAN=plans/one-send.toml; two minutes of processor time
	@MCTOWER=tools/try.sh plans/run.sh "$(PLAN)"

test:  ## builds without proofs, and runs all plans and rows; about five minutes
	@tests/rows.sh

prove:  ## proves and builds the program; 22 minutes on 4 cores
	@tools/prove-all.py

run:  ## runs PLAN=plans/one-send.toml by the proved program, which `make prove` leaves
	@plans/run.sh "$(PLAN)"

gate:  ## the merge gate: all proofs from nothing, all mutants, all tests; hours
	@.ci/run

boot:  ## boots the proved program in QEMU, without an operating system, and runs PLAN=..
	@metal/build.py && MCTOWER=metal/boot.py plans/run.sh "$(PLAN)"

page:  ## builds web/tower.html from the proved libraries
	@web/build.py
