# What a machine with the Rattle kit alone can do. What is given on the command line reaches the scripts as it is, whatever stands in it.
.PHONY: help try table install uninstall library test mutants

# The lines behind '#:' are the help. "kit" is the Rattle kit, whose command is rt.
#: make try        shows an example and its table in about half a minute, with no proof. Needs the kit
#: make table      proves the program, then prints the table of the example: the first time 4 to 9 minutes, then at once. Needs the kit
#: make install    proves the program and installs it as peaktable below PREFIX (/usr/local). Needs the kit; make uninstall needs none
#: make library    proves all C entries and builds target/staticlib/librubzolena.a. Needs the kit, bash and ar
#: make test       the gate: all proofs, tests, the C entries, the comparison with the Rust. Needs the kit, bash and git; parts of it need
#:                 cc, cargo and the Rust's sources (MSCORE_SRC)
#: make mutants    the mutation tests: tries all wrong versions; each must be refused. Needs the kit and git
#:
#: make try FILE='my readings.csv' and make table FILE='my readings.csv' take a file of your own (docs/INPUT.md). README.md is the way in.
help:
	@sed -n 's/^#: \{0,1\}//p' Makefile

# Both of the example in docs/SCOPE.md, or of a file of RFC 4180 lines: make table FILE='my readings.csv'
FILE ?= crates/peaktable/stdin
try table: export TABLE_FILE := $(value FILE)
try:
	@bin/try
table:
	@bin/table

# The program peaktable, with an exit status, below PREFIX: make install PREFIX="$HOME/.local"
PREFIX ?= /usr/local
DESTDIR ?=
# make would read their values as its own text before it hands them on
unexport FILE PREFIX DESTDIR
install uninstall: export INSTALL_PREFIX := $(value PREFIX)
install uninstall: export INSTALL_DESTDIR := $(value DESTDIR)
install:
	@bin/install
uninstall:
	@bin/install -u

# All C entries in one static library, target/staticlib/librubzolena.a, for programs that include include/rubzolena.h; needs ar.
library:
	@test/staticlib rubzolena

# Layout, proofs, must-fail edits and replayed answers; then the comparison with the Rust, where its sources and cargo are.
test:
	@.ci/gate

# The wrong versions that the gate tries and the others, all of them: each must be refused. Writes down what was tried (test/mutants).
mutants:
	@test/mutants --all
