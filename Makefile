# Each line is a command that a person could type. The first build takes minutes: the program is proved before it is built.
PREFIX ?= /usr/local
PROGRAM = build/rvdap
SHARE = $(DESTDIR)$(PREFIX)/share

# One line where a tool is absent, before anything else is done.
wants = @command -v $(1) > /dev/null || { echo "make: $(1) is absent: $(2)" >&2; exit 1; }

# What gives the program: the proofs, or, where there is no rt, that it was built before.
PROGRAM_BY = $(if $(shell command -v rt 2> /dev/null),build,built)

.PHONY: run build test check rows docs bench soak install dist clean built toolchain compiler python

# Debugs an example: plays a session into the program as an editor would, and prints what each request gives.
run: python $(PROGRAM_BY)
	@examples/play --explained examples/sorting.session $(PROGRAM)

# Proves the program and builds it: $(PROGRAM), where neither the gate nor an interrupted one takes it away.
build: toolchain python
	@tools/prove
	@install -D -m 755 crates/rvdap/out/rvdap $(PROGRAM)

# The gate, then the mutants, and then the process tests on the programs that the gate left. The gate refuses a second crates.txt, as in
# copies that a killed tools/prove left; those of one that is at work stay.
test: toolchain compiler python
	@test ! -d build/prove || flock -n build/prove.lock rm -rf build/prove
	tests/run

# Proves one crate over what is proved below it, or of it the functions whose path has a word: make check CRATE=framing ONLY=unframer
check: toolchain
	cd crates/$(CRATE) && rt check $(if $(ONLY),--only $(ONLY))

# Plays the tables of tests/rows, on the players that an earlier run left.
rows: python
	tests/run --no-gate rows

# Makes the transcripts in the pages anew, and holds the pages against the code.
docs: python $(PROGRAM_BY)
	docs/transcript
	tests/run --no-gate docs said wrap

# Measures the program beside bench/floor.c in the same run.
bench: compiler python build
	bench/run

# Load and sessions at random for the program, for some minutes: a table for bench/README.md.
soak: python $(PROGRAM_BY)
	tests/soak

# The program, its man page, and completions for bash, zsh and fish.
install: $(PROGRAM_BY)
	install -D -m 755 $(PROGRAM) $(DESTDIR)$(PREFIX)/bin/rvdap
	install -D -m 644 packaging/rvdap.1 $(SHARE)/man/man1/rvdap.1
	install -D -m 644 packaging/completions/rvdap.bash $(SHARE)/bash-completion/completions/rvdap
	install -D -m 644 packaging/completions/_rvdap $(SHARE)/zsh/site-functions/_rvdap
	install -D -m 644 packaging/completions/rvdap.fish $(SHARE)/fish/vendor_completions.d/rvdap.fish

# Packages to hand out: build/dist has a tar file, a Debian package and an extension of VS Code.
dist: python $(PROGRAM_BY)
	tools/dist

clean:
	rm -rf build crates/*/out

built:
	@test -x $(PROGRAM) || { echo "make: rt is absent, and so is $(PROGRAM): docs/INSTALL.md says how to get one of them" >&2; exit 1; }
	@echo "make: rt is absent: $(PROGRAM) is taken as it is" >&2

toolchain:
	$(call wants,rt,put the bin folder of a Rattle kit on the path (docs/INSTALL.md says which))

compiler:
	$(call wants,cc,install a C compiler such as gcc (Debian: apt-get install gcc libc6-dev))

python:
	$(call wants,python3,install Python 3 (Debian: apt-get install python3))
