# The targets of pairtree2ocfl. `make help` lists them.

RT ?= rt
PYTHON ?= python3
PREFIX ?= /usr/local
# What the program is built for: x86-64-v2, which the toolchain takes unless told otherwise, or x86-64-v3.
CPU ?= $(shell sh tools/choose.sh)

PROGRAM := bin/pairtree2ocfl
PROGRAMS := bin/static
BUILT := crates/pairtree2ocfl/out/pairtree2ocfl

.DEFAULT_GOAL := build
.PHONY: help build try demo test mutants allocations bench install uninstall programs dist deb rpm clean toolchain

help: ## list the targets
	@sed -n 's/^\([a-z]*\):.*## \(.*\)/make \1\t\2/p' $(MAKEFILE_LIST)

build: toolchain ## prove and build the program, at bin/pairtree2ocfl (the default), for this machine (CPU=x86-64-v2, CPU=x86-64-v3)
	@sh tools/build.sh $(RT) $(CPU) $(PROGRAM)

try: toolchain ## run the program unproved over the store in demo/, in about a minute
	@sh tools/try.sh $(RT)

demo: build ## build the program and carry the store in demo/ into a temporary folder
	@sh demo/run $(PROGRAM)

test: toolchain ## every test: the toolchain's gate, then the tests of the program that it built
	@$(PYTHON) tests/all.py $(RT) $(BUILT)

mutants: toolchain ## run the program, UNPROVED, with each wrong body of a call of the system in turn, which some test has to see (WORDS='..' of these)
	@$(PYTHON) tools/mutants.py $(RT) $(WORDS)

allocations: build ## refuse each request for memory of the program in turn, where a C compiler is
	@$(PYTHON) tests/allocations.py $(PROGRAM)

bench: build ## processor time of a run beside sha512sum, cp and, where rustc is, plain Rust over the same stores
	@$(PYTHON) bench/bench.py $(PROGRAM)

# What the documents don't list, since the code has it.
.PHONY: model wrong guarantees
model: ## print each definition that contracts cite, with what it means (WORDS='..' of names that have one of these)
	@$(PYTHON) tools/index.py model $(WORDS)

wrong: ## print each wrong body that the prover has to refuse (WORDS='..')
	@$(PYTHON) tools/index.py wrong $(WORDS)

guarantees: ## print which promises and guarantees rest on each crate (CRATES='..' of these)
	@$(PYTHON) tools/guarantees.py $(CRATES)

install: ## copy the program, its man page, completions, scripts and documents to PREFIX (/usr/local unless given), below DESTDIR
	@test -n "$(PREFIX)" || { echo "pairtree2ocfl: PREFIX is empty: name the folder to install to, as PREFIX=/usr/local" >&2; exit 1; }
	@test -x $(PROGRAM) || { echo "pairtree2ocfl: run make first, which builds $(PROGRAM)" >&2; exit 1; }
	PYTHON=$(PYTHON) sh tools/install.sh $(PROGRAM) "$(DESTDIR)$(PREFIX)"

uninstall: ## take away what install copied
	@test -n "$(PREFIX)" || { echo "pairtree2ocfl: PREFIX is empty: name the folder that it was installed to" >&2; exit 1; }
	sh tools/install.sh --remove "$(DESTDIR)$(PREFIX)"

programs: toolchain ## build what is shipped, in bin/static: the program for x86-64-v2 and for x86-64-v3, with the C library in it
	cd crates/pt_cli && $(RT) lib
	@$(PYTHON) tools/programs.py $(RT) $(PROGRAMS)

dist: programs ## make an archive of the programs with their documents and licences, in dist/
	@sh tools/dist.sh $(PROGRAMS) dist

deb: programs ## make a Debian package, in dist/
	@sh tools/deb.sh $(PROGRAMS) dist

rpm: programs ## make an RPM package, in dist/, where rpmbuild is
	@sh tools/rpm.sh $(PROGRAMS) dist

clean: ## remove what was built and what the checks keep
	rm -rf bin dist crates/*/out

toolchain:
	@command -v $(RT) > /dev/null || { echo "pairtree2ocfl: the Rattle toolchain is missing: no command '$(RT)' on the PATH (make RT=/path/to/rt names it)" >&2; exit 1; }
