# What can be done here: `make help`.

# The response that `make export` and `make try` read.
FILE ?= examples/first.tds

# Where `make install` puts the program and its man page.
PREFIX ?= /usr/local

# What is installed, packed or measured: PROGRAM if it is named, else what is proved and built here.
BUILT = $(if $(PROGRAM),,build)
BIN = $(or $(PROGRAM),bin/tds_replay)
ROOT = $(DESTDIR)$(PREFIX)
COMPLETION = $(addprefix share/,bash-completion/completions zsh/site-functions fish/vendor_completions.d)
INSTALLED = bin/tds_replay share/man/man1/tds_replay.1 $(join $(COMPLETION),/tds_replay /_tds_replay /tds_replay.fish)

# What `make uninstall` takes out if it is empty then: folders of completion, and the others too below a PREFIX of your own.
FOLDERS = $(COMPLETION) $(if $(filter-out /usr /usr/local,$(ROOT)),bin share/man/man1)

# Ends with one line if the kit isn't there.
NEED_RT = command -v rt > /dev/null || { echo "rt isn't there: proving and building need the Rattle kit (README.md says where it comes from)" >&2; exit 1; }

# Ends with one line if there is no Python.
NEED_PYTHON = command -v python3 > /dev/null || { echo "python3 isn't there: the scripts in tools/ need Python 3.10 or later" >&2; exit 1; }

.PHONY: help clean try build export install uninstall deb release try-release against-server needs test gate lint digest worked generated recipes python-tests bench try-test refused-memory check

help:
	@echo "make try FILE=F        exports the response in F, unproved"
	@echo "make build             proves and builds the program, bin/tds_replay"
	@echo "make export FILE=F     builds it, and exports the response in F"
	@echo "make install PREFIX=P  puts it, man page and completion into P; or uninstall"
	@echo "make deb               makes a Debian package of it and of all commands"
	@echo "make release           makes the archives of the tag that is checked out, and sums"
	@echo "make needs             installs what tests, recipes and pictures need, as root"
	@echo "make test              proves what isn't proved yet, and runs the crates' tests"
	@echo "make gate              runs everything: each proof, edit, test and script"
	@echo "make lint              compares pages, help and sources; checks types"
	@echo "make digest            has --version tell the digest of the sources"
	@echo "make worked            runs the program over the worked rows"
	@echo "make generated         compares it with a plain reading, response by response"
	@echo "make recipes           runs the commands of the pages and of examples/recipes"
	@echo "make python-tests      tests the Python package, also against a stand-in server"
	@echo "make bench WHAT=W      measures what bench/run lists, as export or peers"
	@echo "make clean             removes what was proved and built"
	@echo "PROGRAM=F uses the program F instead of the one that is built here."

# `rt try` compiles the crates and checks while they run what it can; it proves nothing.
try:
	@$(NEED_RT)
	@echo "nothing of this is proved: make export FILE=$(FILE) proves the program, builds it and runs it" >&2
	@cd crates/replay && rt try -- export "$(abspath $(FILE))"

build:
	@$(NEED_PYTHON)
	@tools/prove replay

export:
	@test -r "$(FILE)" || { echo "$(FILE) isn't there, or can't be read" >&2; exit 1; }
	@$(MAKE) --no-print-directory build
	@bin/tds_replay export "$(FILE)"

install: $(BUILT)
	install -d "$(ROOT)" && cd "$(ROOT)" && install -d $(dir $(INSTALLED))
	install -m 755 "$(BIN)" "$(ROOT)/$(word 1,$(INSTALLED))"
	install -m 644 docs/tds_replay.1 "$(ROOT)/$(word 2,$(INSTALLED))"
	install -m 644 tools/completion/tds_replay.bash "$(ROOT)/$(word 3,$(INSTALLED))"
	install -m 644 tools/completion/tds_replay.zsh "$(ROOT)/$(word 4,$(INSTALLED))"
	install -m 644 tools/completion/tds_replay.fish "$(ROOT)/$(word 5,$(INSTALLED))"

uninstall:
	cd "$(ROOT)" && rm -f $(INSTALLED)
	@cd "$(ROOT)" && for it in $(FOLDERS); do if [ -d $$it ]; then rmdir -p --ignore-fail-on-non-empty $$it; fi; done

deb: $(BUILT)
	@mkdir -p bin
	@tools/deb "$(BIN)" bin

release: $(BUILT)
	@tools/release "$(BIN)" bin/release

bench: $(if $(filter export responses peers drivers tables captures,$(WHAT)),$(BUILT))
	@bench/run "$(WHAT)" "$(BIN)"

# These take the program as it is; `make build` makes it.
worked generated recipes refused-memory:
	@tools/$@ "$(BIN)"

against-server:
	@tools/against-server --program "$(BIN)"

try-release:
	@tools/release --trial "$(BIN)"

python-tests:
	@cd python && PROGRAM="$(abspath $(BIN))" python3 -B -m tests

clean:
	rm -rf bin crates/*/out

needs test gate lint digest try-test:
	@$(NEED_PYTHON)
	@tools/$@

check:
	@$(NEED_RT)
	rt all check
