# `make example` and `make test` are for newcomers, `make landaudit` and `make install` for users; all are in README.md.

UNIT_TESTS = python3 -m unittest discover -s $(1)/tests -t $(1)

# The proved programs.
PROGRAM := crates/landaudit/out/landaudit
RULES := crates/landaudit_rules/out/landaudit_rules

# The witness, as `make witness` builds it, and what keeps strace from waiting for file servers.
WITNESS := $(CURDIR)/witness/out/landaudit-witness
QUIET = $(dir $(WITNESS))landaudit-quiet.so

# What the checks of the programs said, as `make landaudit` keeps them.
CHECK := $(CURDIR)/crates/landaudit/out/check.txt
RULES_CHECK := $(CURDIR)/crates/landaudit_rules/out/check.txt

# The commit that `make test` passed on, and the last line of `rt ci`.
GATE := $(CURDIR)/crates/landaudit/out/gate.txt

# How many checks `rt ci` makes at a time: one a processor, if there are 4 GiB of memory for each.
RT_JOBS ?= $(shell awk -v most="$$(nproc)" '/^MemAvailable:/ { jobs = int($$2 / 4194304); \
	print jobs < 1 ? 1 : jobs < most ? jobs : most }' /proc/meminfo)

# What `make test` tries once everything is proved.
TRIED := test-record test-packaging refuse-memory refuse-tests

# What `make example` audits: `make example TREE=.. TRACE=.. ABI=..` takes your own files.
TREE := examples/first-path/tree.jsonl
TRACE := examples/first-path/trace.jsonl
ABI := 4

# Where `make install` puts what it installs, under DESTDIR if that is set.
PREFIX := /usr/local
ROOT := $(DESTDIR)$(PREFIX)
SCRIPTS := landaudit-record landaudit-policy
MODULES := -name '*.py' -o -name '*.toml' -o -name 'page.css' -o -name 'page.js'
COMMANDS := landaudit landaudit-rules $(SCRIPTS)
SCHEMAS := $(addsuffix .schema.json,audit check denials diff lint policy recording)
JOBS := action.yml gitlab.yml
INSTALLED := share/man/man5/landaudit.5 $(foreach command,$(COMMANDS),bin/$(command) share/man/man1/$(command).1 \
	share/bash-completion/completions/$(command) share/zsh/site-functions/_$(command) \
	share/fish/vendor_completions.d/$(command).fish)

# Where `make deb` and `make dist` put the packages.
PACKAGES := packaging/out

# Each ends make with one line where its file is missing.
IS_BUILT = $(if $(and $(wildcard $(PROGRAM)),$(wildcard $(RULES))),,\
	$(error landaudit is not built: run 'make landaudit' first))
IS_PROVED = $(if $(and $(wildcard $(CHECK)),$(wildcard $(RULES_CHECK))),,\
	$(error nothing says that $(PROGRAM) and $(RULES) are proved: run 'make landaudit' first))
MADE_OF = '$(PROGRAM)' '$(CHECK)' '$(RULES)' '$(RULES_CHECK)' '$(GATE)' '$(PACKAGES)'

.PHONY: example landaudit witness install uninstall deb dist install-witness witness-deb test $(TRIED) \
	test-record-first test-record-rest test-witness live kernels

# Builds landaudit without its proofs, and runs it; a refused call (status 1) is an answer as good as another.
example:
	@tree=$$(realpath -e '$(TREE)') && trace=$$(realpath -e '$(TRACE)') || exit; \
	echo 'building landaudit without its proofs, to audit $(TRACE): a minute or two' >&2; \
	log=$$(mktemp); cd crates/landaudit; rt try -- --abi '$(ABI)' "$$tree" "$$trace" 2> $$log; status=$$?; \
	test $$status -lt 2 || grep '^landaudit: ' $$log >&2 || cat $$log >&2; rm -f $$log; test $$status -lt 2

# Proves landaudit and landaudit-rules and builds them, at crates/landaudit/out/landaudit and
# crates/landaudit_rules/out/landaudit_rules.
landaudit:
	@echo 'proving each crate after those that it depends on, and building landaudit: 20 minutes or more'
	@cd crates/landaudit && ../../packaging/progress --keep '$(CHECK)' rt run -- --help
	@cd crates/landaudit_rules && ../../packaging/progress --keep '$(RULES_CHECK)' rt run -- --help
	@echo '$(PROGRAM) and $(RULES) are there; sudo make install puts them into $(PREFIX)'

# Builds landaudit-witness, at witness/out/landaudit-witness; says which Debian packages are missing for that.
witness:
	@$(MAKE) --no-print-directory -C witness

# The scripts, their modules and the groups of rules stay together in share/landaudit, with the schemas of what they
# print and the jobs for CI; they find landaudit beside them in bin.
install:
	$(IS_BUILT)
	@rm -rf '$(ROOT)/share/landaudit'
	@for file in $(SCRIPTS) $$(cd record && find landaudit_record $(MODULES)); do \
	install -D -m 644 record/$$file '$(ROOT)'/share/landaudit/$$file || exit 1; done
	@install -m 644 $(addprefix docs/,$(SCHEMAS)) $(addprefix packaging/,$(JOBS)) '$(ROOT)/share/landaudit'
	@cd '$(ROOT)' && mkdir -p $(sort $(dir $(INSTALLED)))
	@for script in $(SCRIPTS); do chmod 755 '$(ROOT)'/share/landaudit/$$script && \
	ln -sf ../share/landaudit/$$script '$(ROOT)'/bin/$$script || exit 1; done
	@install -m 755 $(PROGRAM) '$(ROOT)/bin/landaudit'
	@install -m 755 $(RULES) '$(ROOT)/bin/landaudit-rules'
	@install -m 644 man/landaudit.5 '$(ROOT)/share/man/man5'
	@for command in $(COMMANDS); do \
	install -m 644 man/$$command.1 '$(ROOT)/share/man/man1' && \
	install -m 644 completions/$$command.bash '$(ROOT)'/share/bash-completion/completions/$$command && \
	install -m 644 completions/_$$command '$(ROOT)/share/zsh/site-functions' && \
	install -m 644 completions/$$command.fish '$(ROOT)/share/fish/vendor_completions.d' || exit 1; done
	@echo '$(COMMANDS) are in $(ROOT)/bin'

uninstall:
	@rm -f $(foreach file,$(INSTALLED),'$(ROOT)/$(file)')
	@rm -rf '$(ROOT)/share/landaudit'
	@echo '$(COMMANDS) are gone from $(ROOT)'

# A Debian package of what `make install` installs; it says inside what was proved.
deb:
	$(IS_BUILT)
	$(IS_PROVED)
	@packaging/package deb $(MADE_OF)

# The same as a tar for other Linuxes, which is unpacked anywhere.
dist:
	$(IS_BUILT)
	$(IS_PROVED)
	@packaging/package dist $(MADE_OF)

# The witness, the library for strace, a page and completions, into the same places as `make install`.
install-witness:
	@install -D -m 755 -s '$(WITNESS)' '$(ROOT)/bin/landaudit-witness'
	@install -D -m 644 -s '$(QUIET)' '$(ROOT)/lib/landaudit/landaudit-quiet.so'
	@install -D -m 644 man/landaudit-witness.1 '$(ROOT)/share/man/man1/landaudit-witness.1'
	@install -D -m 644 completions/landaudit-witness.bash '$(ROOT)/share/bash-completion/completions/landaudit-witness'
	@install -D -m 644 completions/_landaudit-witness '$(ROOT)/share/zsh/site-functions/_landaudit-witness'
	@install -D -m 644 completions/landaudit-witness.fish \
	'$(ROOT)/share/fish/vendor_completions.d/landaudit-witness.fish'

# A Debian package of the witness alone.
witness-deb:
	@packaging/package witness '$(WITNESS)' '$(PACKAGES)'

# Proves everything and runs every test of the crates. Then, beside one another, tests the recorder and the packaging
# with the built program, and refuses it, and the tests made for this, each of their requests for memory. At last drives
# the program through faults of the system around it. What is tried after the proofs is only told if it fails.
# mimalloc, the allocator of the prover, keeps the memory that is freed, which avoids a third of the page faults.
test: export MIMALLOC_PURGE_DELAY = -1
test:
	RT_JOBS='$(RT_JOBS)' packaging/gate '$(GATE)' rt ci
	@log=$$(mktemp); \
	{ $(MAKE) --no-print-directory --output-sync --jobs 4 $(TRIED) && bench/drive; } > $$log 2>&1; status=$$?; \
	test $$status -eq 0 || { cat $$log >&2; rm -f '$(GATE)'; }; rm -f $$log; exit $$status
	@$(MAKE) --no-print-directory test-witness
	@for library in 'hypothesis random tests' 'jsonschema tests of schemas'; do \
	python3 -c "import $${library%% *}" 2> /dev/null || skipped="$$skipped, $${library#* } (needs $${library%% *})"; done; \
	test -z "$$skipped" || echo "skipped: $${skipped#, }"

# The tests of the recorder, in two parts that take about as long as one another.
test-record: test-record-first test-record-rest

test-record-first:
	$(call UNIT_TESTS,record) -p 'test_[a-p]*.py'

test-record-rest:
	$(call UNIT_TESTS,record) -p 'test_[!a-p]*.py'

test-packaging:
	$(call UNIT_TESTS,packaging)

# Builds the witness if what it needs is there, else says that it does not.
test-witness:
	@missing=$$($(MAKE) --no-print-directory -C witness missing); \
	if test -n "$$missing"; then echo "landaudit-witness is not built: Debian packages are missing: $$missing"; \
	else $(MAKE) --no-print-directory -C witness > /dev/null; fi

refuse-memory:
	bench/refuse-memory $$(ls $(PROGRAM))

refuse-tests:
	bench/refuse-tests

# What needs strace and a kernel with Landlock, and is no part of the gate; says what it skips and why. Then policies by
# brute force, in smaller numbers than they have by themselves.
live:
	$(call UNIT_TESTS,record) -p 'live_*.py' --verbose
	record/tests/brute.py --pairs 40 --checks 40 --policies 20

# Records probes with the witness on Debian's kernels 6.1 and 6.12, in QEMU, within 30 minutes; is no part of the gate,
# and says what it skips and why.
kernels:
	witness/tests/kernels
