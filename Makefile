.PHONY: test run release install deb try program core live host rows claims gate wrong-bodies bench allocations hostile

# A program is built, which proves it, where it is not there yet or is older than a file that it is made of: `make test` leaves all of them.
SOURCES := $(wildcard crates/*/src/*.rt crates/*/specs/*.antt) $(shell find crates/*/proofs -name '*.antt')
PROGRAM := crates/pull_program/out/pull_program
CORE := crates/roksnaep_core/out/roksnaep_core
TIMED := crates/timed_calls/out/timed_calls
PUSHES := crates/live_pushes/out/live_pushes
PREFIX ?= /usr/local
VERSION = $(shell sed -n 's/^VERSION = "\(.*\)"/\1/p' host/release.py)

# Proves every crate, tries the wrong bodies that must be refused, runs the tests, the stored runs and the recorded cases, and compares
# the programs with the release.
test:
	rt ci
	tests/rows/run
	tests/claims
	tests/release check

# Pulls the image of the sample case, and prints the report: by the program that was built here, else by the released one.
run: $(wildcard $(PROGRAM))
	@tests/release run pull_program pull < crates/pull_program/stdin

# Writes dist/: the programs that passed, with the checksums of what they are made of.
release: test
	tests/release write

# Installs the command with the core that was built here, else with the released one: make install PREFIX=/usr/local. Completion needs python3-shtab.
install: LIBRARY = $(DESTDIR)$(PREFIX)/lib/roksnaep
install: SHARE = $(DESTDIR)$(PREFIX)/share
install:
	install -d $(LIBRARY)/bin $(LIBRARY)/host $(DESTDIR)$(PREFIX)/bin $(SHARE)/man/man1 $(SHARE)/doc/roksnaep $(SHARE)/bash-completion/completions $(SHARE)/zsh/vendor-completions
	install -m 644 host/*.py host/*.toml $(LIBRARY)/host
	/usr/bin/python3 -m compileall -q -s "$(DESTDIR)" -p / $(LIBRARY)/host
	install -m 755 bin/roksnaep $(LIBRARY)/bin
	for name in roksnaep-core pull_program; do install -m 755 "$$(tests/release path $$name)" $(LIBRARY)/bin/$$name || exit 1; done
	ln -sfn ../lib/roksnaep/bin/roksnaep $(DESTDIR)$(PREFIX)/bin/roksnaep
	tests/manual | gzip -9n > $(SHARE)/man/man1/roksnaep.1.gz
	install -m 644 LICENSE host/README.md docs/HOST.md docs/POLICY.md docs/ADMISSION.md docs/SECURITY.md $(SHARE)/doc/roksnaep
	bin/roksnaep --print-completion bash > $(SHARE)/bash-completion/completions/roksnaep || rm $(SHARE)/bash-completion/completions/roksnaep
	bin/roksnaep --print-completion zsh > $(SHARE)/zsh/vendor-completions/_roksnaep || rm $(SHARE)/zsh/vendor-completions/_roksnaep

# Writes a Debian package: out/roksnaep_VERSION_amd64.deb
deb: DEB = out/deb
deb:
	rm -rf $(DEB)
	$(MAKE) install DESTDIR=$(DEB) PREFIX=/usr
	install -d $(DEB)/DEBIAN
	printf '%s\n' "Package: roksnaep" "Version: $(VERSION)" "Architecture: amd64" "Section: utils" "Priority: optional" \
	  "Maintainer: Roksnaep <roksnaep@localhost>" "Installed-Size: $$(du -sk $(DEB) | cut -f1)" \
	  "Depends: libc6 (>= 2.34), python3 (>= 3.11), python3-pycurl, python3-cryptography, python3-yaml" \
	  "Recommends: python3-aiohttp, skopeo" \
	  "Description: pulls a container image only if it has a signature that you trust" \
	  " A command around a proved core: it verifies cosign's signatures, by keys or by" \
	  " identities, before it writes an image as an OCI image layout or an archive." > $(DEB)/DEBIAN/control
	dpkg-deb --root-owner-group --build $(DEB) out/roksnaep_$(VERSION)_amd64.deb

# The same without any proof: a first look.
try:
	cd crates/pull_program && rt try -- pull < stdin

# Builds the program, which has to answer the image of the stored case.
program: $(PROGRAM)

$(PROGRAM): $(SOURCES)
	cd crates/pull_program && rt run -- pull < stdin > /dev/null

# Builds roksnaep-core, which bin/roksnaep asks.
core: $(CORE)

$(CORE): $(SOURCES)
	cd crates/roksnaep_core && rt run < stdin > /dev/null

$(TIMED): $(SOURCES)
	cd crates/timed_calls && xargs rt run -- < args > /dev/null

$(PUSHES): $(SOURCES)
	cd crates/live_pushes && rt run < stdin > /dev/null

# Pulls from a real registry on this machine and pushes to it, and sees what is refused: it needs docker-registry, openssl and skopeo; umoci, buildah and cosign are
# tried if they are installed.
live: $(wildcard $(CORE) $(PUSHES)) host
	tests/live --bench

# Tests the host alone, over a core that believes everything.
host:
	for file in tests/host/test_*.py; do $$file || exit 1; done

# Runs it over the recorded cases.
rows: program
	tests/rows/run

# Sees that each clause that the READMEs name stands on the call that they name it for.
claims:
	tests/claims

# What the gate costs from nothing: processor minutes of proofs, tests and edits, and the longest chain of crates.
gate:
	tests/cost

# Tries the wrong bodies that stand outside the gate: make wrong-bodies CRATES="oci_names oci_link".
wrong-bodies:
	tests/wrong-bodies $(CRATES)

# Measures ratios within one run, each beside its goal: it fails if a goal is missed by more than a tenth. One page, or make bench BENCH="canon run".
bench: program $(TIMED)
	python3 bench/page.py $(BENCH)

# Makes each allocation of the stored run fail in turn.
allocations: program
	tests/allocations

# Runs both programs over registries and hosts that answer badly, and decides each chain a second time from the recorded bytes.
hostile: program core
	python3 tests/chains.py
	tests/hostile
	tests/frames
