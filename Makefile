# Builds, tests and installs kbfeed. Building and testing need the toolchain's command `rt` on the path.
BUILT = crates/kbfeed/out/kbfeed
# The program to install. `make install PROGRAM=FILE` installs FILE as it is, and builds nothing.
PROGRAM = $(BUILT)
PREFIX = /usr/local
DESTDIR =
# Debian's zsh does not look here, but in share/zsh/vendor-completions.
ZSH_FUNCTIONS = share/zsh/site-functions
OUT = out

# The pages of the sources, which tools write and git does not keep.
WRITTEN = $(shell sed -n 's|^/docs/|docs/|p' .gitignore)
SOURCES = crates.txt $(shell find crates -name out -prune -o \( -name '*.rt' -o -name '*.antt' \) -print)
DOC = share/doc/kbfeed
PAGES = README.md CHANGELOG.md LICENSE SECURITY.md $(sort $(WRITTEN) $(wildcard docs/*.md docs/*/*.md docs/*/*.svg \
	docs/*/*.png)) $(wildcard samples/*.script samples/*.transcript samples/lists/* samples/fleet/* samples/vendor/* \
	samples/discovery/*)
# The folders of the pages, each before the one that it is in.
FOLDERS = samples/lists samples/fleet samples/vendor samples/discovery samples docs/using docs/formats docs/proofs \
	docs/developing docs
# The scripts to install as programs, each with its place below PREFIX.
SCRIPTS = samples/fleet/feed:bin/kbfeed-feed samples/fleet/node-restart:bin/kbfeed-node-restart \
	tools/statistics:bin/kbfeed-statistics tools/convert/kbfeed-convert:bin/kbfeed-convert \
	tools/collect/kbfeed-collect:bin/kbfeed-collect
# The modules of kbfeed-convert and kbfeed-collect, which find them beside their own folder.
MODULES = $(wildcard tools/*/kbfeed_*/*.py tools/*/kbfeed_*/*.toml)
# Files with the path of a program, /usr/local, which becomes PREFIX.
UNITS = $(foreach unit,kbfeed-node@.service kbfeed-feed.service kbfeed-feed.timer \
	kbfeed-collect.service kbfeed-collect.timer, \
	samples/fleet/$(unit):lib/systemd/system/$(unit))
# The other files to install.
DATA = man/kbfeed.1:share/man/man1/kbfeed.1 man/kbfeed-feed.1:share/man/man1/kbfeed-feed.1 \
	man/kbfeed-node-restart.1:share/man/man1/kbfeed-node-restart.1 \
	man/kbfeed-statistics.1:share/man/man1/kbfeed-statistics.1 man/kbfeed-convert.1:share/man/man1/kbfeed-convert.1 \
	man/kbfeed-collect.1:share/man/man1/kbfeed-collect.1 \
	samples/fleet/sysusers.conf:lib/sysusers.d/kbfeed.conf samples/fleet/tmpfiles.conf:lib/tmpfiles.d/kbfeed.conf \
	$(foreach name,kbfeed kbfeed-convert kbfeed-collect, \
	completions/$(name).bash:share/bash-completion/completions/$(name) \
	completions/_$(name):$(ZSH_FUNCTIONS)/_$(name) \
	completions/$(name).fish:share/fish/vendor_completions.d/$(name).fish) \
	$(foreach module,$(MODULES),$(module):share/kbfeed/$(patsubst tools/convert/%,%,$(module:tools/collect/%=%))) \
	$(foreach page,$(PAGES),$(page):$(DOC)/$(page))
INTO = $(DESTDIR)$(PREFIX)

.PHONY: help build demo replay test prove mutants sessions docs site pictures pages check fmt lint bench install uninstall deb

help:
	@echo "make replay     replays the scripts of samples/ and compares the transcripts, with the proved program, or with a"
	@echo "                small one without proof if the proved one is missing or older than a source"
	@echo "make demo       shows a node with three libraries in a browser, without proof if the proved program is missing or"
	@echo "                older than a source"
	@echo "make test       compares the pages with the sources, and runs the sessions: with the proved programs that are newer"
	@echo "                than the sources, and else with ones that it compiles without proof; THOROUGH=yes has some"
	@echo "                sessions try more, as in CI"
	@echo "make build      proves the crates side by side, builds the program, and leaves it at $(BUILT);"
	@echo "                DRIVERS=yes also builds the drivers that the sessions run"
	@echo "make prove      proves every crate, builds each program by both compilers, and tries the mutants that the"
	@echo "                specification names; CI runs make prove and then make test"
	@echo "make install    installs the program, its scripts, units, pages, completions and docs below DESTDIR and PREFIX"
	@echo "                ($(PREFIX)); it builds a program that is missing or older than a source, and PROGRAM=FILE"
	@echo "                installs one as it is"
	@echo "make uninstall  removes what make install put there"
	@echo "make deb        makes a Debian package of it, which installs below /usr, in $(OUT); DEBFULLNAME and DEBEMAIL"
	@echo "                name its maintainer"
	@echo
	@echo "For daily work:"
	@echo "make check CRATE=x       proves one crate, and only what changed since the last check; with FN=y one function, or"
	@echo "                         one module, over what was proved of the crates below"
	@echo "make sessions [ONLY=x]   runs the sessions of tests/, or some by name, with the programs of make test"
	@echo "make mutants             tries all mutants: with CRATE=x those of a crate, with SINCE=REV those of the crates that"
	@echo "                         differ from a revision"
	@echo "make docs                writes the pages that are made of the sources, with Python alone"
	@echo "make site                writes the pages and manual pages as a site of files that can be searched, into out/site or"
	@echo "                         SITE=FOLDER; it needs Sphinx with its parser of Markdown, and mandoc"
	@echo "make pictures            takes the pictures of pages anew, with Chromium"
	@echo "make pages               compares the pages with the sources and the sessions"
	@echo "make fmt                 formats the sources of every crate, as the proofs require"
	@echo "make lint                checks widths and module docs, and runs shellcheck and Python linters if installed"
	@echo "make bench [ONLY=x]      measures the program that is built beside its peers, and prints ratios (bench/README.md)"

build:
	@tools/build $(if $(DRIVERS),--drivers)

# If a source was only touched, the toolchain leaves the program as it is, with its old time.
$(BUILT): $(SOURCES)
	@tools/build && touch $@

replay:
	@tools/replay $(REPLAY)

demo:
	@tools/demo $(PORT)

test: pages sessions

prove:
	@tools/prove

mutants:
	@tools/mutants $(if $(SINCE),--since "$(SINCE)") $(CRATE)

check:
	@[ -d "crates/$(CRATE)/src" ] || { echo "make check CRATE=NAME [FN=FUNCTION]: a crate of crates.txt" >&2; exit 2; }
	@tools/check "$(CRATE)" $(FN)

# Sessions come after pages where both are asked for, so that the last line counts the sessions.
sessions: $(if $(filter test,$(MAKECMDGOALS)),pages)
	@tests/run $(if $(THOROUGH),--thorough) $(ONLY)

docs:
	@for it in contracts crate_pages definitions texts; do tools/$$it || exit; done

site: docs
	@tools/site/build $(SITE)

pictures:
	@tools/pictures/take

pages:
	@tools/check_pages

fmt:
	@for crate in crates/*; do (cd "$$crate" && rt fmt) || exit; done

lint:
	@tools/lint

bench:
	@bench/run --program "$(PROGRAM)" $(foreach name,$(ONLY),--only $(name))

install: $(PROGRAM) docs
	@put() { install -d "$${3%/*}" && install -m "$$1" "$$2" "$$3" && echo "$$3"; }; \
	put 755 "$(PROGRAM)" "$(INTO)/bin/kbfeed" || exit; \
	for file in $(SCRIPTS); do put 755 "$${file%%:*}" "$(INTO)/$${file##*:}" || exit; done; \
	for file in $(UNITS); do \
		sed 's|/usr/local/|$(PREFIX)/|' "$${file%%:*}" | put 644 /dev/stdin "$(INTO)/$${file##*:}" || exit; \
	done; \
	for file in $(DATA); do put 644 "$${file%%:*}" "$(INTO)/$${file##*:}" || exit; done

# Removes the files, and then the program's own folders if nothing else is in them.
uninstall:
	@for place in bin/kbfeed $(foreach file,$(SCRIPTS) $(UNITS) $(DATA),$(lastword $(subst :, ,$(file)))); do \
		rm -f "$(INTO)/$$place" || exit; \
	done
	@for folder in $(foreach folder,$(FOLDERS),$(DOC)/$(folder)) $(DOC) \
		share/kbfeed/kbfeed_convert share/kbfeed/kbfeed_collect share/kbfeed; do rmdir "$(INTO)/$$folder" 2> /dev/null; done; true

deb: $(PROGRAM)
	@rm -rf "$(OUT)/deb"
	@$(MAKE) --no-print-directory install DESTDIR="$(OUT)/deb" PREFIX=/usr ZSH_FUNCTIONS=share/zsh/vendor-completions
	@tools/build_deb "$(OUT)/deb" "$(OUT)"
