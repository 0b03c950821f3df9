# make          proves and builds the programs kp, kpview, kpcore and kprun where a source is newer: some 30 minutes on four processors from nothing
# make kp       the first alone, crates/kp/out/kp; make kpview, make kpcore and make kprun the others, as crates/kpview/out/kpview
# make check    the gate: all proofs, the edits that proofs must reject, and all stored runs, as .ci/run does
# make checks   the checks beside the gate: commands of the manual, other tools on the Verilog, refused memory, two builds of the programs ..; a line for each
# make bench    the measurements of time and memory in benches/, in a table; OLD=PROGRAM names the program kp of another version, to compare with
# make pictures draws the pictures of docs/pictures/ anew
# make install  installs the built programs, the scripts of tools/, manual pages, completions, editor files, documents and examples: PREFIX=/usr/local DESTDIR=
# make uninstall  removes what make install put there, with the same PREFIX and DESTDIR
# make dist     packs what would be installed: out/dist/kp-VERSION-linux-x86_64.tar.gz, and its sum in out/dist/SHA256SUMS
# make deb      packs the same for Debian and its kin: out/deb/kp_VERSION_amd64.deb
# make clean    removes what was built and proved here
# make help     prints these lines

programs = kp kpview kpcore kprun
scripts  = yosys2kp kpasm kpvary kpcut
lock     = out/build.lock

# The scripts of checks/ that pass or fail.
all_checks = names.py rules.py edits_apply.py reach.py inner.py proved.py isa.py riscv.sh version.sh manual.py editors.sh pictures.sh page.sh memory.sh verilog.sh waves.sh hardware.sh front.sh labs.sh \
             explain.py kpasm.py kpcut.py kprun.py yosys2kp.py byhand.py formal.py torture.sh dist.sh deb.sh build.sh edits.sh

.PHONY: all $(programs) $(programs:%=built-%) check checks bench pictures install uninstall dist deb clean help

all: $(programs)

# Where another make or ./kp builds here, this one waits for it, and then looks again at what is out of date.
$(programs):
	@mkdir -p out
	@flock -n -o -E 75 $(lock) $(MAKE) -s --no-print-directory built-$@ || { \
	    [ $$? -eq 75 ] && echo '$@: another build is running here, and this one waits for it' >&2 && \
	    flock -o $(lock) $(MAKE) -s --no-print-directory built-$@; }

# Only `make built-PROGRAM` looks at what the program and the crates below it are made from.
top := $(patsubst built-%,%,$(filter built-%,$(MAKECMDGOALS)))
ifneq ($(top),)
crates  := $(shell awk -v top=$(top) -f .ci/crates.awk crates.txt)
sources := $(shell find $(crates:%=crates/%) -name out -prune -o -name must-fail -prune -o -type f -print) crates.txt

built-$(top): crates/$(top)/out/$(top)

crates/$(top)/out/$(top): $(sources)
	@.ci/build $(top)
endif

check:
	@.ci/run

# KP, KPVIEW, KPCORE and KPRUN name other programs than those that are built here.
checks: $(if $(KP),,kp) $(if $(KPVIEW),,kpview) $(if $(KPCORE),,kpcore) $(if $(KPRUN),,kprun)
	@checks/each $(all_checks)

bench: $(if $(KP),,kp)
	@python3 benches/table.py

# KPVIEW names another program than the one that is built here.
pictures: $(if $(KPVIEW),,kpview)
	@bash checks/pictures.sh write

# PREFIX is an absolute path. DESTDIR is a folder in which it is installed as if it were the root, for packages. KP_BINARY, KPVIEW_BINARY,
# KPCORE_BINARY and KPRUN_BINARY name other files than the programs that are built here.
PREFIX        = /usr/local
DESTDIR       =
KP_BINARY     = crates/kp/out/kp
KPVIEW_BINARY = crates/kpview/out/kpview
KPCORE_BINARY = crates/kpcore/out/kpcore
KPRUN_BINARY = crates/kprun/out/kprun

version = $(shell cat VERSION)
root    = $(DESTDIR)$(PREFIX)
# The folders that others use too, and those of kp alone
shared  = bin libexec share/man/man1 share/man/man5 share/bash-completion/completions share/zsh/site-functions share/fish/vendor_completions.d \
          $(addprefix share/vim/vimfiles/,$(sort $(dir $(vim))))
own     = libexec/kp share/doc/kp share/kp
vim     = $(patsubst editors/vim/%,%,$(wildcard editors/vim/*/*.vim))
vscode  = $(notdir $(wildcard editors/vscode/*))
files   = share/man/man5/kp.5 $(foreach it,$(programs),bin/$(it) share/man/man1/$(it).1 share/bash-completion/completions/$(it) \
          share/zsh/site-functions/_$(it) share/fish/vendor_completions.d/$(it).fish) $(addprefix bin/,$(scripts)) $(addprefix share/vim/vimfiles/,$(vim))
absolute = $(if $(filter /%,$(PREFIX)),,$(error PREFIX has to be an absolute path, and is `$(PREFIX)`))
needs = $(absolute)$(foreach it,$(KP_BINARY) $(KPVIEW_BINARY) $(KPCORE_BINARY) $(KPRUN_BINARY),$(if $(wildcard $(it)),,$(error $(it) isn't there: run make first, which builds it)))
trees   = find docs examples tools \( -name out -o -name __pycache__ \) -prune -o -type f -print

# bin/kp is the script kp of this folder, which runs the program libexec/kp/kp. share/kp has links to the programs, so that the commands of the documents run
# there as they are printed, and bin/ links to the scripts of share/kp/tools.
install:
	$(needs)
	@umask 022 && \
	install -d $(patsubst %,"$(root)/%",$(shared) $(own)) && \
	install -m 755 kp "$(root)/bin/kp" && \
	install -m 755 "$(KP_BINARY)" "$(root)/libexec/kp/kp" && \
	install -m 755 "$(KPVIEW_BINARY)" "$(root)/bin/kpview" && \
	install -m 755 "$(KPCORE_BINARY)" "$(root)/bin/kpcore" && \
	install -m 755 "$(KPRUN_BINARY)" "$(root)/bin/kprun" && \
	for it in kp.1 kp.5 kpview.1 kpcore.1 kprun.1; do \
	    page="$(root)/share/man/man$${it##*.}/$$it" && \
	    sed -e 's|@VERSION@|$(version)|g' -e 's|@PREFIX@|$(PREFIX)|g' man/$$it > "$$page" && chmod 644 "$$page" || exit 1; \
	done && \
	for it in $(programs); do \
	    install -m 644 completions/$$it.bash "$(root)/share/bash-completion/completions/$$it" && \
	    install -m 644 completions/_$$it "$(root)/share/zsh/site-functions/_$$it" && \
	    install -m 644 completions/$$it.fish "$(root)/share/fish/vendor_completions.d/$$it.fish" || exit 1; \
	done && \
	for it in $(vim); do install -m 644 editors/vim/$$it "$(root)/share/vim/vimfiles/$$it" || exit 1; done && \
	install -m 644 README.md CHANGELOG.md CONTRIBUTING.md VERSION $(wildcard LICENSE*) "$(root)/share/doc/kp" && \
	install -m 644 VERSION "$(root)/share/kp/VERSION" && \
	install -d "$(root)/share/kp/vscode" && \
	for it in $(vscode); do install -m 644 editors/vscode/$$it "$(root)/share/kp/vscode/$$it" || exit 1; done && \
	$(trees) | while read -r it; do \
	    case $$it in docs/*) to="$(root)/share/doc/kp/$$it" ;; *) to="$(root)/share/kp/$$it" ;; esac && \
	    mode=644 && { [ ! -x "$$it" ] || mode=755; } && \
	    install -d "$${to%/*}" && install -m $$mode "$$it" "$$to" || exit 1; \
	done && \
	ln -sf ../../bin/kp "$(root)/share/kp/kp" && \
	ln -sf ../../bin/kpview "$(root)/share/kp/kpview" && \
	ln -sf ../../bin/kpcore "$(root)/share/kp/kpcore" && \
	ln -sf ../../bin/kprun "$(root)/share/kp/kprun" && \
	for it in $(scripts); do ln -sf ../share/kp/tools/$$it "$(root)/bin/$$it" || exit 1; done

# Folders that others use too are removed below DESTDIR alone, where they are empty.
uninstall:
	$(absolute)
	@rm -f $(patsubst %,"$(root)/%",$(files))
	@rm -rf $(patsubst %,"$(root)/%",$(own))
	@[ ! -d "$(DESTDIR)" ] || { cd "$(DESTDIR)" && for it in $(shared) share/doc; do \
	    rmdir -p "$(PREFIX:/%=%)/$$it" 2>/dev/null || :; \
	done; }

# Two calls write the same bytes: names are sorted, and owners, modes and times are fixed.
SOURCE_DATE_EPOCH ?= 1767225600
packed = kp-$(version)-linux-x86_64
made   = $(MAKE) -s --no-print-directory install KP_BINARY="$(KP_BINARY)" KPVIEW_BINARY="$(KPVIEW_BINARY)" KPCORE_BINARY="$(KPCORE_BINARY)" KPRUN_BINARY="$(KPRUN_BINARY)"
dist:
	$(needs)
	@rm -rf out/dist && mkdir -p out/dist/root
	@$(made) PREFIX="$(PREFIX)" DESTDIR="$(CURDIR)/out/dist/root"
	@cd out/dist && mv "root$(PREFIX)" $(packed) && rm -rf root && \
	tar --format=ustar --sort=name --owner=0 --group=0 --numeric-owner --mode=u=rwX,go=rX --mtime=@$(SOURCE_DATE_EPOCH) \
	    -cf $(packed).tar $(packed) && \
	gzip -9n $(packed).tar && rm -rf $(packed) && sha256sum $(packed).tar.gz > SHA256SUMS && cat SHA256SUMS

# DEBFULLNAME and DEBEMAIL are the name and the address of who makes the package, as for other tools of Debian.
DEBFULLNAME ?= kp
DEBEMAIL    ?= $(shell id -un)@$(shell hostname)
deb:
	$(needs)
	@rm -rf out/deb && mkdir -p out/deb/root
	@$(made) PREFIX=/usr DESTDIR="$(CURDIR)/out/deb/root"
	@SOURCE_DATE_EPOCH=$(SOURCE_DATE_EPOCH) .ci/deb out/deb "$(version)" "$(DEBFULLNAME) <$(DEBEMAIL)>"

clean:
	rm -rf out crates/*/out

help:
	@sed -n 's/^# \(make\)/\1/p' Makefile
