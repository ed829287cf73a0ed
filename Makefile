# make            puts the program there, as bin/tlplan: the kept one, where it was made of the sources as they stand and runs on
#                 this machine, which takes seconds and no toolchain. Otherwise a line says why not, and it is proved and built
# make test       runs the examples, the rows of whole runs and the other tests with bin/tlplan, in two minutes and with no toolchain
# make prove      proves and builds bin/tlplan with the Rattle toolchain, with all processors and a line for each crate, and
#                 compares it byte for byte with the kept one where that is of the same sources
# make keep       keeps the proved program of the sources as they stand, in program/; where it is not there, it is proved first
# make gate       the gate: every proof, every test, every must-fail edit, every stored run; its program is bin/tlplan then
# make page       makes playground/tlplan.html anew: proves the program, and compiles it for WebAssembly
# make install    puts the program, its tools, its manual page and its documents below PREFIX (/usr/local)
# make clean      removes what was built

PREFIX = /usr/local

# What is installed beside the program: its tools with their modules, manual pages, documents, and the examples.
TOOLS = where why-not rules states stats lint trace-to-dot from-pddl to-val
MODULES = tlplan_tools pddl
MANUALS = tlplan.1
DOCUMENTS = docs/*
EXAMPLES = examples/*/*.domain examples/*/*.problem examples/*/*.plan examples/*/*.proof examples/*/*.costs

BIN = $(DESTDIR)$(PREFIX)/bin
SHARE = $(DESTDIR)$(PREFIX)/share
MAN = $(SHARE)/man/man1
DOC = $(SHARE)/doc/tlplan

.PHONY: all test prove keep gate page install clean always

all: bin/tlplan

# Whether it is up to date is seen by the sum of the sources, and by no time of a file.
bin/tlplan: always
	@build/up-to-date || build/take || build/prove

test: bin/tlplan
	tests/run bin/tlplan

prove:
	@build/prove

keep:
	@build/up-to-date || build/prove
	@build/keep

gate:
	@build/gate

page:
	playground/make

install: bin/tlplan
	install -d $(BIN) $(MAN) $(DOC)/docs $(DOC)/examples $(MODULES:%=$(SHARE)/tlplan/tools/%)
	install -m 755 bin/tlplan $(BIN)
	install -m 644 $(MANUALS) $(MAN)
	install -m 644 $(DOCUMENTS) $(DOC)/docs
	install -m 644 examples/README.md $(DOC)/examples
	install -m 755 $(TOOLS:%=tools/%) $(SHARE)/tlplan/tools
	for module in $(MODULES); do install -m 644 tools/$$module/*.py $(SHARE)/tlplan/tools/$$module || exit; done
	for tool in $(TOOLS); do ln -sf ../share/tlplan/tools/$$tool $(BIN)/tlplan-$$tool || exit; done
	for file in editors/vim/*/tlplan.vim; do install -D -m 644 $$file $(SHARE)/vim/vimfiles/$${file#editors/vim/} || exit; done
	install -D -m 644 editors/emacs/tlplan-mode.el $(SHARE)/emacs/site-lisp/tlplan-mode.el
	for file in $(EXAMPLES); do install -D -m 644 $$file $(DOC)/$$file || exit; done
	install -D -m 755 examples/order/balls $(DOC)/examples/order/balls

clean:
	rm -rf bin crates/*/out
