# Proves, builds and tests: `make help` lists what can be made. All results are in out, and in the folder out of what
# makes them; `make clean` removes them.
#
# rt, the toolchain, proves; what needs no proof needs no rt, and with KIT= among make's words does without it. Tests
# then take the program compiled from portable/board.c and the module in board.html.
SHELL       := bash
.SHELLFLAGS := -eu -o pipefail -c
.ONESHELL:
.DELETE_ON_ERROR:
.SECONDEXPANSION:
.SECONDARY:
.DEFAULT_GOAL := portable

ifneq ($(word 2,$(CURDIR)),)
$(error make can't work in a folder with a space in its name: $(CURDIR))
endif
# With -n or -q no goal does anything, and -t, which would mark as proved what isn't, is refused.
LETTERS := $(firstword -$(MAKEFLAGS))
DRY     := $(findstring n,$(LETTERS))$(findstring q,$(LETTERS))
$(if $(findstring t,$(LETTERS)),$(error make -t would mark as made, and as proved, what isn't))

O    := $(CURDIR)/out
NOW  := $(shell date +@%s.%N)
KIT  := $(patsubst %/bin/rt,%,$(realpath $(shell command -v rt)))
ifneq ($(KIT),)
# out/kit names the toolchain that made the results.
$(if $(DRY),,$(shell cmp -s $(KIT)/KIT-ID $O/kit || rm -f $O/kit))
$O/kit:
	@mkdir -p $O && cp $(KIT)/KIT-ID $@
else
.PHONY: $O/kit
$O/kit:
	@echo "rt, which proves the crates, is not on the PATH: README.md says which toolchain the repository needs" >&2
	exit 1
endif
PROGRAM      := $(if $(KIT),$O/proved,portable/out/board)
MODULE       := $(if $(KIT),portable/wasm,page)/out/board.wasm
export BOARD := $(if $(KIT),$O/board,$(CURDIR)/portable/out/board)

# As many processes as there are processors, and 3 GB of memory for each.
JOBS := $(or $(shell awk -v most=$$(nproc) '/^MemTotal/ {n = int($$2 / 3e6); print n < 1 ? 1 : n < most ? n : most}' \
                 /proc/meminfo 2>/dev/null),1)
ifeq ($(MAKELEVEL)$(findstring -j,$(MAKEFLAGS)),0)
MAKEFLAGS += -j$(JOBS)
endif
MAKEFLAGS += --no-print-directory

# uses_NAME := the crates that a crate depends on
comma  := ,
space  := $() $()
rows   := $(shell sed -nE 's/^([a-z][a-z0-9_]*)[^:]*: *(.*)$$/uses_\1:=\2/p' crates.txt | tr ' ' ,)
$(foreach it,$(rows),$(eval $(subst $(comma),$(space),$(it))))
CRATES := $(patsubst uses_%,%,$(filter uses_%,$(.VARIABLES)))
STATIC := $(shell sed -nE 's/^([a-z0-9_]+) .*\bstaticlib\b.*/\1/p' crates.txt)
EDITED := $(patsubst crates/%/must-fail,%,$(wildcard crates/*/must-fail))
# A crate with all crates below it, and what they are made of.
whole   = $(sort $1 $(foreach it,$(filter $(CRATES),$(uses_$1)),$(call whole,$(it))))
folders = src specs proofs args stdin stdout
sources = $O/kit crates.txt HANDLES \
          $(shell find /dev/null $(wildcard $(foreach it,$1,$(addprefix crates/$(it)/,$(folders)))))

.PHONY: board portable prove check gate deep module one-file page release install uninstall from-text clean help
board: $O/board  ## the program, out/board, proved with the crates that it uses: which ./board then takes
	@touch -d $(NOW) $<
$O/board: $$(call sources,$$(call whole,board))
	@tools/prove $(call whole,board)
portable: portable/out/board  ## the program from portable/board.c, portable/out/board: needs no rt, proves nothing
CFLAGS ?= -O2 -fstack-protector-strong
portable/out/board: portable/board.c portable/board.h
	@mkdir -p $(@D)
	$(CC) $(CPPFLAGS) $(CFLAGS) $(LDFLAGS) -DBOARD_MAIN $< -o $@.$$$$ && mv $@.$$$$ $@
$O/proved: $$(call sources,$(CRATES)) tools/prove
	@touch $@.begun
	tools/prove $(CRATES) | tee $@.new
	touch -r $@.begun $@.new && mv $@.new $@

# What the prover is given for a crate: what is built of the crates below it, in out or another folder.
extern  = --extern $1=$(if $(filter $1,$(CRATES)),$O$2,$(KIT)/rlibs)/$1.rlib
over    = --crate-name $1 src/$(if $(wildcard crates/$1/src/main.rt),main,lib).rt \
          $(foreach it,std $(uses_$1),$(call extern,$(it),$2)) -L dependency=$O$2 -L dependency=$(KIT)/rlibs \
          --links $1= $(if $(filter $1,$(STATIC)),--crate-type staticlib) \
          --antt-project $(KIT)/rattle/logic/antt-project.json
checked := --logic-built $(KIT)/logic_built --jobs 1
# The prover's run in a crate's folder, whose output is shown if it fails.
rattle  = (cd crates/$1 && $(KIT)/bin/rattle $2 >$O/$(@F).log 2>&1 || { cat $O/$(@F).log >&2; exit 1; })

# rt keeps no checked static library, no tests, and no LLVM module. So the static library, and the program and the
# tests that tools/steps looks at, are proved once more, for their modules, NAME.bc. A toolchain like the kit's, whose
# clang keeps the module, builds them; the prover starts it without an environment, so the script has the file's name.
define toolchain
mkdir -p $O/$1.toolchain/bin && ln -sfn $(KIT)/toolchain/lib $O/$1.toolchain/lib
ln -sf $(KIT)/toolchain/bin/{ld.lld,llvm-ar,rattle-x64} $O/$1.toolchain/bin
printf '#!/bin/sh -eu\ncp module.bc "%s"\nexec "%s" "$$@"\n' $O/$1.bc.new $(KIT)/toolchain/bin/clang \
  >$O/$1.toolchain/bin/clang
chmod +x $O/$1.toolchain/bin/clang
endef
modules := $(STATIC:%=$O/%.bc)
stepped := $(modules) $O/board.bc $O/memory_tests.bc
from     = $(if $(filter %_tests,$1),$(checked) --test,--crate-checked $O/$1.checked)
to       = --toolchain $O/$1.toolchain --backend llvm -o $O/$(if $(filter $1,$(STATIC)),lib$1.a,$1.o)
$(stepped): $O/%.bc: $$(call sources,$$(call whole,$$*)) | $O/proved
	@$(call toolchain,$*)
	$(if $(filter %_tests,$*),,$(call rattle,$*,check $(call over,$*) $(checked) -o $O/$*.checked))
	$(call rattle,$*,build $(call over,$*) $(call from,$*) $(call to,$*))
	mv $@.new $@

# Mutations of a crate, over the kept work of one more proof of it.
$O/%.seed: $$(call sources,$$(call whole,$$*)) | $O/proved
	@rm -rf $O/$*.kept
	$(call rattle,$*,check $(call over,$*) $(checked) --incremental $O/$*.kept)
	touch $@
tries = crates/$1 $2 $(KIT)/bin/rattle check $(call over,$1) --logic-built $(KIT)/logic_built
$O/%.edits: $O/%.seed $$(wildcard crates/$$*/must-fail/*.edit) tools/edits.py
	@tools/edits.py $(call tries,$*,$O/$*.kept) && touch $@

# Each crate with every module that it reads, from its text. These checks trust no check but their own, which they keep
# in out/deep/cache, so that a module that many crates read is checked once.
below = $(patsubst %,$O/deep/%.proved,$(filter $(CRATES),$(uses_$1)))
built = $(if $(wildcard crates/$1/src/main.rt)$(filter $1,$(STATIC))$(filter %_tests,$1),check,build -o $O/deep/$1.rlib)
$(CRATES:%=$O/deep/%.proved): $O/deep/%.proved: $$(call sources,$$*) $$(call below,$$*)
	@mkdir -p $O/deep && cd crates/$*
	$(KIT)/bin/rattle $(call built,$*) $(call over,$*,/deep) \
	  $(if $(filter %_tests,$*),--test) --cache $O/deep/cache --jobs $(JOBS) 2>&1 \
	  | tee $O/deep/$*.log | sed -n '$$s/^/$*: /p'
	touch $@

# The WebAssembly module, the C file, the page.
module: $(MODULE)  ## the WebAssembly module, portable/wasm/out/board.wasm
page/out/board.wasm: board.html page/module
	@page/module
portable/wasm/out/board.wasm: $(modules) tools/retarget portable/wasm/build portable/wasm/heap.c
	@portable/wasm/build
one-file: portable/out/board.c  ## the C file made again, portable/out/board.c
portable/out/board.c: $(modules) tools/retarget crates/board_c/board.h crates/board_c/texts.c portable/build
portable/out/board.c: $(wildcard portable/src/*.c)
	@portable/build
page: $(MODULE)  ## the page, page/out/board.html
	@MODULE=$(CURDIR)/$< page/build
release: $O/proved module page $(modules)  ## a release of what the packages' parts have made, too: two archives in out
	@tools/release/build
# Of what rt has proved, or, with KIT=, of the C file.
PREFIX ?= /usr/local
LIBDIR ?= $(PREFIX)/lib
install: $(if $(KIT),board $(modules),$(PROGRAM))  ## program, manual and library: DESTDIR, PREFIX, LIBDIR, KIT=
	@DESTDIR="$(DESTDIR)" CC="$(CC)" CPPFLAGS="$(CPPFLAGS)" CFLAGS="$(CFLAGS)" LDFLAGS="$(LDFLAGS)" \
	  tools/release/install "$(PREFIX)" "$(LIBDIR)" $(if $(KIT),,portable/board.c)
uninstall:  ## removes what `make install` put there
	@DESTDIR="$(DESTDIR)" tools/release/install --remove "$(PREFIX)" "$(LIBDIR)"

# The parts of the tests. Each prints a line for each test; tools/part counts them, prints 'N passed, M failed', and
# keeps the output in out/results.
part = @tools/part $@ $1
docs:  ## names, links and made parts of the documents
	$(call part,tools/check)
style:  ## how files are written: shellcheck, black, mypy, tsc, clang-format, rustfmt, columns
	$(call part,tools/style)
lint:  ## what no clause can say of the sources
	$(call part,tools/lint)
tools:  ## make, the tools, and what anybody can do without rt
	$(call part,tests/run tests/tools)
prove: $O/proved  ## proofs of all crates by rt ci, and their tests
	$(call part,tail -n 2 $<)
steps: $(stepped)  ## the atomic steps, memory and writes of the compiled code
	$(call part,tools/steps tools/steps.txt $^)
steps-tests: $O/memory_tests.bc $O/board.bc  ## changes planted in the compiled code, which steps must refuse
	$(call part,tests/run tests/steps)
every   = $(if $(DEEP),$(EDITED))
changed = $(or $(every),$(if $(KIT),$(shell tools/edits.py --untried)))
edits:  ## the mutations of the crates that have changed since theirs were tried, or of ONLY=CRATE; writes the records
	@$(MAKE) --keep-going $(or $(patsubst %,$O/%.edits,$(or $(ONLY),$(changed))),tried)
tried: $$(patsubst %,$$O/%.edits,$$(changed))  ## the mutations: by their records, and tried where a crate has changed
	$(call part,tools/edits.py --tried)
# One list of mutations of one crate, drawn by the commit, tried over no kept work.
COMMIT := $(shell git rev-parse --short=7 HEAD 2>/dev/null || echo 0)
DRAWN  := $(if $(EDITED),$(word $(shell echo $$((1 + 0x$(COMMIT) % $(words $(EDITED))))),$(EDITED)))
drawn: $O/proved  ## one list of mutations of one crate, drawn by the commit
	$(call part,tools/edits.py --draw $(COMMIT) $(call tries,$(DRAWN),none))
cases: $(PROGRAM)  ## worked examples, and the examples of the documents, on the program
	$(call part,$(if $(KIT),tests/run tests/cases,tests/cases/run --c $(BOARD)))
promises: $(PROGRAM) $(if $(KIT),$(modules))  ## what stays as it is until the version says otherwise
	$(call part,tests/run tests/promises)
independent: $(PROGRAM)  ## the program against a Python reader written from the documents alone
	$(call part,tests/run tests/independent $(if $(KIT),,--inputs 600 --c))
# The library for C once more, as one over which another crate can be checked.
$O/board_c.rlib: $$(call sources,$$(call whole,board_c)) | $O/proved
	@$(call rattle,board_c,build $(filter-out --crate-type staticlib,$(call over,board_c)) $(checked) -o $@)
definitions: $O/proved $(if $(DEEP),$O/board_c.rlib)  ## definitions, computed by the prover, against the reader
	$(call part,tests/run tests/definitions)
second: $(PROGRAM)  ## the definitions and their laws in Coq, and the program against what they compute
	$(call part,tests/run tests/second -n 2)
memory: $O/proved $(modules)  ## each allocation refused in turn
	$(call part,tests/run tests/memory)
stress: $O/proved  ## rounds of the running board and of serve in real threads
	$(call part,tests/run tests/stress)
register: $(modules) $O/proved  ## the register's calls from C, against the program and a model
	$(call part,tests/run tests/register -n 2)
script: $(modules) $O/proved  ## scripts read as data from C, against the program and the independent reader
	$(call part,tests/run tests/script)
recipes: $(PROGRAM)  ## the recipes of the documents
	$(call part,tests/run tests/recipes -n 2)
targets: $O/proved $(modules) module  ## the library and the WebAssembly module against the program
	$(call part,tests/run tests/targets -n $(JOBS))
compilers: $(PROGRAM) $(if $(KIT),one-file)  ## the C file by each compiler and on each system, against the program
	$(call part,tests/run tests/portable -n $(JOBS) $(if $(KIT),,-k 'not test_another_folder and not test_is_made'))
# What the program answers to boards, scripts and commands, with which each package is compared.
answers := $O/answers$(if $(DEEP),-deep)/register.txt
$(answers): $(PROGRAM) $(wildcard tests/packages/* tests/shared/*.py tests/cases/*)
	@mkdir -p $(@D) && python3 -m tests.packages.answers $(BOARD) $(@D)
python: $(answers)  ## the package for Python: built, installed in fresh environments, and tested there
r: $(answers)  ## the package for R
rust: $(answers)  ## the crates for Rust
javascript: $(answers) $(MODULE)  ## the package for JavaScript
python r rust javascript:
	$(call part,env -u MAKEFLAGS -u MFLAGS MODULE=$(CURDIR)/$(MODULE) BOARD_ANSWERS=$(dir $(answers)) bindings/$@/check)
tables:  ## the page's reader of tables over a corpus of cases, in Node
	$(call part,page/tables/run)
page-units: page  ## the page's modules, in Node
	$(call part,env MODULE=$(CURDIR)/$(MODULE) page/units/run)
page-tests: $(PROGRAM) page  ## board.html in Chromium and Firefox
	$(call part,page/tests/run -n 2 --dist=loadfile)
programs: page  ## tables that other programs saved, in the page's reader, and its exports in other programs
	$(call part,tests/run tests/programs)
release-tests: release $(answers)  ## a release, unpacked and run without the toolchain
	$(call part,env BOARD_ANSWERS=$(dir $(answers)) tests/run tests/release -n $(JOBS))
from-text: $(CRATES:%=$O/deep/%.proved)  ## all proofs, the toolchain's too, from their text
	$(call part,printf '%s\n' $(CRATES:%='% is proved from its text') '$(words $(CRATES)) passed$(comma) 0 failed')

# The parts that come first, those that need no proof, those that do, which run beside them, and those of the deep gate
# alone.
FIRST    := docs lint style tools
UNPROVED := page-tests r python rust javascript recipes tables page-units
PROVED   := prove tried drawn definitions stress memory cases promises independent register script steps steps-tests
PROVED   += targets compilers
DEEPER   := release-tests second programs
CHECKS   := docs lint tables page-units cases promises independent
.PHONY: $(FIRST) $(UNPROVED) $(PROVED) $(DEEPER) edits unproved proved
unproved:
	+@$(MAKE) --keep-going $(UNPROVED) KIT=
proved:
	+@$(MAKE) --keep-going $(PROVED)
# After a command, makes groups of parts, one after the other as long as none fails, and adds up what tools/part has
# kept of each. With -n it shows what each group would run.
define parts
+@$(if $(DRY),,$1 && rm -rf $O/results)
for group in $2; do $(MAKE) --keep-going --output-sync=target $$group $3 || $(if $(DRY),exit,break); done
$(if $(DRY),,$(if $3,NOTE="$(NOTE)") tools/part --sum $(subst ",,$4))
endef
NOTE = Nothing was proved here: make prove proves $(words $(CRATES)) crates (a processor hour or more; it needs rt)
check:  ## what can be tested in two minutes, without rt and without a proof
	$(call parts,tools/install check $(CHECKS),"$(CHECKS)",KIT=,$(CHECKS))
gate:  ## all that must pass before a change is merged
	$(call parts,:,"$(FIRST)" "unproved proved",,$(FIRST) $(UNPROVED) $(PROVED))
deep: export DEEP := 1
deep:  ## all tests in full, before a release: some hours
	$(call parts,:,"$(FIRST)" "unproved proved" "$(DEEPER)",,$(FIRST) $(UNPROVED) $(PROVED) $(DEEPER))
clean:  ## removes all results
	@rm -rf $O {portable/wasm,page,portable}/out
help:  ## this list
	@sed -nE 's/^([a-z-]+):.*  ## (.*)/make \1\t\2/p' Makefile | expand -t 20
