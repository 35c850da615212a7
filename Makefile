# Shows, measures and tests `wlb`. `make` alone lists the targets.
.PHONY: help demo try quick test changed build demo-processes lib install wasm js-test conformance verify mutants refuse bench soak fuzz \
	packages dist

WLB = crates/wlb/out/wlb
BENCH = crates/bench_core/out/bench_core
HUB = crates/wlb_hub/out/libwlb_hub.a
CLIENT = crates/wlb_client/out/libwlb_client.a

# Ends a target if there is no command $(1). The text $(2) says where to get it.
need = @command -v $(1) > /dev/null || { echo "make $@: there is no command $(1): $(2)" >&2; exit 1; }
need_rt = $(call need,rt,install the Rattle kit)
proving = @echo "Building $@. This proves each crate below it that has no proof in this checkout yet: processor-hours for all of them. \`make quick\` compiles without proofs."
need_node = $(call need,node,install Node of version 20 or later)

help: ## lists the targets
	@sed -n 's/^\([a-z-]*\):.* ## \(.*\)/make \1\t\2/p' $(firstword $(MAKEFILE_LIST)) | expand -t 22

# Example that `make demo` plays.
EXAMPLE ?= examples/lock_moves_on.sim

demo: ## plays EXAMPLE, a script or frames: with the built program if it is up to date, or else compiled in minutes, with nothing proved
	@python3 tools/demo.py $(EXAMPLE) $$(make -sq $(WLB) && echo $(WLB))

try: ## plays EXAMPLE, always compiled with nothing proved
	@python3 tools/demo.py $(EXAMPLE)

UNPROVED_BUILD = build/unproved

quick: ## compiles the C libraries and the WebAssembly modules in minutes, with nothing proved, in build/unproved
	@python3 tools/unproved.py $(UNPROVED_BUILD)

test: ## compiles and runs all tests, with nothing proved: some ten minutes on two processors
	@python3 tools/gate.py test

BASE ?=

changed: ## checks the crates that differ from BASE (the last commit) and those above them, and runs their tests
	@python3 tools/changed.py $(if $(BASE),--base $(BASE))

build: $(WLB) ## proves and builds the program, crates/wlb/out/wlb

PROCESSES ?= examples/processes/counter

demo-processes: $(WLB) ## plays PROCESSES, a folder with the scripts of a kernel and its tabs, with the proved program
	python3 tools/demo_processes.py $(PROCESSES) $(WLB)

PREFIX ?= /usr/local
BUILD ?= build
# Folders with static libraries that were built elsewhere.
ARCHIVES ?=

lib: $(if $(ARCHIVES),,$(HUB) $(CLIENT)) ## builds the C libraries in the folder BUILD
	python3 tools/library.py --prefix $(PREFIX) build $(BUILD) $(or $(ARCHIVES),$(dir $(HUB) $(CLIENT)))

# Not empty: `make install` takes the libraries of `make quick`.
UNPROVED ?=

install: $(if $(UNPROVED),quick,lib) ## installs the header and the C libraries under PREFIX; with UNPROVED=1 those of `make quick`
	python3 tools/library.py --prefix $(PREFIX) install --destdir "$(DESTDIR)" $(if $(UNPROVED),--unproved $(UNPROVED_BUILD),$(BUILD))

wasm: $(if $(ARCHIVES),,$(HUB) $(CLIENT)) ## proves, and renews the WebAssembly modules of the JavaScript package in the folder js/dist
	python3 tools/modules.py renew $(or $(ARCHIVES),$(dir $(HUB) $(CLIENT)))

js-test: ## runs the tests of the JavaScript package, and names each that it skips
	$(need_node)
	node --test js/test/*.test.js

WPT ?=
CONFORMANCE ?=

conformance: ## runs the web-platform-tests of the folder WPT over the JavaScript package, with the options CONFORMANCE
	$(need_node)
	node js/conformance/run.js $(CONFORMANCE) "$(WPT)"

bench: $(WLB) $(BENCH) lib ## measures scripts, the broker, the lock table, lanes, processes, the C libraries and JavaScript
	python3 tools/bench.py --build $(BUILD) $(WLB) $(BENCH)

MINUTES ?= 10
SEED ?= 1
JS_SECONDS ?= 60

soak: $(WLB) lib ## kills brokers and tabs at random for MINUTES, then plays hostile tabs, histories of hub and clients, and JavaScript
	python3 tools/soak.py $(MINUTES) $(SEED) $(WLB)
	python3 tools/hostile.py $(SEED) $(WLB)
	python3 tools/check_library.py --only rests --minutes $(MINUTES) --seed $(SEED)
	python3 tools/planted_quiesce.py --seed $(SEED)
	python3 tools/js.py $(WLB) soak.js --seconds $(JS_SECONDS) --seed $(SEED)
	python3 tools/js.py $(WLB) soak.js --processes --seconds $(JS_SECONDS) --seed $(SEED)

MEGABYTES ?= 100

fuzz: $(WLB) ## gives desk, broker and sim MEGABYTES of random and mutated input
	python3 tools/fuzz.py $(MEGABYTES) $(SEED) $(WLB)

TESTS ?= test_tables
WORD ?=
REFUSED = crates/$(TESTS)/out/$(TESTS)_tests

refuse: $(REFUSED) ## runs the tests of the crate TESTS (with WORD in their names) with each allocation refused in turn
	python3 tools/refuse.py $(REFUSED) $(WORD)

CRATES ?=

mutants: ## kills the mutants of CRATES, or of all crates
	$(need_rt)
	python3 tools/mutants.py $(CRATES)

verify: ## the gate: proves every crate from nothing, tries wrong bodies, and tests all that was proved: processor-hours
	@python3 tools/gate.py verify

packages: ## installs the Debian packages that optional steps use
	@python3 tools/packages.py

dist: $(if $(ARCHIVES),,$(HUB) $(CLIENT)) ## makes the files of a release in build/dist, from a proved tree
	@python3 tools/dist.py $(if $(ARCHIVES),--archives $(ARCHIVES))

$(WLB): crates.txt $(wildcard crates/*/src/*.rt crates/*/src/*/*.rt crates/*/specs/*.antt)
	$(need_rt)
	$(proving)
	cd crates/wlb && rt run < stdin > /dev/null

$(BENCH): crates.txt $(wildcard crates/wl_*/src/*.rt crates/wl_*/src/*/*.rt crates/wl_*/specs/*.antt crates/bench_core/src/*.rt)
	$(need_rt)
	$(proving)
	cd crates/bench_core && rt run > /dev/null

$(HUB) $(CLIENT): crates.txt $(wildcard crates/wl*/src/*.rt crates/wl*/src/*/*.rt crates/wl*/specs/*.antt)
	$(need_rt)
	$(proving)
	python3 tools/archive.py $(patsubst lib%.a,%,$(notdir $@))

$(REFUSED): crates.txt $(wildcard crates/*/src/*.rt crates/*/src/*/*.rt crates/*/specs/*.antt)
	$(need_rt)
	@test -d crates/$(TESTS)/src || { echo "make: TESTS has to name a crate of tests: there is no folder crates/$(TESTS)" >&2; exit 1; }
	$(proving)
	cd crates/$(TESTS) && rt test > /dev/null
