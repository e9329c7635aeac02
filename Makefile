# make run: answer a request.  make test: the gate.  make bench: the archive against plain C.  make soak: a million requests compared.
# make edits: what each edit that must fail would answer, into docs/EDITS.md.
# make install PREFIX=/usr/local: library, header, pkg-config file, the program and the manual, for a server's build.
.PHONY: run test bench soak edits install clean
.DEFAULT_GOAL := test

REQUEST ?= examples/evening.request

# the archive is x86-64 code: elsewhere it is linked by a cross compiler and run by an emulator
X86_TOOLS = $(if $(filter x86_64,$(shell uname -m)),gcc,x86_64-linux-gnu-gcc qemu-x86_64-static)

# proves and builds the program first, unless nothing has changed since
run:
	@scripts/tools rt $(X86_TOOLS)
	@test -r "$(REQUEST)" || { echo "make run: cannot read '$(REQUEST)': give a request as make run REQUEST=FILE" >&2; exit 1; }
	@test -x target/bin/analyse || echo "make run: proving and building the program first, which takes some minutes; its log is build/built/analyse.log" >&2
	@scripts/built analyse
	@scripts/x86 run target/bin/analyse < "$(REQUEST)"

test:
	@scripts/test-gate
	@scripts/gate

bench:
	@scripts/tools rt
	@scripts/built clause analyse
	@bench/run target/staticlib target/bin/analyse

soak:
	@scripts/tools rt cargo $(X86_TOOLS)
	@scripts/built clause trial_smoothing analyse
	@scripts/soak target/staticlib target/obj

edits:
	@scripts/tools rt
	@scripts/edits

install:
	@scripts/tools rt $(X86_TOOLS)
	@test -n "$(PREFIX)" || { echo "make install: say where to: make install PREFIX=/usr/local" >&2; exit 1; }
	@scripts/built clause analyse
	@host/install target/staticlib "$(PREFIX)" target/bin/analyse

clean:
	@rm -rf build target crates/*/out
