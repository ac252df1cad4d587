# What there is to make. `make` alone lists it, from the words that stand after each ##.
.PHONY: help build lib command install uninstall demo test fuzz bench
# each proves in the same folder, target
.NOTPARALLEL:

# Where `make install` puts things, each below DESTDIR if that is given. PYTHONDIR is found by asking python3.
PREFIX ?= /usr/local
BINDIR ?= $(PREFIX)/bin
LIBDIR ?= $(PREFIX)/lib
INCLUDEDIR ?= $(PREFIX)/include
MANDIR ?= $(PREFIX)/share/man
export DESTDIR PREFIX BINDIR LIBDIR INCLUDEDIR MANDIR PYTHONDIR

help: ## this list
	@awk -F ' ## ' '/^[a-z]+:.* ## / { sub(/:.*/, "", $$1); printf "make %-11s%s\n", $$1, $$2 }' Makefile

build: lib command ## the library and the command

lib: ## the library, static and shared, proved and compiled in target/native
	@tools/native erythmoda target/native
	@echo "target/native has liberythmoda.a and liberythmoda.so, version $$(tools/version)"

command: ## the command erythmoda, proved and compiled in target/native
	@tools/command target/native
	@echo "target/native has the command erythmoda, version $$(tools/version)"

install: ## puts what `make build` made, with header, manual and Python module, below PREFIX=/usr/local (staged in DESTDIR=)
	@tools/install put

uninstall: ## takes away what `make install` put
	@tools/install remove

demo: ## the specification's samples reported on, a pixel explained, a small picture corrected, a table written anew
	@tests/demo

test: ## all proofs and all tests, from nothing; the last line counts them
	@tests/run

fuzz: ## the tests' streams with new seeds, for SECONDS=.. or until it is stopped
	@tests/fuzz $(SECONDS)

bench: ## speed, beside the same rules in plain Rust, ffmpeg and OpenColorIO
	@tests/bench/run
