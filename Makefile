# The session kit for those who build and install it.
#
#   make lib                   proves the kit and writes target/staticlib/libnutrameza.a
#   make install PREFIX=DIR    libraries, header, pkg-config and CMake files, man pages, programs, the Python package
#                              and its commands, documents, examples (DESTDIR is put before PREFIX); makes what is
#                              missing or stale
#   make uninstall PREFIX=DIR  takes these files away again
#   make man                   the man pages, of docs/REFERENCE.md, into target/man
#   make dist                  target/dist: the commit's sources, and what it installs, as tarballs; alike in each build
#   make ward                  runs the ward example: the script beside what the program answers
#   make survey                surveys the ward example: what its exclusion allows, and how its script is answered
#   make host                  runs the ward example as a C host of the library
#   make test                  the gate: every proof and every test
#   make desk-test             the desk in a real browser, which it installs (apt-get)
#   make fuzz                  the fuzzer beside the separate solver, an hour long (FUZZ_SECONDS)
#   make bench                 the kit beside plain Rust, as ratios; fails where the worst is over 1.25 (NUTRAMEZA_BAR)
#
# NUTRAMEZA_LIB names another folder for the archive: then it is taken as it is there, and so are the programs. Of the
# prover's output a line for each crate is shown, all of it where something fails; target/make has it.

VERSION := $(shell cat VERSION)
MAJOR := $(firstword $(subst ., ,$(VERSION)))
dated := $(shell sed -nE 's/^## $(VERSION) \((.*)\)$$/\1/p' CHANGELOG.md)
PREFIX ?= /usr/local
NUTRAMEZA_LIB ?= target/staticlib
RT ?= rt
FUZZ_SECONDS ?= 3600

library := $(NUTRAMEZA_LIB)/libnutrameza.a
soname := libnutrameza.so.$(MAJOR)
shared := target/shared/libnutrameza.so.$(VERSION)
program := target/bin/nutrameza_script
surveyor := target/bin/nutrameza_survey
prefix := $(abspath $(PREFIX))
to := $(DESTDIR)$(prefix)
sources := crates.txt $(shell find crates -name out -prune -o '(' -name '*.rt' -o -name '*.antt' ')' -print)
documents := $(wildcard docs/*.md) CHANGELOG.md
pictures := $(wildcard docs/*.png)
package := $(wildcard python/nutrameza/*.py) python/nutrameza/py.typed
desk := $(foreach kind,py html css js,$(wildcard python/nutrameza/desk/*.$(kind)))
open := (
calls := $(shell sed -nE 's/^uint64_t (nutrameza_[a-z_]+)[$(open)].*/\1/p' include/nutrameza.h)

# An archive from elsewhere may come without the means to make programs: then those that are there are taken.
ifeq ($(NUTRAMEZA_LIB),target/staticlib)
programs := $(program) $(surveyor)
endif

# What an install has, below the prefix: files, links, and the folders that are its own.
links := lib/$(soname) lib/libnutrameza.so
files := lib/libnutrameza.a lib/$(notdir $(shared)) $(links) include/nutrameza.h \
  lib/pkgconfig/nutrameza.pc lib/pkgconfig/nutrameza-static.pc \
  lib/cmake/nutrameza/nutrameza-config.cmake lib/cmake/nutrameza/nutrameza-config-version.cmake \
  bin/nutrameza bin/nutrameza-policy bin/nutrameza_script bin/nutrameza_survey \
  $(package:python/%=lib/python3/%) $(desk:python/%=lib/python3/%) share/bash-completion/completions/nutrameza \
  share/man/man7/nutrameza.7 $(calls:%=share/man/man3/%.3) \
  $(patsubst %,share/man/man1/%.1,nutrameza nutrameza-policy nutrameza-store nutrameza_script nutrameza_survey) \
  $(documents:%=share/doc/nutrameza/%) $(pictures:%=share/doc/nutrameza/%) $(patsubst %,share/doc/nutrameza/%,$(wildcard examples/*))
folders := share/doc/nutrameza/docs share/doc/nutrameza/examples share/doc/nutrameza lib/cmake/nutrameza \
  lib/python3/nutrameza/desk lib/python3/nutrameza

.PHONY: lib install uninstall man dist ward survey host test desk-test fuzz bench always

lib:
	@tools/quiet target/make/lib env RT=$(RT) tools/built library

target/staticlib/libnutrameza.a: $(sources)
	@tools/quiet target/make/lib env RT=$(RT) tools/built library
	@touch $@

# The archive's members whole, the calls of the header exported and nothing else; linked anew each time, and kept where
# it is the same.
$(shared): $(library) include/nutrameza.h shared/version.c VERSION always
	@mkdir -p $(@D)
	@{ echo 'NUTRAMEZA_$(MAJOR) {'; echo 'global:'; \
	  sed -nE 's/^uint(64|32)_t (nutrameza_[a-z_]+)\(.*/  \2;/p' include/nutrameza.h; echo 'local: *;'; echo '};'; } > target/shared/exports
	@$(CC) -shared -fPIC -nostartfiles -O2 -s -Iinclude shared/version.c -Wl,--whole-archive $(library) -Wl,--no-whole-archive \
	  -Wl,-soname,$(soname) -Wl,--version-script=target/shared/exports -Wl,--no-undefined -Wl,-z,relro -Wl,-z,now -o $@.part
	@cmp -s $@.part $@ && rm $@.part || mv $@.part $@

man:
	@tools/man_pages docs/REFERENCE.md target/man $(VERSION) $(dated)

# filled FILE: a template of the repository with the prefix and the version put in, to a file below the prefix
filled = sed -e 's|@PREFIX@|$(prefix)|' -e 's|@VERSION@|$(VERSION)|' -e 's|@MAJOR@|$(MAJOR)|' $(1) > '$(to)/$(2)' && chmod 644 '$(to)/$(2)'

install: $(library) $(shared) $(programs) man
	@install -d $(patsubst %,'$(to)/%',$(sort $(dir $(files))))
	@install -m 644 $(library) '$(to)/lib/libnutrameza.a'
	@install -m 755 $(shared) '$(to)/lib/$(notdir $(shared))'
	@ln -sf $(notdir $(shared)) '$(to)/lib/$(soname)'
	@ln -sf $(soname) '$(to)/lib/libnutrameza.so'
	@install -m 644 include/nutrameza.h '$(to)/include/nutrameza.h'
	@$(call filled,nutrameza.pc.in,lib/pkgconfig/nutrameza.pc)
	@$(call filled,nutrameza-static.pc.in,lib/pkgconfig/nutrameza-static.pc)
	@$(call filled,cmake/nutrameza-config.cmake.in,lib/cmake/nutrameza/nutrameza-config.cmake)
	@$(call filled,cmake/nutrameza-config-version.cmake.in,lib/cmake/nutrameza/nutrameza-config-version.cmake)
	@install -m 755 python/bin/nutrameza python/bin/nutrameza-policy '$(to)/bin/'
	@install -m 644 $(package) '$(to)/lib/python3/nutrameza/'
	@install -m 644 $(desk) '$(to)/lib/python3/nutrameza/desk/'
	@install -m 644 python/completion/nutrameza '$(to)/share/bash-completion/completions/nutrameza'
	@for p in $(program) $(surveyor); do [ ! -x $$p ] || install -m 755 $$p '$(to)/bin/' || exit 1; done
	@install -m 644 target/man/*.1 '$(to)/share/man/man1/'
	@install -m 644 target/man/*.3 '$(to)/share/man/man3/'
	@install -m 644 target/man/*.7 '$(to)/share/man/man7/'
	@install -m 644 $(wildcard docs/*.md) $(pictures) '$(to)/share/doc/nutrameza/docs/'
	@install -m 644 CHANGELOG.md '$(to)/share/doc/nutrameza/'
	@install -m 644 examples/* '$(to)/share/doc/nutrameza/examples/'
	@echo 'nutrameza $(VERSION) is installed below $(to)'

uninstall:
	@rm -f $(patsubst %,'$(to)/%',$(files))
	@rm -rf '$(to)/lib/python3/nutrameza/__pycache__' '$(to)/lib/python3/nutrameza/desk/__pycache__'
	@for f in $(folders); do [ ! -d '$(to)'/$$f ] || rmdir --ignore-fail-on-non-empty '$(to)'/$$f; done

# The commit's time on every file, so that a tarball has the commit's bytes and no day of its own.
dist: name := nutrameza-$(VERSION)
dist: $(library) $(shared) $(programs)
	@git diff --quiet HEAD || { echo 'make dist: the working tree differs from the commit'; exit 1; }
	@rm -rf target/dist && mkdir -p target/dist/stage
	@git -c tar.umask=0022 archive --format=tar --prefix=$(name)/ HEAD | gzip -9n > target/dist/$(name).tar.gz
	@$(MAKE) -s install DESTDIR=target/dist/stage PREFIX=/usr/local > target/dist/log
	@tar --create --sort=name --format=gnu --owner=0 --group=0 --numeric-owner --mode=go-w --mtime=@$$(git log -1 --format=%ct) \
	  --directory=target/dist/stage/usr/local . | gzip -9n > target/dist/$(name)-x86_64-linux.tar.gz
	@rm -r target/dist/stage target/dist/log
	@cd target/dist && sha256sum *.tar.gz | tee SHA256SUMS

$(program): $(sources)
	@tools/quiet target/make/program env RT=$(RT) tools/built program nutrameza_script
	@touch $@

# The script of the ward example beside the lines that the program answers.
ward: $(program) $(library)
	@mkdir -p target/ward
	@tools/policy build examples/ward.policy -o target/ward/policy.img
	@cd target/ward && ../bin/nutrameza_script < ../../examples/ward.script > answers
	@paste examples/ward.script target/ward/answers | expand -t 24
	@cmp target/ward/answers examples/ward.answers

$(surveyor): $(sources)
	@tools/quiet target/make/surveyor env RT=$(RT) tools/built program nutrameza_survey
	@touch $@

# The figures of the ward example.
survey: $(surveyor) $(library)
	@mkdir -p target/ward
	@tools/policy build examples/ward.policy -o target/ward/policy.img
	@cd target/ward && ../bin/nutrameza_survey < ../../examples/ward.script > survey
	@cat target/ward/survey
	@cmp target/ward/survey examples/ward.survey

# A small clinic as a C host.
host: $(library)
	mkdir -p target/ward
	$(CC) -std=c99 -O2 -Wall -Wextra -Iinclude examples/host.c $(library) -o target/ward/host
	target/ward/host

test:
	bash .ci/run

desk-test: $(library) $(programs)
	apt-get install -y chromium chromium-driver python3-selenium
	NUTRAMEZA_LIB='$(abspath $(NUTRAMEZA_LIB))' bash tests/desk.sh

fuzz: $(library)
	NUTRAMEZA_LIB='$(abspath $(NUTRAMEZA_LIB))' bash tests/fuzz/run $(FUZZ_SECONDS) target/fuzz/corpus

bench: $(library) $(program) $(surveyor)
	NUTRAMEZA_LIB='$(abspath $(NUTRAMEZA_LIB))' NUTRAMEZA_PROGRAM='$(abspath $(program))' NUTRAMEZA_SURVEY='$(abspath $(surveyor))' cargo run --release --offline --manifest-path bench/Cargo.toml --features programs

include store/store.mk
include java/java.mk
