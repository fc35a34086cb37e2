# The usual targets, over the toolchain's command `rt`.
# README.md, "Build and test", says what each does.
#
#   PREFIX=/usr/local  where `make install` copies to; DESTDIR goes in front
#   LIBDIR=lib         the folder of the libraries below PREFIX
#   MODULESDIR=PREFIX/LIBDIR/ossl-modules
#                      where the provider for OpenSSL goes; OpenSSL looks in `pkg-config --variable=modulesdir libcrypto`
#   CPU=x86-64-v3      builds the programs, libnattizhu.a and the plain shared object for processors with AVX2,
#                      not for every x86-64; give it to `make install` too
#   TARGET=aarch64-unknown-linux-gnu
#                      `make library`, `make install-library` and `make wheel` are for ARM64, by the compiler of
#                      Debian's gcc-aarch64-linux-gnu
#   SECONDS=600        how long `make fuzz` takes, for C and for Python each

PREFIX = /usr/local
LIBDIR = lib
MODULESDIR = $(PREFIX)/$(LIBDIR)/ossl-modules
CPU =
TARGET =
SECONDS = 600

PROCESSOR = $(or $(TARGET),$(CPU),x86-64)
PROGRAM = crates/ripemd_sum/out/$(PROCESSOR)/ripemd_sum
FILES_PROGRAM = crates/rmdsum/out/$(if $(CPU),$(CPU)/)rmdsum

BUILT = crates/ripemd_c/out$(if $(TARGET),/$(TARGET))
HWCAPS = glibc-hwcaps/x86-64-v3
AT = $(DESTDIR)$(PREFIX)
LIBRARIES = $(AT)/$(LIBDIR)
PAGES = $(AT)/share/man
COMPLETIONS = $(AT)/share/bash-completion/completions
# What nattizhu.pc names as the prefix, with a backslash before each space.
PC_PREFIX = $(subst $(subst ,, ),\\ ,$(PREFIX))
VERSION = $(shell sed -n 's/^\#define NATTIZHU_VERSION "\(.*\)"/\1/p' crates/ripemd_c/nattizhu.h)
# The functions of nattizhu.h, each of which has a name for the manual page of all.
FUNCTIONS = $(shell sed -n 's/^function \([^ ]*\) .*/\1/p' tests/data/interface.txt)
# Where the python3 on the path has its modules below a prefix; nothing, where there is none.
SITE = $(shell python3 -c 'import sys; sys.version_info < (3, 11) or \
  print("lib/python%d.%d/site-packages" % sys.version_info[:2])' 2>/dev/null)

.PHONY: all ripemd_sum rmdsum library wheel js dist toolchain prefix check mutants gate fuzz bench install \
  install-program install-library install-provider install-python uninstall clean

# The libraries are proved first, where they have changed.
all: toolchain
	@[ -z '$(TARGET)' ] || { echo 'make: the programs and make install are for x86-64: leave TARGET out' >&2; exit 1; }
	@[ -e $(FILES_PROGRAM) ] || \
	  echo 'make: proving and building the programs: some minutes the first time' >&2
	@build/tell $(MAKE) --no-print-directory -j2 ripemd_sum rmdsum >/dev/null
	$(if $(CPU),,@build/program $(FILES_PROGRAM))

# Beside it rmdsum goes first, which takes longer.
ripemd_sum:
	@nice build/crate $@ $(PROCESSOR)

rmdsum:
	@build/crate $@ $(if $(CPU),$(CPU),x86-64 x86-64-v3)

toolchain:
	@rt version >/dev/null 2>&1 || { echo 'make: the command rt of the Rattle toolchain does not run;' \
	  'it needs python3' >&2; exit 1; }

check: toolchain
	@tests/check

mutants: toolchain
	@build/tell rt ci
	@tests/pytest 'mutants: that each allocation may fail' -m mutants

gate: check mutants

fuzz: library
	@FUZZ_SECONDS=$(SECONDS) tests/pytest 'fuzz: it' -rP tests/test_fuzz.py

bench: toolchain
	@bench/bench.py

library: toolchain
	@echo 'make: proving and building the library' >&2
	@mkdir -p $(BUILT) && build/crate ripemd_c $(PROCESSOR) $(if $(TARGET),,x86-64-v3) >$(BUILT)/log 2>&1 || \
	  { cat $(BUILT)/log; exit 1; }
	@build/shared $(BUILT) $(PROCESSOR)

wheel: library
	@build/wheel dist $(BUILT) $(TARGET)

js: toolchain
	@build/tell build/crate ripemd_c wasm64-unknown-unknown >/dev/null
	@build/js dist

dist:
	@[ -z '$(CPU)$(TARGET)' ] || { echo 'make: packages are for each processor: leave CPU and TARGET out' >&2; exit 1; }
	@$(MAKE) --no-print-directory all library
	@! command -v aarch64-linux-gnu-gcc >/dev/null || \
	  $(MAKE) --no-print-directory library TARGET=aarch64-unknown-linux-gnu
	@build/tell build/crate ripemd_c wasm64-unknown-unknown >/dev/null
	@build/dist dist

# nattizhu.pc has the prefix in it.
prefix:
	@case '$(PREFIX)' in /*) ;; *) echo 'make: PREFIX must begin with /' >&2; exit 1 ;; esac

install: prefix all library
	@$(MAKE) --no-print-directory install-program
	@if command -v cc >/dev/null; then \
	  $(MAKE) --no-print-directory install-library install-python; \
	else \
	  echo 'make: there is no C compiler (cc): libnattizhu, nattizhu.h, the provider for OpenSSL and the package for' \
	    'Python are left out'; \
	fi

# $(call filled,FILE,PLACE): copies a file with the version and places in it
filled = sed -e 's|@PREFIX@|$(PC_PREFIX)|' -e 's|@LIBDIR@|$(LIBDIR)|' -e 's|@VERSION@|$(VERSION)|' \
  $(1) >"$(2)" && chmod 644 "$(2)"

# These copy what is built.
install-program: prefix
	install -D -m 755 $(PROGRAM) "$(AT)/bin/ripemd_sum"
	install -D -m 755 $(FILES_PROGRAM) "$(AT)/bin/rmdsum"
	install -D -m 644 crates/rmdsum/rmdsum.bash-completion "$(COMPLETIONS)/rmdsum"
	install -d "$(PAGES)/man1"
	$(call filled,crates/ripemd_sum/ripemd_sum.1,$(PAGES)/man1/ripemd_sum.1)
	$(call filled,crates/rmdsum/rmdsum.1,$(PAGES)/man1/rmdsum.1)

install-library: prefix
	@[ -e $(BUILT)/libnattizhu.so.0 ] || { echo 'make: there is no libnattizhu.so: it needs a C compiler' \
	  '(cc) and `make library`' >&2; exit 1; }
	install -D -m 644 -t "$(LIBRARIES)" $(wildcard $(BUILT)/libnattizhu*.a)
	install -D -m 755 -t "$(LIBRARIES)" $(BUILT)/libnattizhu.so.0
	$(if $(TARGET),,install -D -m 755 -t "$(LIBRARIES)/$(HWCAPS)" $(BUILT)/$(HWCAPS)/libnattizhu.so.0)
	ln -sf libnattizhu.so.0 "$(LIBRARIES)/libnattizhu.so"
	@[ ! -e $(BUILT)/ossl-modules/nattizhu.so ] || $(MAKE) --no-print-directory install-provider
	install -D -m 644 -t "$(AT)/include" crates/ripemd_c/nattizhu.h
	install -d "$(LIBRARIES)/pkgconfig" "$(PAGES)/man3"
	$(call filled,crates/ripemd_c/nattizhu.pc.in,$(LIBRARIES)/pkgconfig/nattizhu.pc)
	build/manual >"$(PAGES)/man3/nattizhu.3" && chmod 644 "$(PAGES)/man3/nattizhu.3"
	cd "$(PAGES)/man3" && for name in $(FUNCTIONS); do ln -sf nattizhu.3 $$name.3; done

install-provider: prefix
	install -D -m 755 -t "$(DESTDIR)$(MODULESDIR)" $(BUILT)/ossl-modules/nattizhu.so
	install -D -m 644 -t "$(AT)/share/nattizhu" openssl/openssl.cnf

install-python: prefix
	@room=$$(mktemp -d); trap 'rm -rf "$$room"' EXIT; build/wheel "$$room"; \
	if [ ! -e "$$room"/*.whl ]; then \
	  :; \
	elif [ -n "$(SITE)" ] && python3 -m pip --version >/dev/null 2>&1; then \
	  python3 -m pip install --quiet --no-deps --no-index --upgrade --disable-pip-version-check \
	    --root-user-action ignore --target "$(AT)/$(SITE)" "$$room"/*.whl; \
	  echo 'make: where python3 does not find nattizhu by itself: PYTHONPATH=$(PREFIX)/$(SITE)'; \
	else \
	  echo 'make: there is no python3 of 3.11 or later with pip: the package for Python is left out'; \
	fi

uninstall: prefix
	rm -f "$(DESTDIR)$(MODULESDIR)/nattizhu.so"
	! cd "$(AT)" 2>/dev/null || rm -rf bin/ripemd_sum bin/rmdsum include/nattizhu.h share/nattizhu/openssl.cnf \
	  share/bash-completion/completions/rmdsum share/man/man1/ripemd_sum.1 share/man/man1/rmdsum.1 share/man/man3/nattizhu*.3 \
	  $(addprefix $(LIBDIR)/,libnattizhu.a libnattizhu_v3.a libnattizhu.so libnattizhu.so.0 pkgconfig/nattizhu.pc \
	    $(HWCAPS)/libnattizhu.so.0) \
	  lib/python3.*/site-packages/nattizhu lib/python3.*/site-packages/nattizhu-*.dist-info
	rmdir "$(AT)/share/nattizhu" "$(LIBRARIES)/$(HWCAPS)" "$(LIBRARIES)/$(dir $(HWCAPS))" 2>/dev/null || :

clean:
	rm -rf crates/*/out dist
