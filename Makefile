# make             proves and builds all, lists two sample fonts and draws a label in each,
#                  and one of 600 dots to the inch, to target/
# make build       the same without the list and the labels
# make check       all tests, the same as .ci/run
# make install     under $(DESTDIR)$(PREFIX): header, archive, shared library, pkg-config
#                  file, programs, man pages, bash completion; needs no rt once all is built;
#                  the same of the text layer
# make uninstall   removes what make install put there, if given the same folders
# make clean       removes target/, and what the prover keeps in crates/*/out
PREFIX = /usr/local
BINDIR = $(PREFIX)/bin
LIBDIR = $(PREFIX)/lib
INCLUDEDIR = $(PREFIX)/include
MANDIR = $(PREFIX)/share/man
DOCDIR = $(PREFIX)/share/doc/marlinfold
COMPLETIONDIR = $(PREFIX)/share/bash-completion/completions
CFLAGS ?= -O2
TEXT = Handle with care: 12 x 3.50 (No. 7)

# It stands once, in the header.
VERSION := $(shell sed -n 's/^.define MF_VERSION "\([0-9.]*\)".*/\1/p' include/marlinfold.h)
$(if $(VERSION),,$(error include/marlinfold.h has no MF_VERSION))

archive = target/staticlib/libmarlinfold.a
listing = target/bin/listing
figures = target/bin/figures
programs = $(patsubst programs/%.c,target/programs/marlinfold-%,$(wildcard programs/*.c))
modules = $(patsubst programs/common/%.c,target/objects/%.o,$(wildcard programs/common/*.c))
common = target/objects/common.a
examples = $(patsubst %.c,target/%,$(wildcard examples/*.c))
crates = crates.txt $(shell find crates -name out -prune -o -type f -print)
headers = include/marlinfold.h include/marlinfold-text.h $(wildcard programs/common/*.h)
# The programs that draw write PNG too, if libpng is there.
with_png := $(shell pkg-config --exists libpng 2>/dev/null && echo yes)
png_flags := $(if $(with_png),-DWITH_PNG $(shell pkg-config --cflags libpng))
png_libraries := $(if $(with_png),$(shell pkg-config --libs libpng))
compile = $(CC) -std=c99 -Wall -Wextra -pedantic $(CPPFLAGS) $(CFLAGS) -Iinclude
label = target/programs/marlinfold-label --height 10

# Programs that were linked with one soname run with every library that has it.
soname = libmarlinfold.so.$(firstword $(subst ., ,$(VERSION)))
shared = target/shared/libmarlinfold.so.$(VERSION)
links = libmarlinfold.so $(soname)
# Here each is a copy, since rt ci takes no links in the checkout.
copies = for link in $(1); do rm -f $$link && cp $(@F) $$link || exit 1; done

# The text layer: a library of its own, in C over the header.
text_archive = target/text/libmarlinfold-text.a
text_modules = $(patsubst text/%.c,target/text/%.o,$(wildcard text/*.c))
text_headers = include/marlinfold.h include/marlinfold-text.h $(wildcard text/*.h)
text_soname = libmarlinfold-text.so.$(firstword $(subst ., ,$(VERSION)))
text_shared = target/shared/libmarlinfold-text.so.$(VERSION)
text_links = libmarlinfold-text.so $(text_soname)

# Nothing if the program is there, else one line, and make stops.
needs = $(if $(shell command -v $(1) 2>/dev/null),,$(error $@: needs $(2), and no $(1) was found))

all: build
	cat samples/cmr10.pcl samples/cmbx10.pcl | $(listing)
	$(label) --proportional "$(TEXT)" samples/*.pcl >target/label.pbm
	$(label) --proportional --weight 3 "$(TEXT)" samples/*.pcl >target/label-bold.pbm
	$(label) --mode 600 "$(TEXT)" samples/*.pcl >target/label-600.pbm

build: $(archive) $(listing) $(figures) $(shared) $(programs) $(examples)
build: $(text_archive) $(text_shared)

# $(call prove,CRATE,COMMAND,FILE): what the prover says goes to a file; its last lines are shown
# if it fails. It leaves what it builds in the crate's out/, and proves again only what has changed.
# A program is run as well, with nothing to read.
define prove
	@:$(call needs,rt,the Rattle toolchain)
	@mkdir -p $(@D)
	@echo "rt $(2) in crates/$(1): its notes are in target/prover-$(1).log"
	@(cd crates/$(1) && rt $(2) </dev/null) >target/prover-$(1).log 2>&1 || \
	    { tail -n 20 target/prover-$(1).log; exit 1; }
	@cp crates/$(1)/out/$(3) $@
endef

$(archive): $(crates)
	$(call prove,marlinfold_c,lib,libmarlinfold_c.a)

# One after the other, since each takes all processors.
$(listing): $(crates) | $(archive)
	$(call prove,listing,run,listing)

$(figures): $(crates) | $(archive) $(listing)
	$(call prove,figures,run,figures)

# Only the header's calls are to be seen from outside.
$(shared): $(archive)
	@mkdir -p $(@D)
	@echo '{ global: mf_*; local: *; };' >$(@D)/exports
	$(CC) -shared $(LDFLAGS) -Wl,-soname,$(soname) -Wl,--version-script,$(@D)/exports \
	    -Wl,-z,defs -Wl,--whole-archive $(archive) -Wl,--no-whole-archive -o $@
	@cd $(@D) && $(call copies,$(links))

# The text layer's modules are compiled once for both of its libraries.
target/text/%.o: text/%.c $(text_headers)
	@mkdir -p $(@D)
	$(compile) -fPIC -c $< -o $@

$(text_archive): $(text_modules)
	rm -f $@
	$(AR) rcs $@ $(text_modules)

$(text_shared): $(text_modules) $(shared)
	@mkdir -p $(@D)
	@echo '{ global: mft_*; local: *; };' >$(@D)/text-exports
	$(CC) -shared $(LDFLAGS) -Wl,-soname,$(text_soname) \
	    -Wl,--version-script,$(@D)/text-exports -Wl,-z,defs $(text_modules) -L$(@D) -lmarlinfold \
	    -o $@
	@cd $(@D) && $(call copies,$(text_links))

# What the programs share is compiled once.
target/objects/%.o: programs/common/%.c $(headers)
	@mkdir -p $(@D)
	$(compile) $(png_flags) -c $< -o $@

$(common): $(modules)
	rm -f $@
	$(AR) rcs $@ $(modules)

target/programs/marlinfold-%: programs/%.c $(headers) $(common) $(text_archive) $(archive)
	@mkdir -p $(@D)
	$(compile) -Iprograms/common $< $(common) $(text_archive) $(archive) $(LDFLAGS) $(libraries) -o $@

target/programs/marlinfold-label target/programs/marlinfold-specimen: libraries = $(png_libraries)
target/programs/marlinfold-catalogue: libraries = $(png_libraries)

# As a user builds them: with the installed header alone.
target/examples/%: examples/%.c include/marlinfold.h $(archive)
	@mkdir -p $(@D)
	$(compile) $< $(archive) $(LDFLAGS) -o $@

target/examples/words: examples/words.c include/marlinfold.h include/marlinfold-text.h \
    $(text_archive) $(archive)
	@mkdir -p $(@D)
	$(compile) $< $(text_archive) $(archive) $(LDFLAGS) -o $@

check:
	@:$(call needs,rt,the Rattle toolchain)
	.ci/run

# The text layer's files, put there and removed with the library's.
install: install-text
uninstall: uninstall-text

install-text: $(text_archive) $(text_shared) $(listing) $(figures)
	install -d "$(DESTDIR)$(INCLUDEDIR)" "$(DESTDIR)$(LIBDIR)/pkgconfig"
	install -m 644 include/marlinfold-text.h "$(DESTDIR)$(INCLUDEDIR)/"
	install -m 644 $(text_archive) "$(DESTDIR)$(LIBDIR)/"
	install -m 755 $(text_shared) "$(DESTDIR)$(LIBDIR)/"
	for link in $(text_links); do \
	    ln -sf $(notdir $(text_shared)) "$(DESTDIR)$(LIBDIR)/$$link" || exit 1; done
	sed -e 's|@PREFIX@|$(PREFIX)|; s|@INCLUDEDIR@|$(INCLUDEDIR)|; s|@LIBDIR@|$(LIBDIR)|' \
	    -e 's|@VERSION@|$(VERSION)|g' marlinfold-text.pc.in \
	    >"$(DESTDIR)$(LIBDIR)/pkgconfig/marlinfold-text.pc"
	chmod 644 "$(DESTDIR)$(LIBDIR)/pkgconfig/marlinfold-text.pc"

uninstall-text:
	rm -f "$(DESTDIR)$(INCLUDEDIR)/marlinfold-text.h" \
	    $(addprefix "$(DESTDIR)$(LIBDIR)"/,$(notdir $(text_archive) $(text_shared)) $(text_links)) \
	    "$(DESTDIR)$(LIBDIR)/pkgconfig/marlinfold-text.pc"

install: $(archive) $(listing) $(figures) $(shared) $(programs)
	install -d "$(DESTDIR)$(INCLUDEDIR)" "$(DESTDIR)$(LIBDIR)/pkgconfig" "$(DESTDIR)$(BINDIR)" \
	    "$(DESTDIR)$(MANDIR)/man1" "$(DESTDIR)$(MANDIR)/man3" "$(DESTDIR)$(DOCDIR)"
	install -m 644 include/marlinfold.h "$(DESTDIR)$(INCLUDEDIR)/"
	install -m 644 $(archive) "$(DESTDIR)$(LIBDIR)/"
	install -m 755 $(shared) "$(DESTDIR)$(LIBDIR)/"
	for link in $(links); do \
	    ln -sf $(notdir $(shared)) "$(DESTDIR)$(LIBDIR)/$$link" || exit 1; done
	sed -e 's|@PREFIX@|$(PREFIX)|; s|@INCLUDEDIR@|$(INCLUDEDIR)|; s|@LIBDIR@|$(LIBDIR)|' \
	    -e 's|@VERSION@|$(VERSION)|' marlinfold.pc.in \
	    >"$(DESTDIR)$(LIBDIR)/pkgconfig/marlinfold.pc"
	chmod 644 "$(DESTDIR)$(LIBDIR)/pkgconfig/marlinfold.pc"
	install -m 755 $(listing) "$(DESTDIR)$(BINDIR)/marlinfold-listing"
	install -m 755 $(figures) "$(DESTDIR)$(BINDIR)/marlinfold-figures"
	install -m 755 $(programs) "$(DESTDIR)$(BINDIR)/"
	install -m 644 docs/*.1 "$(DESTDIR)$(MANDIR)/man1/"
	install -m 644 docs/*.3 "$(DESTDIR)$(MANDIR)/man3/"
	install -m 644 README.md CHANGELOG.md LICENSE "$(DESTDIR)$(DOCDIR)/"
	install -d "$(DESTDIR)$(COMPLETIONDIR)"
	install -m 644 programs/completion.bash "$(DESTDIR)$(COMPLETIONDIR)/marlinfold"
	for program in $(notdir $(programs)); do \
	    ln -sf marlinfold "$(DESTDIR)$(COMPLETIONDIR)/$$program" || exit 1; done

uninstall:
	rm -f "$(DESTDIR)$(INCLUDEDIR)/marlinfold.h" \
	    $(addprefix "$(DESTDIR)$(LIBDIR)"/,libmarlinfold.a $(notdir $(shared)) $(links)) \
	    "$(DESTDIR)$(LIBDIR)/pkgconfig/marlinfold.pc" \
	    $(addprefix "$(DESTDIR)$(BINDIR)"/,marlinfold-listing marlinfold-figures) \
	    $(addprefix "$(DESTDIR)$(BINDIR)"/,$(notdir $(programs))) \
	    $(addprefix "$(DESTDIR)$(MANDIR)"/man1/,$(notdir $(wildcard docs/*.1))) \
	    $(addprefix "$(DESTDIR)$(MANDIR)"/man3/,$(notdir $(wildcard docs/*.3))) \
	    $(addprefix "$(DESTDIR)$(DOCDIR)"/,README.md CHANGELOG.md LICENSE) \
	    $(addprefix "$(DESTDIR)$(COMPLETIONDIR)"/,marlinfold $(notdir $(programs)))
	rmdir "$(DESTDIR)$(DOCDIR)" 2>/dev/null || :

clean:
	rm -rf target crates/*/out

.PHONY: all build check install uninstall install-text uninstall-text clean
.DELETE_ON_ERROR:
