# What there is to do with a checkout:
#
#     make                 proves the sources, builds the program, and puts it in bin/; this needs the kit of Rattle
#     make check           tries bin/rhythm by all cases and documents; it needs Python 3 and nothing else
#     make check-editor    tries the editor in Chromium, where it and Selenium are
#     make install         puts the program, its manual page, the grammars and what helps with them below PREFIX, within DESTDIR
#     make uninstall       takes that away again
#     make prove           the gate of proofs: each crate from nothing, and each edit that must fail; this needs the kit too
#     make same            compares what the gate has built with bin/rhythm, byte for byte
#     make pages           engraves the pages of the examples, where LilyPond is
PREFIX ?= /usr/local
bin = $(DESTDIR)$(PREFIX)/bin
man = $(DESTDIR)$(PREFIX)/share/man/man1
share = $(DESTDIR)$(PREFIX)/share/rhythm
editor = editing.py engraving.py forms.py performance.py web.py words.py written.py

.PHONY: all check check-editor install uninstall prove same pages

all:
	@.ci/build

check:
	@.ci/grammars
	@.ci/documents
	@python3 -B python/test_rhythm.py
	@python3 -B examples/editor/test_server.py

# Debian has Selenium for its own Python, which may be another one than that on the path
check-editor:
	@for it in /usr/bin/python3 python3; do $$it -c 'import selenium' 2>/dev/null && break; done; $$it -B examples/editor/test_browser.py

install:
	install -d $(bin) $(man) $(share)/grammars $(share)/examples/corpus
	install bin/rhythm $(bin)/rhythm
	install -m 644 man/rhythm.1 $(man)/rhythm.1
	install -m 644 grammars/*.rhy grammars/README.md $(share)/grammars
	install -m 644 examples/page.ily $(share)/examples
	install -m 644 examples/corpus/Makefile $(share)/examples/corpus
	install -d $(share)/python
	install -m 644 python/rhythm.py $(share)/python
	install -d $(share)/examples/editor/static
	install -m 644 $(addprefix examples/editor/,$(editor)) $(share)/examples/editor
	install -m 644 examples/editor/static/* $(share)/examples/editor/static
	install examples/editor/serve.py $(share)/examples/editor
	install examples/corpus/transcribe examples/corpus/learn $(share)/examples/corpus

uninstall:
	rm -f $(bin)/rhythm $(man)/rhythm.1
	rm -rf $(share)
	if [ -n "$(DESTDIR)" ]; then find "$(DESTDIR)" -type d -empty -delete; fi

prove:
	rt ci
	.ci/must-not-compile

same:
	@cmp crates/rhythm/out/rhythm bin/rhythm || \
		{ echo "bin/rhythm is not the program of these sources: run make, and commit bin/rhythm" >&2; exit 1; }

pages:
	@.ci/documents --pages
