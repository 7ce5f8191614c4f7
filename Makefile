# make            makes sure that the program is there, and prints its path: it is unpacked from release/, and never proved
# make test       checks what needs no Rattle kit: two minutes
# make verify     compares release/PROVENANCE with the sources and with the program in release/: seconds
# make check      proves and checks everything, by the Rattle kit: the gate. Its first line says how long it takes, and in how much memory
# make prove      proves and builds the program alone
# make install    copies the program, the manual page and the completions below PREFIX (and DESTDIR)
# make uninstall  removes them, and below another PREFIX than /usr and /usr/local the folders that are empty then
# make dist       packs the sources as they are committed
PREFIX = /usr/local
DESTDIR =
VERSION = 2.0.0

# Both are given to the shell as variables, so that they may have blanks and quotes.
export DESTDIR PREFIX
to = "$$DESTDIR$$PREFIX"
man = $(to)/share/man/man1
bash = $(to)/share/bash-completion/completions
zsh = $(to)/share/zsh/site-functions
fish = $(to)/share/fish/vendor_completions.d
below = share/man/man1 share/bash-completion/completions share/zsh/site-functions share/fish/vendor_completions.d

all:
	@tools/provide

test:
	@tools/check --without-kit

verify:
	@tools/release --verify

check:
	@tools/check

prove:
	tools/build

install:
	program=$$(tools/provide) && install -D -m 755 "$$program" $(to)/bin/pyast
	install -D -m 644 docs/pyast.1 $(man)/pyast.1
	install -D -m 644 completions/pyast.bash $(bash)/pyast
	install -D -m 644 completions/_pyast $(zsh)/_pyast
	install -D -m 644 completions/pyast.fish $(fish)/pyast.fish

uninstall:
	rm -f $(to)/bin/pyast $(man)/pyast.1 $(bash)/pyast $(zsh)/_pyast $(fish)/pyast.fish
	@case $(to) in /usr | /usr/local) ;; *) \
	  cd $(to) && rmdir -p bin $(below); \
	  if [ "$$DESTDIR" ]; then cd "$$DESTDIR" && rmdir -p ".$$PREFIX"; else rmdir "$$PREFIX"; fi ;; \
	esac 2>/dev/null || :

dist:
	git archive --prefix=pyast-$(VERSION)/ -o pyast-$(VERSION).tar.gz HEAD

.PHONY: all test verify check prove install uninstall dist
