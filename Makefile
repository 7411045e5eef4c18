# make install [PREFIX=/usr/local] [DESTDIR=]: puts Trovimbe below PREFIX. In a checkout the package is made first, which proves each program where
# that is due; in a package it is the folder itself. make uninstall takes away what install put there. Who installs as root, without the kit on PATH,
# makes the package first: make package, and then, as root, make -C target/package install.
PREFIX ?= /usr/local
DESTDIR ?=
root = $(DESTDIR)$(PREFIX)
home = $(root)/lib/trovimbe
package = $(if $(wildcard PACKAGE.txt),.,target/package)

# The links that install makes below PREFIX, each with what it holds; and a loop over them, in which the link is $at and what it holds $to.
links = bin/trovimbe=../lib/trovimbe/trovimbe share/man/man1/trovimbe.1=../../../lib/trovimbe/docs/trovimbe.1 \
	share/bash-completion/completions/trovimbe=../../../lib/trovimbe/completion/trovimbe.bash
each = for link in $(links); do at="$(root)/$${link%%=*}" to="$${link\#*=}";
ours = [ "$$(readlink "$$at")" = "$$to" ]

.PHONY: package install uninstall

package:
	[ -f PACKAGE.txt ] || { rm -rf target/package && ./trovimbe package target/package; }

# What is there and is no Trovimbe is left alone. Everybody may read what is installed, whatever the umask is, here or where the folder came from.
install: package
	[ ! -e "$(home)" ] || [ -f "$(home)/PACKAGE.txt" ] || { echo "$(home) is there, and is no package of Trovimbe" >&2; exit 1; }
	$(each) $(ours) || { [ ! -e "$$at" ] && [ ! -L "$$at" ]; } || { echo "$$at is there, and is no link of Trovimbe" >&2; exit 1; }; done
	rm -rf "$(home).new"
	umask 022 && mkdir -p "$(home).new" && cp -R "$(package)/." "$(home).new" && chmod -R u+w,a+rX "$(home).new"
	rm -rf "$(home)"
	mv "$(home).new" "$(home)"
	umask 022; $(each) mkdir -p "$${at%/*}" && ln -sfn "$$to" "$$at" || exit; done

uninstall:
	[ -f "$(home)/PACKAGE.txt" ] || { echo "$(home) is no package of Trovimbe" >&2; exit 1; }
	$(each) ! $(ours) || rm -f "$$at" || exit; done
	rm -rf "$(home)"
