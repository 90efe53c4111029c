# Installs what was built, and makes a package of it: docs/OPERATION.md, "Installing, and a newer program".
#   make install [PREFIX=/usr/local] [DESTDIR=]   below DESTDIR and PREFIX
#   make check [PREFIX=/usr/local] [DESTDIR=]     looks at what was installed there
#   make deb                                      a package for Debian, in out/, below /usr
# With UNPROVED=yes it is the program that was built without a proof, and names and versions say so. `romp801 --build` builds the
# program; nothing is built here.
PREFIX = /usr/local
DESTDIR =
UNPROVED =
launcher = ./romp801 $(if $(UNPROVED),--unproved)

install:
	$(launcher) --install "$(DESTDIR)$(PREFIX)"

check:
	checks/installed "$(DESTDIR)$(PREFIX)"

deb:
	rm -rf out/deb
	$(launcher) --install out/deb/usr
	packaging/debian out/deb

.PHONY: install check deb
