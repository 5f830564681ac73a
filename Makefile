# make install PREFIX=DIR copies the program, the launcher and the front in Python below DIR; make uninstall PREFIX=DIR removes them.
PREFIX ?= /usr/local

.PHONY: install uninstall
install:
	bash tools/install.sh "$(DESTDIR)$(PREFIX)"

uninstall:
	rm -rf "$(DESTDIR)$(PREFIX)/lib/yitrovana" "$(DESTDIR)$(PREFIX)/bin/yitrovana"
