# Packages and an installation of what `rt ci` has proved and built; see README.md.
PREFIX ?= /usr/local

package:
	tools/package

install:
	tools/package --install "$(DESTDIR)$(PREFIX)"

.PHONY: package install
