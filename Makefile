# What there is to do here, under the names that are usual. ./build, ./check and ./psa say more.
#
#   make             proves and builds the program (./build)
#   make check       proves and tries everything (./check)
#   make install     puts the proved program and its manual page below PREFIX, which is /usr/local where none is given;
#                    DESTDIR, where it is given, stands before PREFIX
#   make uninstall   removes these two files
#   make help        prints this

PREFIX = /usr/local
bin = $(DESTDIR)$(PREFIX)/bin
man1 = $(DESTDIR)$(PREFIX)/share/man/man1

.PHONY: build check install uninstall help

build:
	@./build

check:
	@./check

# It proves nothing itself: who may write to PREFIX is often root, who should neither own nor run what is made here.
install:
	@./build --is-proved || { echo "make: the program isn't proved from these sources: run ./build first" >&2; exit 1; }
	install -D -m 755 crates/psa_host/out/psa_host '$(bin)/psa_host'
	install -D -m 644 docs/psa_host.1 '$(man1)/psa_host.1'

uninstall:
	rm -f -- '$(bin)/psa_host' '$(man1)/psa_host.1'

help:
	@sed -n 's/^#   //p' Makefile
