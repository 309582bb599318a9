# Installs castd: docs/OPERATIONS.md says how, under "Installing".
PREFIX = /usr/local
DESTDIR =
CC = cc
AR = ar
CFLAGS = -O2 -Wall -Wextra -fPIC

.PHONY: all install uninstall release

# Proves and builds the program, in 44 minutes on four cores, where it is not what its sources give.
all: out/libcastd.a
	tools/build castd

out/libcastd.a: clients/c/castd.c clients/c/castd.h
	mkdir -p out
	$(CC) -std=c11 -D_POSIX_C_SOURCE=200809L $(CFLAGS) -c -o out/castd.o clients/c/castd.c
	rm -f $@
	$(AR) rcsD $@ out/castd.o

install: out/libcastd.a
	tools/install --prefix '$(PREFIX)' --destdir '$(DESTDIR)'

# Removes exactly what install wrote.
uninstall:
	tools/install --remove --prefix '$(PREFIX)' --destdir '$(DESTDIR)'

# Packs what is installed below /usr/local: make release VERSION=0.1.0
release: out/libcastd.a
	tools/release '$(VERSION)'
