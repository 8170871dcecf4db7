# Builds the library for C and Python, times it and installs it: make, make bench, make install.
#
# An installation goes to PREFIX, an absolute path; DESTDIR before it is for whoever makes a package.
PREFIX = /usr/local
DESTDIR =
ifneq ($(words $(filter /%,$(PREFIX))):$(words $(PREFIX)),1:1)
$(error PREFIX is $(PREFIX): give it an absolute path without blanks)
endif

# The library is for x86-64, whatever the machine is.
ifneq ($(shell uname -m),x86_64)
CC = x86_64-linux-gnu-gcc
endif

library = target/staticlib/libquailribbon
# With their folders, which are newer where a file was taken out of them.
sources := $(shell find crates.txt crates/*/src crates/*/specs crates/*/proofs)
to = $(DESTDIR)$(PREFIX)

.PHONY: library bench install clean
.DELETE_ON_ERROR:

library: $(library).a $(library).so

$(library).a: $(sources)
	tools/prove $@ lib quailribbon

$(library).so: $(library).a
	$(CC) -shared -Wl,--whole-archive $< -Wl,--no-whole-archive -o $@

bench: library
	speed/run

install: library
	install -D -m 644 -t "$(to)/include" include/quailribbon.h
	install -D -m 644 -t "$(to)/lib" $(library).a
	install -D -m 755 -t "$(to)/lib" $(library).so
	install -D -m 644 -t "$(to)/python/quailribbon" python/quailribbon/*.py python/quailribbon/py.typed
	sed 's|@PREFIX@|$(PREFIX)|' include/quailribbon.pc.in >target/quailribbon.pc
	install -D -m 644 -t "$(to)/lib/pkgconfig" target/quailribbon.pc

clean:
	rm -rf target speed/target crates/*/out
