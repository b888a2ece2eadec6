# Installs the headers, the archive for a machine, what pkg-config and CMake find them by, and plancheck and lexlist with their manual pages;
# from the repository, once `.ci/archive` made the archive, or from the folder that dist/make makes, where it lies already. lexlist is for
# x86-64 alone, and is installed where it lies: in that folder, or after `rt run` in crates/lexlist in the repository.
#
#     make plancheck                                      target/plancheck, by the C compiler CC
#     make install PREFIX=/usr/local [TARGET=x86_64-linux-gnu] [DESTDIR=]
# TARGET is x86_64-linux-gnu, aarch64-linux-gnu or riscv64-linux-gnu; this machine's, if it is not said.
PREFIX = /usr/local
TARGET = $(shell uname -m)-linux-gnu
DESTDIR =

made = lib/$(TARGET) target/$(TARGET)
lister = bin/$(TARGET)/lexlist
ifeq ($(TARGET),x86_64-linux-gnu)
made += target/staticlib
lister += crates/lexlist/out/lexlist
endif
# the archive's file, asked when it is wanted: the rule before it may have made it
archive = $$(ls $(addsuffix /libmihadrena.a,$(made)) 2>/dev/null | head -n 1)
part = $(shell sed -n 's/^.define MIHADRENA_VERSION_$(1) //p' include/mihadrena.h)
version = $(call part,MAJOR).$(call part,MINOR).$(call part,PATCH)
filled = sed -e 's|@PREFIX@|$(PREFIX)|g' -e 's|@VERSION@|$(version)|g'
to = $(DESTDIR)$(PREFIX)

.PHONY: install plancheck version
plancheck:
	@test -n "$(archive)" || .ci/archive $(if $(filter-out x86_64-linux-gnu,$(TARGET)),--target $(TARGET))
	mkdir -p target
	$(CC) -std=c99 -O2 -Iinclude plancheck/plancheck.c "$(archive)" -o target/plancheck

install: plancheck
	mkdir -p $(to)/bin $(to)/share/man/man1
	cp target/plancheck $(to)/bin/
	cp plancheck/plancheck.1 $(to)/share/man/man1/
	for lexlist in $(wildcard $(lister)); do cp "$$lexlist" $(to)/bin/ && cp dist/lexlist.1 $(to)/share/man/man1/ && break; done
	mkdir -p $(to)/include $(to)/lib/pkgconfig $(to)/lib/cmake/mihadrena $(to)/share/doc/mihadrena
	cp include/mihadrena.h include/mihadrena_plan.h $(to)/include/
	cp "$(archive)" $(to)/lib/
	$(filled) dist/mihadrena.pc.in > $(to)/lib/pkgconfig/mihadrena.pc
	$(filled) dist/mihadrena-config.cmake.in > $(to)/lib/cmake/mihadrena/mihadrena-config.cmake
	$(filled) dist/mihadrena-config-version.cmake.in > $(to)/lib/cmake/mihadrena/mihadrena-config-version.cmake
	cp NOTICE $(to)/share/doc/mihadrena/

version:
	@echo $(version)
