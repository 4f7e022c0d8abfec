# The library and an example host in C: make. Its tests: make test. Then: make install PREFIX=/usr/local
PREFIX = /usr/local

run test restart sane install:
	@$(MAKE) --no-print-directory -C host $@ PREFIX=$(PREFIX) DESTDIR=$(DESTDIR)

.PHONY: run test restart sane install
