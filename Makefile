# Puts the built programs in place, and makes a release. tools/install and tools/release have the words; `tools/prove table_server table_keeper` builds.
PREFIX = /usr/local
RELEASE = thwartcornel.tar.gz
# Words of tools/install, as: make install WITH='--systemd --container'
WITH =

install:
	tools/install --prefix '$(PREFIX)' $(if $(DESTDIR),--destdir '$(DESTDIR)') $(WITH)

uninstall:
	tools/install --prefix '$(PREFIX)' $(if $(DESTDIR),--destdir '$(DESTDIR)') --uninstall

release:
	tools/release '$(RELEASE)'

.PHONY: install uninstall release
