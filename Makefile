# `make` builds the programs in C over the archive of the registry, `make check` runs them: c/programs.mk. `make library`, `make install`, `make installcheck`,
# `make uninstall` and `make dist` are packaging/install.mk's. In the repository tools/build-archive.sh makes the archive first; a release has it.

TOP =
all:
include packaging/places.mk
include c/programs.mk
include packaging/install.mk
