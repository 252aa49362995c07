#!/bin/sh
# Makes a package for Debian twice, and installs and removes it in a folder in place of the system.
#
# Needs: `dpkg-deb`, `dpkg`, `strip`.
#
# `make deb` proves and builds the program if that is needed, or takes the one that PROGRAM=F names, and makes a package: the
# program, the Python package with its command `gavyreto`, their man pages and completion for bash, and the documentation. It
# needs only libc and Python, so a machine without the toolchain can run what another one has proved. The same program and the
# same commit, or SOURCE_DATE_EPOCH, give the same bytes.
#
# For your own machine, `make deb` in the repository is enough, and then `apt install ./gavyreto_VERSION_ARCHITECTURE.deb`;
# `apt remove gavyreto` removes it.
#
# It prints fields of the package, what the installed program and command print, the files for `man` and for completion, and how
# many files are left in the end.
set -eu

SOURCE_DATE_EPOCH=1700000000 make deb > made && cp "$(cat made)" first.deb
SOURCE_DATE_EPOCH=1700000000 make deb > made && cmp first.deb "$(cat made)"
dpkg-deb --field first.deb Package Version Depends

rm -rf system
mkdir -p system/var/lib/dpkg/info system/var/lib/dpkg/updates
: > system/var/lib/dpkg/status
: > system/var/lib/dpkg/available
into() { PATH=$PATH:/usr/sbin:/sbin dpkg --root="$PWD/system" --force-not-root --force-script-chrootless --log=dpkg.log "$@" > dpkg.out 2>&1; }
into --force-depends --install first.deb
system/usr/bin/tds_replay export examples/first.tds
PYTHONPATH=system/usr/lib/python3/dist-packages system/usr/bin/gavyreto --version
ls system/usr/share/man/man1 system/usr/share/bash-completion/completions
into --remove gavyreto
find system -name '*tds_replay*' -o -name 'gavyreto*' -type f -not -path '*/dpkg/*' | wc -l
