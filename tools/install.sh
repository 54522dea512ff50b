#!/usr/bin/env bash
# Builds the archive and installs it with its header and a pkg-config file: tools/install.sh PREFIX
set -eu
if [ $# -ne 1 ]; then
    echo "usage: tools/install.sh PREFIX" >&2
    exit 2
fi
mkdir -p "$1"
prefix=$(cd "$1" && pwd)
cd "$(dirname "$0")/.."
version=$(sed -n 's/^#define WHERRYOAR_VERSION_[A-Z]* \([0-9]*\)$/\1/p' include/wherryoar.h | paste -sd .)

. tools/build.sh
build_archive # unless the caller has just built it and says so
mkdir -p "$prefix/include" "$prefix/lib/pkgconfig"
install -m 644 include/wherryoar.h "$prefix/include/wherryoar.h"
install -m 644 target/staticlib/libdoor.a "$prefix/lib/libwherryoar.a"
# The prefix is found from the file's own place, so that the folder can be moved.
cat >"$prefix/lib/pkgconfig/wherryoar.pc" <<END
prefix=\${pcfiledir}/../..
includedir=\${prefix}/include
libdir=\${prefix}/lib

Name: wherryoar
Description: Proved model of Microchip's MSSP as an I2C slave, for C on x86-64
Version: $version
Cflags: -I\${includedir}
Libs: -L\${libdir} -lwherryoar
END
chmod 644 "$prefix/lib/pkgconfig/wherryoar.pc"
echo "installed wherryoar $version under $prefix"
