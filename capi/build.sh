#!/bin/sh
# Builds capi/out/libsrm.a, libsrm.so.0 and srm.pc. The libraries define the names of srm.h and no others.
#
#   python3 tools/archive.py srm_ffi   # first: proves and builds what they are made of
#   capi/build.sh                      # CC: the C compiler; PREFIX: where it is to be installed; KIT_C: the kit's folder of C libraries
set -eu
cd "$(dirname "$0")"
: "${CC:=cc}" "${PREFIX:=/usr/local}"
archive=../crates/srm_ffi/out/libsrm_ffi.a
if [ ! -e "$archive" ]; then
    echo "capi/build.sh: $archive isn't there: run python3 tools/archive.py srm_ffi" >&2
    exit 1
fi
if [ -z "${KIT_C:-}" ]; then
    page=$(rt doc) || { echo "capi/build.sh: there is no rt on the path: set KIT_C to the c folder of the Rattle kit" >&2; exit 1; }
    KIT_C=$(dirname "$page")/c # the page stands at the kit's top
fi
mkdir -p out
sed -n 's/^SRM_.*[ *]\(srm_[a-z_]*\)(.*/\1/p' srm.h | sort > out/names
version=$(sed -n 's/^#define SRM_VERSION_[MP][A-Z]* \([0-9]*\).*/\1/p' srm.h | paste -sd .)
# shellcheck disable=SC2086
$CC -std=c11 -O2 -Wall -Wextra -Wconversion -Wshadow -fPIC ${CFLAGS:-} -c srm.c -o out/srm.o
# One object, of which only the header's names are seen: a program may link another Rattle library beside it.
ld -r -o out/whole.o out/srm.o --whole-archive "$archive" --no-whole-archive "$KIT_C/liblibc_c.a"
objcopy --keep-global-symbols=out/names out/whole.o
rm -f out/libsrm.a
ar rcsD out/libsrm.a out/whole.o
$CC -shared -Wl,-soname,libsrm.so.0 -Wl,-z,defs -Wl,-z,now -Wl,-z,relro -o out/libsrm.so.0 out/whole.o
ln -sf libsrm.so.0 out/libsrm.so
cat > out/srm.pc <<PC
prefix=$PREFIX
libdir=\${prefix}/lib
includedir=\${prefix}/include

Name: srm
Description: One member of a session of Scalable Reliable Multicast
Version: $version
Libs: -L\${libdir} -lsrm
Cflags: -I\${includedir}
PC
