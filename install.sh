#!/usr/bin/env bash
# Installs the header, the static library and a file for pkg-config in PREFIX/include, PREFIX/lib and PREFIX/lib/pkgconfig.
# Usage: bash install.sh PREFIX, after `bash build.sh`. With DESTDIR in the environment the three go below that folder,
# as for a package, and still name PREFIX.
set -euo pipefail
usage() {
    echo "usage: bash install.sh PREFIX" >&2
    exit 2
}
[ $# -eq 1 ] || usage
# nothing, a word that is meant for an option, or a home folder that the shell left as it stood
case $1 in
    "" | -* | "~"*) usage ;;
esac
# absolute PATH: the path from the root, without a slash at its end; both are meant from the folder of the caller
absolute() {
    case $1 in
        /*) echo "${1%/}" ;;
        *) echo "$PWD/${1%/}" ;;
    esac
}
prefix=$(absolute "$1")
stage=${DESTDIR:+$(absolute "$DESTDIR")}
# pkg-config takes these for the end of a word, a comment, or something of its own
case $prefix in
    *[[:space:]\"\'\\\$\#]*)
        echo "install.sh: a file for pkg-config cannot name this folder: $prefix" >&2
        exit 1
        ;;
esac
cd "$(dirname "$0")"
archive=target/staticlib/libmogtriz.a
if [ ! -e "$archive" ]; then
    echo "install.sh: \`bash build.sh\` makes the missing $archive" >&2
    exit 1
fi

# the version stands in the header alone
version=$(sed -n 's/^#define MOGTRIZ_VERSION \([0-9]*\)$/\1/p' include/mogtriz.h)
[ -n "$version" ]

pkg_config_file() {
    cat <<END
prefix=$prefix
includedir=\${prefix}/include
libdir=\${prefix}/lib

Name: mogtriz
Description: data blocks spread over nodes by XOR, boxes of nodes, and repair by pairs
Version: $version
Cflags: -I\${includedir}
Libs: -L\${libdir} -lmogtriz
END
}

# put PLACE FILE: the file, readable by all, in its place below the prefix
put() {
    install -D -m 644 "$2" "$stage$prefix/$1"
    echo "$stage$prefix/$1"
}

put include/mogtriz.h include/mogtriz.h
put lib/libmogtriz.a "$archive"
put lib/pkgconfig/mogtriz.pc <(pkg_config_file)
