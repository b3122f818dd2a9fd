#!/usr/bin/env bash
# What install.sh puts in place serves a program that knows of it by pkg-config alone, in C and in C++; with DESTDIR it is the same,
# below that folder. Needs `bash build.sh`.
set -euo pipefail
cd "$(dirname "$0")/.."
room=$PWD/target/installed
rm -rf "$room"
mkdir -p "$room"

# files FOLDER: those below it, one a line, with their modes
files() { (cd "$1" && find . -type f -printf '%m %p\n' | sort -k 2); }
wanted='644 ./include/mogtriz.h
644 ./lib/libmogtriz.a
644 ./lib/pkgconfig/mogtriz.pc'

# from another folder, to a folder named from there
(cd "$room" && bash ../../install.sh prefix >said)
diff <(files "$room/prefix") <(echo "$wanted")
diff <(sed "s|^$room/prefix/|644 ./|" "$room/said") <(echo "$wanted")

# the program is in a folder of its own, so that nothing of the repository is found beside it
cp examples/repair.c "$room"
export PKG_CONFIG_LIBDIR=$room/prefix/lib/pkgconfig
read -ra flags < <(pkg-config --cflags --libs mogtriz)
for compiler in 'g++ -std=c++17' 'cc -std=c99'; do
    # unquoted, as a compiler and its argument
    (cd "$room" && $compiler repair.c "${flags[@]}" -o repair && ./repair) | diff - examples/repair.out
done

# the version is the header's and the library's
cat >"$room/version.c" <<'END'
#include <mogtriz.h>
#include <stdio.h>
int main(void)
{
    printf("%d %zu\n", MOGTRIZ_VERSION, mogtriz_version());
    return 0;
}
END
cc "$room/version.c" "${flags[@]}" -o "$room/version"
version=$(pkg-config --modversion mogtriz)
diff <("$room/version") <(echo "$version $version")

# to a prefix of our own, so that nothing else is written to if DESTDIR is forgotten
(cd "$room" && DESTDIR=stage bash ../../install.sh "$room/later/" >said)
diff <(files "$room/stage$room/later") <(echo "$wanted")
diff <(sed "s|^prefix=.*|prefix=$room/later|" "$room/prefix/lib/pkgconfig/mogtriz.pc") \
    "$room/stage$room/later/lib/pkgconfig/mogtriz.pc"

# refused ARGUMENT..: nothing is installed, and it says why
script=../../install.sh
refused() {
    if (cd "$room" && bash "$script" "$@" >said 2>complaint) || [ -s "$room/said" ] || [ ! -s "$room/complaint" ]; then
        echo "install.sh was not to serve: $*"
        exit 1
    fi
}
refused
refused ""
refused "$room/a" "$room/b"
refused "$room/a b"
refused --help
refused "~/a"
refused "$room/a#b"
# no library has been made beside this one
mkdir "$room/bare"
cp -r install.sh include "$room/bare"
script=bare/install.sh
refused "$room/a"
diff <(cd "$room" && ls -d a* 2>/dev/null) /dev/null
echo "installed, version $version: $(echo "$wanted" | wc -l) files, found by pkg-config"
