#!/usr/bin/env bash
# Installs into folders of the given one, which are made anew, and builds the gateway's host from what is there, by the
# flags of the pkg-config file alone: against the archive, and against the shared library with a run path. Both have to
# print what is kept of the host. Header, pkg-config file, crate and Python package have to be of one version.
# Needs make, gcc, pkg-config and python3, and the archive or what `make` needs to build it; no network, no root.
#     install.sh FOLDER [ARGUMENTS OF make]
set -eu
unset CDPATH
[ $# -gt 0 ] || { echo 'usage: install.sh FOLDER [ARGUMENTS OF make]' >&2; exit 2; }
mkdir -p -- "$1"
folder=$(cd -- "$1" && pwd -P)
shift
cd -- "$(dirname -- "${BASH_SOURCE[0]}")/../.."

# Ends the test with a reason.
stop() {
    printf 'install.sh: %s\n' "$*" >&2
    exit 1
}

# What pkg-config says of the library that is installed under a prefix.
flags() { # PREFIX ARGUMENTS
    PKG_CONFIG_PATH=$1/lib/pkgconfig pkg-config "${@:2}" mdeh
}

# Builds the gateway's host by the flags of a prefix, away from the repository's header, and runs it.
host() { # PREFIX [ARGUMENTS OF gcc]
    local given
    read -ra given < <(flags "$1" --cflags --libs)
    cp embed/gateway.c "$1/host.c"
    gcc -std=c99 -Wall -Wextra -Werror -pedantic -O2 -o "$1/host" "$1/host.c" "${given[@]}" "${@:2}"
    rm "$1/host.c"
    "$1/host" | cmp - embed/gateway.out || stop "the host of $1 prints other than embed/gateway.out"
}

# Fails unless a file has this version.
same_version() { # FILE VERSION
    [ "$2" = "$version" ] || stop "$1 has version '$2', the header '$version'"
}

rm -rf -- "$folder/archive" "$folder/shared" "$folder/staged" "$folder/prefix"
make -s install PREFIX="$folder/archive" "$@"
make -s install PREFIX="$folder/shared" "$@"
make -s install PREFIX="$folder/prefix" DESTDIR="$folder/staged" "$@"

rm "$folder/archive/lib/libmdeh.so"
host "$folder/archive"
host "$folder/shared" "-Wl,-rpath,$folder/shared/lib"
readelf -d "$folder/shared/host" | grep -q 'NEEDED.*\[libmdeh\.so\]' || stop "the shared library is not the one linked"

readelf -d "$folder/shared/lib/libmdeh.so" | grep -q 'SONAME.*\[libmdeh\.so\]' || stop "the library has another soname"
modes=$(cd "$folder/shared" && stat -c '%a %n' include/mdeh.h lib/libmdeh.a lib/libmdeh.so lib/pkgconfig/mdeh.pc bin/mdeh)
[ "$(cut -d ' ' -f 1 <<<"$modes" | tr '\n' ' ')" = '644 644 755 644 755 ' ] || stop "installed with other modes: $modes"

# a staged folder has the same files, its pkg-config file names the prefix alone, and nothing is written there
staged=$folder/staged$folder/prefix
diff -r -x host -x mdeh.pc "$folder/shared" "$staged" || stop "DESTDIR has other files"
[ "$(flags "$staged" --variable=prefix)" = "$folder/prefix" ] || stop "mdeh.pc names another prefix"
[ ! -e "$folder/prefix" ] || stop "files are written to PREFIX without DESTDIR"

printf '#include <mdeh.h>\n#include <stdio.h>\nint main(void) { puts(MDEH_VERSION); return 0; }\n' >"$folder/version.c"
gcc -o "$folder/version" "$folder/version.c" "-I$folder/shared/include"
version=$("$folder/version")
same_version mdeh.pc "$(flags "$folder/shared" --modversion)"
same_version embed/rust/Cargo.toml "$(sed -n 's/^version = "\(.*\)"$/\1/p' embed/rust/Cargo.toml)"
same_version bin/mdeh "$(env -u MDEH_LIBRARY "$folder/shared/bin/mdeh" --version | sed 's/^mdeh //')"
printf 'code,slot\n30,2\n31,3\n' >"$folder/events.csv"
env -u MDEH_LIBRARY "$folder/shared/bin/mdeh" import "$folder/events.csv" -o "$folder/events.mdeh" >/dev/null
env -u MDEH_LIBRARY "$folder/shared/bin/mdeh" ask "$folder/events.mdeh" code=30 | grep -qx '1 record, 1 page read' ||
    stop "the command finds other than the row that is there"
cmp "$folder/shared/lib/libmdeh.so" "$folder/shared/share/mdeh/python/mdeh/libmdeh.so"

touch "$folder/shared/lib/another"
make -s uninstall PREFIX="$folder/shared"
[ "$(cd "$folder/shared" && find . -type f | sort | tr '\n' ' ')" = './host ./lib/another ' ] ||
    stop "uninstall leaves files behind, or removes others"
echo "installed and linked: version $version"
