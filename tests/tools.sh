#!/bin/sh
# Sourced or run: installs the C compiler and pkg-config where they are missing, and sets CC, CFLAGS, LDFLAGS, NM,
# OBJDUMP and RUN; and GCC and CLANG for the benchmark, which calls need_gcc_and_clang before it uses them.
# The archive is for x86-64, so an Arm host compiles what links it for x86-64 and runs these programs under qemu; cc is the host's own.

set -eu

is_there() {
    command -v "$1" >/dev/null 2>&1
}

cannot_install() {
    echo "tests/tools.sh: can't install; these Debian packages are needed: $*" >&2
    exit 1
}

install_packages() {
    as_root=
    if [ "$(id -u)" -ne 0 ]; then
        is_there sudo || cannot_install "$@"
        as_root=sudo
    fi
    is_there apt-get || cannot_install "$@"
    echo "tests/tools.sh: installing $*" >&2
    $as_root apt-get update -qq >&2 || cannot_install "$@"
    $as_root env DEBIAN_FRONTEND=noninteractive apt-get install -qq -y --no-install-recommends "$@" >&2 ||
        cannot_install "$@"
}

# The compiler answers with a whole path only if it finds the file.
has_static_libc() {
    case $("$1" -print-file-name=libc.a) in
    */*) return 0 ;;
    *) return 1 ;;
    esac
}

has_cross_tools() {
    is_there x86_64-linux-gnu-gcc && has_static_libc x86_64-linux-gnu-gcc && is_there qemu-x86_64
}

# Debian's gcc comes without the C library's headers.
has_c() {
    is_there cc && echo '#include <stdio.h>' | cc -E - >/dev/null 2>&1
}

# Nothing but the benchmark needs clang, nor gcc where cc is another compiler.
need_gcc_and_clang() {
    is_there "$GCC" || install_packages gcc libc6-dev
    is_there clang || install_packages clang
}

CFLAGS="-std=c11 -O3 -Wall -Wextra"

case $(uname -m) in
x86_64)
    CC=cc
    GCC='gcc'
    CLANG='clang'
    NM='nm'
    OBJDUMP='objdump'
    LDFLAGS=
    RUN=
    ;;
aarch64)
    has_cross_tools || install_packages gcc-x86-64-linux-gnu libc6-dev-amd64-cross qemu-user
    CC=x86_64-linux-gnu-gcc
    GCC=$CC
    CLANG='clang --target=x86_64-linux-gnu -isystem /usr/x86_64-linux-gnu/include'
    NM=x86_64-linux-gnu-nm
    OBJDUMP=x86_64-linux-gnu-objdump
    LDFLAGS=-static
    RUN=qemu-x86_64
    ;;
*)
    echo "tests/tools.sh: the archive is for x86-64, and there are no tools for a $(uname -m) host" >&2
    exit 1
    ;;
esac

has_c || install_packages gcc libc6-dev
is_there pkg-config || install_packages pkg-config
