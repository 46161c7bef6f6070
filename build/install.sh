#!/bin/sh
# Installs ti from the directory of its release, or removes it.
#
#     ./install.sh                      below /usr/local
#     PREFIX=/usr ./install.sh          below another directory
#     DESTDIR=/tmp/stage ./install.sh   as if DESTDIR were the root
#     ./install.sh uninstall
set -eu
cd "$(dirname "$0")"
target=${DESTDIR:-}${PREFIX:-/usr/local}
case ${1:-install} in
install)
    find bin include lib share -type f 2>/dev/null | while read -r file; do
        mode=644
        [ ! -x "$file" ] || mode=755
        mkdir -p "$target/$(dirname "$file")"
        install -m "$mode" "$file" "$target/$file"
    done
    find bin include lib share -type l 2>/dev/null | while read -r link; do
        mkdir -p "$target/$(dirname "$link")"
        ln -sf "$(readlink "$link")" "$target/$link"
    done
    # the pages name the directories of examples
    find share/doc -name '*.md' 2>/dev/null | while read -r page; do
        sed "s|/usr/share/|${PREFIX:-/usr/local}/share/|g" "$page" >"$target/$page"
    done
    # pkg-config has to find the library in its new place
    if [ -f lib/pkgconfig/ti.pc ]; then
        sed "s|=/usr|=${PREFIX:-/usr/local}|" lib/pkgconfig/ti.pc >"$target/lib/pkgconfig/ti.pc"
    fi
    # the loader finds a new library only after this
    if [ -z "${DESTDIR:-}" ] && [ -f lib/libti.so.2 ]; then
        PATH=$PATH:/sbin:/usr/sbin ldconfig 2>/dev/null ||
            echo "install.sh: run ldconfig as root, so that programs find libti.so.2" >&2
    fi
    ;;
uninstall)
    find bin include lib share -type f -o -type l 2>/dev/null | while read -r file; do
        rm -f "$target/$file"
    done
    find "$target/share/doc/ti" "$target/share/ti-lsp" -depth -type d -exec rmdir {} + 2>/dev/null || true
    ;;
*)
    echo "usage: [DESTDIR=DIR] [PREFIX=DIR] ./install.sh [uninstall]" >&2
    exit 2
    ;;
esac
