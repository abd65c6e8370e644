#!/bin/sh
# Installs the proved program below a folder, with its helper scripts, man pages, completions, pages and samples. If ./prove library has made the library,
# that is installed too, with its header, its file for pkg-config, and the module for Python. If something is not made from the sources that are here, ./prove
# makes it first; if all is, neither the kit nor a compiler is needed.
#
# usage: ./install.sh PREFIX               installs all below PREFIX
#        ./install.sh --uninstall PREFIX   removes the files of an install, and the folders that are empty then
#
# If DESTDIR is in the environment, all is installed below DESTDIR/PREFIX, for the makers of packages. PREFIX/share/p25/installed lists the files.
set -eu
unset CDPATH
LC_ALL=C
export LC_ALL
umask 022
usage() {
    echo "usage: ./install.sh [--uninstall] PREFIX" >&2
    exit 1
}
uninstall=no
if [ "${1-}" = --uninstall ]; then
    uninstall=yes
    shift
fi
case $#${1-} in
    1?*) ;;
    *) usage ;;
esac
case $1 in
    -*) usage ;;
esac
top=$(cd -- "$(dirname -- "$0")" && pwd)
root=${DESTDIR-}$1
list=share/p25/installed

# Removes each file of the list, and then each folder that had one and is empty.
take_away() {
    if [ ! -f "$root/$list" ]; then
        echo "install.sh: nothing to take away: there is no $root/$list" >&2
        exit 1
    fi
    paths=$(cat -- "$root/$list" && echo "$list")
    printf '%s\n' "$paths" | while IFS= read -r path; do
        rm -f -- "$root/$path"
        # The files that Python made of a module.
        case $path in
            *.py) rm -rf -- "$root/${path%/*}/__pycache__" ;;
        esac
    done
    printf '%s\n' "$paths" | while IFS= read -r path; do
        while [ "$path" != "${path%/*}" ]; do
            path=${path%/*}
            rmdir -- "$root/$path" 2>/dev/null || break
        done
    done
    echo "took away what was installed under $1"
}

if [ "$uninstall" = yes ]; then
    take_away "$1"
    exit
fi

"$top/prove"
mkdir -p -- "$root/share/p25"
made=$(mktemp)
trap 'rm -f -- "$made"' EXIT
: >"$root/$list.new"

# Copies the file $2 to $3 below the folder, with the mode $1.
put() {
    mkdir -p -- "$root/${3%/*}"
    cp -- "$2" "$root/$3.new"
    chmod "$1" "$root/$3.new"
    mv -f -- "$root/$3.new" "$root/$3"
    printf '%s\n' "$3" >>"$root/$list.new"
}

# Makes $2 below the folder a second name, by a symbolic link to $1 beside it.
name_too() {
    ln -sf -- "$1" "$root/$2"
    printf '%s\n' "$2" >>"$root/$list.new"
}

put 755 "$top/out/p25" bin/p25
"$top/packaging/man" >"$made"
put 644 "$made" share/man/man1/p25.1
echo "installed $1/bin/p25 and $1/share/man/man1/p25.1"

# Beside it the helper scripts, the completions for shells, the pages, the samples and the release.
completions=share/bash-completion/completions
put 644 "$top/companions/completion.bash" $completions/p25
if [ -f "$top/companions/completion.zsh" ]; then
    put 644 "$top/companions/completion.zsh" share/zsh/site-functions/_p25
fi
for companion in "$top"/companions/p25-*; do
    put 755 "$companion" "bin/${companion##*/}"
    name_too p25 "$completions/${companion##*/}"
    if [ -x "$top/companions/page_of" ]; then
        "$top/companions/page_of" "$companion" >"$made"
        put 644 "$made" "share/man/man1/${companion##*/}.1"
    fi
done
# In an installed page the commands are those of an installation, and the links lead to installed files.
for page in docs/RECIPES.md docs/FORMATS.md docs/WEAK.md; do
    "$top/packaging/page" "$top/$page" >"$made"
    put 644 "$made" "share/p25/${page##*/}"
done
for picture in rate.png weak-found.png weak-whole.png; do
    put 644 "$top/docs/$picture" "share/p25/$picture"
done
put 644 "$top/RELEASE" share/p25/RELEASE
# The modules that the helper scripts share, and the parts of the page that p25-page makes.
for part in "$top"/companions/*.py; do
    put 644 "$part" "share/p25/${part##*/}"
done
for part in "$top"/companions/p25_page/*; do
    put 644 "$part" "share/p25/p25_page/${part##*/}"
done
for sample in "$top"/samples/*; do
    put 644 "$sample" "share/p25/samples/${sample##*/}"
done
# In the installed page of the samples, the commands run in the folder of the samples.
"$top/packaging/page" "$top/samples/README.md" >"$made"
put 644 "$made" share/p25/samples/README.md
echo "installed the helper scripts p25-* beside it, and the recipes and samples in $1/share/p25"

# The library, brought up to date, with its header and its file for pkg-config.
if [ -f "$top/out/libp25.a" ]; then
    "$top/prove" library
    release=$(sed 's/.* //' "$top/RELEASE")
    put 644 "$top/bindings/p25.h" include/p25.h
    put 644 "$top/out/libp25.a" lib/libp25.a
    cat >"$made" <<END
prefix=\${pcfiledir}/../..
includedir=\${prefix}/include
libdir=\${prefix}/lib

Name: p25
Description: the Project 25 Common Air Interface, by a proved library
Version: $release
Cflags: -I\${includedir}
Libs: -L\${libdir} -lp25
END
    put 644 "$made" lib/pkgconfig/p25.pc
    put 644 "$top/bindings/p25-config.cmake" lib/cmake/p25/p25-config.cmake
    cat >"$made" <<END
set(PACKAGE_VERSION $release)
if(PACKAGE_FIND_VERSION VERSION_GREATER PACKAGE_VERSION OR NOT PACKAGE_FIND_VERSION_MAJOR STREQUAL "${release%%.*}")
  set(PACKAGE_VERSION_COMPATIBLE FALSE)
else()
  set(PACKAGE_VERSION_COMPATIBLE TRUE)
endif()
END
    put 644 "$made" lib/cmake/p25/p25-config-version.cmake
    "$top/packaging/page" "$top/docs/LIBRARY.md" >"$made"
    put 644 "$made" share/p25/LIBRARY.md
    for program in show.c codes.c recorder.c recorder.py; do
        put 644 "$top/bindings/$program" "share/p25/examples/$program"
    done
    echo "installed the library for C under $1/lib and $1/include"
fi

# The shared library: by its whole number, by the name that programs load, and by the name that a linker looks for.
if [ -f "$top/out/libp25.a" ] && [ -f "$top/out/libp25.so" ]; then
    put 644 "$top/out/libp25.so" "lib/libp25.so.$release"
    name_too "libp25.so.$release" "lib/libp25.so.${release%%.*}"
    name_too "libp25.so.${release%%.*}" lib/libp25.so
    echo "a program that is linked with -lp25 starts if $1/lib is searched: by LD_LIBRARY_PATH, by -Wl,-rpath, or by ldconfig"
    # The folder in which Python looks below PREFIX; P25_PYTHON names another one below it.
    modules=${P25_PYTHON-$(python3 -c 'import sysconfig; print(sysconfig.get_path("purelib", "posix_prefix", {"base": "/base"})[6:])' 2>/dev/null)} || modules=
    if [ -n "$modules" ]; then
        for file in "$top"/bindings/p25/*.py "$top"/bindings/p25/py.typed; do
            put 644 "$file" "$modules/p25/${file##*/}"
        done
        echo "use the module for Python by: PYTHONPATH=\"$1/$modules\" python3 -m p25 FILE"
    fi
fi
mv -f -- "$root/$list.new" "$root/$list"
echo "read the manual by: man -M '$1/share/man' p25"
