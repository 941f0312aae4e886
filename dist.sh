#!/usr/bin/env bash
# Makes what a release page holds, from what build.sh proved and built: an archive of programs, libraries, header, manual
# pages, completions, and the guides and the API in HTML; Debian packages of the program, of the library and of the module for
# nginx, the wheel for Python, the module for Go, the crate for Rust with the library in it, and their sums. The same build gives the same bytes.
#
#   bash dist.sh [FOLDER [PREFIX]]
#
# FOLDER is build/dist where none is given, and PREFIX build, where build.sh installed.
set -euo pipefail
here=$(cd "$(dirname "$0")" && pwd)
prefix=${2:-$here/build}
for needed in bin/paseto lib/libpaseto.so.1 share/man/man1/paseto.1; do
    if [ ! -e "$prefix/$needed" ]; then
        echo "There is no $prefix/$needed: bash build.sh makes it" >&2
        exit 1
    fi
done
for tool in dpkg-deb cargo tar sha256sum strip; do
    command -v "$tool" >/dev/null || { echo "There is no $tool. On Debian: apt-get install dpkg cargo binutils" >&2; exit 1; }
done
mkdir -p "${1:-$here/build/dist}"
folder=$(cd "${1:-$here/build/dist}" && pwd)
version=$(cat "$here/VERSION")
# The address that SECURITY.md names, in its line of that name.
maintainer="Rivondra <$(sed -n 's/^Address: `\([^`]*\)`.*/\1/p' "$here/SECURITY.md")>"
# The moment of the last commit is that of every file; outside of a checkout it is the beginning of 2026.
SOURCE_DATE_EPOCH=$(git -C "$here" log -1 --format=%ct 2>/dev/null || echo 1767225600)
export SOURCE_DATE_EPOCH
work=$(mktemp -d)
trap 'rm -rf "$work"' EXIT
umask 022

# laid NAME FILE.. puts files of the prefix under usr/ of a package's folder, and the licence with them.
laid() {
    local root=$work/$1 file
    shift
    for file in "$@"; do
        install -D -m "$([ -x "$prefix/$file" ] && echo 755 || echo 644)" "$prefix/$file" "$root/usr/${file/#lib\//lib/x86_64-linux-gnu/}"
    done
}

# package NAME DEPENDS SUMMARY: a Debian package of a folder.
package() {
    local name=$1 root=$work/$1
    install -D -m 644 "$here/LICENSE" "$root/usr/share/doc/$name/copyright"
    gzip -9nc >"$root/usr/share/doc/$name/changelog.gz" <<END
$name ($version) unstable; urgency=medium

  * What changed stands in CHANGELOG.md of the repository.

 -- $maintainer  $(date -R -u -d "@$SOURCE_DATE_EPOCH")
END
    # While SECURITY.md has no address of its own yet.
    install -D -m 644 /dev/stdin "$root/usr/share/lintian/overrides/$name" <<<"$name: bogus-mail-host *
$name: bogus-mail-host-in-debian-changelog *"
    mkdir -p "$root/DEBIAN"
    cat >"$root/DEBIAN/control" <<END
Package: $name
Version: $version
Architecture: amd64
Maintainer: $maintainer
Section: utils
Priority: optional
Depends: $2
Description: $3
 PASETO tokens, versions 1 to 4, by a library that is proved.
END
    find "$root" -exec touch -h -d "@$SOURCE_DATE_EPOCH" {} +
    dpkg-deb --root-owner-group --build -Zxz "$root" "$folder/${name}_${version}_amd64.deb" >/dev/null
}

laid paseto bin/paseto bin/paseto_tool share/bash-completion/completions/paseto share/zsh/site-functions/_paseto \
    share/fish/vendor_completions.d/paseto.fish
for page in paseto.1 paseto_tool.1; do
    mkdir -p "$work/paseto/usr/share/man/man1"
    gzip -9nc "$prefix/share/man/man1/$page" >"$work/paseto/usr/share/man/man1/$page.gz"
done
strip --strip-unneeded "$work"/paseto/usr/bin/*
package paseto 'libc6 (>= 2.34)' 'keys in files, and PASETO tokens by them'
laid libpaseto1 lib/libpaseto.so.1
strip --strip-unneeded "$work/libpaseto1/usr/lib/x86_64-linux-gnu/libpaseto.so.1"
chmod 644 "$work/libpaseto1/usr/lib/x86_64-linux-gnu/libpaseto.so.1"
mkdir -p "$work/libpaseto1/DEBIAN"
echo "libpaseto 1 libpaseto1 (>= $version)" >"$work/libpaseto1/DEBIAN/shlibs"
echo 'activate-noawait ldconfig' >"$work/libpaseto1/DEBIAN/triggers"
package libpaseto1 'libc6 (>= 2.14)' 'library for PASETO tokens'
laid libpaseto-dev lib/libpaseto.a include/paseto.h
ln -s libpaseto.so.1 "$work/libpaseto-dev/usr/lib/x86_64-linux-gnu/libpaseto.so"
mkdir -p "$work/libpaseto-dev/usr/lib/x86_64-linux-gnu/pkgconfig" "$work/libpaseto-dev/usr/share/man/man3"
sed -e 's|^prefix=.*|prefix=/usr|; s|^libdir=.*|libdir=/usr/lib/x86_64-linux-gnu|' "$prefix/lib/pkgconfig/paseto.pc" \
    >"$work/libpaseto-dev/usr/lib/x86_64-linux-gnu/pkgconfig/paseto.pc"
for page in "$prefix"/share/man/man3/*.3; do
    gzip -9nc "$page" >"$work/libpaseto-dev/usr/share/man/man3/${page##*/}.gz"
done
package libpaseto-dev "libpaseto1 (= $version)" 'header and static library for PASETO tokens'

# The module for nginx, where nginx and its sources are: the package says for which nginx it is.
module=libnginx-mod-http-paseto
if [ -e /usr/share/nginx/src/conf_flags ]; then
    abi=$(dpkg-query -W -f '${Provides}' nginx | grep -o 'nginx-abi-[^ ,]*')
    bash "$here/bindings/nginx/build.sh" "$work/built" "$prefix" >/dev/null
    install -D -m 644 "$work/built/ngx_http_paseto_module.so" "$work/$module/usr/lib/nginx/modules/ngx_http_paseto_module.so"
    strip --strip-unneeded "$work/$module/usr/lib/nginx/modules/ngx_http_paseto_module.so"
    install -D -m 644 /dev/stdin "$work/$module/usr/share/nginx/modules-available/mod-http-paseto.conf" \
        <<<'load_module modules/ngx_http_paseto_module.so;'
    mkdir -p "$work/$module/etc/nginx/modules-enabled" "$work/$module/DEBIAN"
    ln -s /usr/share/nginx/modules-available/mod-http-paseto.conf "$work/$module/etc/nginx/modules-enabled/50-mod-http-paseto.conf"
    echo 'activate-noawait nginx-reload' >"$work/$module/DEBIAN/triggers"
    package "$module" "libc6 (>= 2.34), libpaseto1 (>= $version), $abi" 'PASETO tokens in nginx'
else
    echo 'no package for nginx: its sources are missing. On Debian: apt-get install nginx-dev' >&2
fi

archive=paseto-$version-x86_64-linux
mkdir "$work/$archive"
cp -a "$prefix/bin" "$prefix/lib" "$prefix/include" "$prefix/share" "$here/LICENSE" "$work/$archive"
find "$work/$archive/bin" -type f ! -name paseto ! -name paseto_tool -delete
bash "$here/docs/site.sh" "$work/$archive/share/doc/paseto/html" >/dev/null
tar -C "$work" --sort=name --mtime="@$SOURCE_DATE_EPOCH" --owner=0 --group=0 --numeric-owner -cf - "$archive" |
    gzip -9n >"$folder/$archive.tar.gz"

bash "$here/bindings/python/build.sh" "$folder" "$prefix" >/dev/null
cp -a "$here/bindings/rust" "$work/rust"
rm -rf "$work/rust/target"
install -D -m 644 "$prefix/lib/libpaseto.a" "$work/rust/lib/libpaseto.a"
cp "$here/LICENSE" "$work/rust"
bash "$here/bindings/rust/offline.sh" "$work/cargo"
(cd "$work/rust" && CARGO_HOME=$work/cargo cargo package --quiet --offline --no-verify --allow-dirty --target-dir "$work/target")
cp "$work"/target/package/*.crate "$folder"

# The module for Go is its folder, to be named by a `replace` of go.mod.
mkdir "$work/go" && cp -a "$here/bindings/go" "$work/go/paseto-proved-go-$version" && cp "$here/LICENSE" "$work/go/paseto-proved-go-$version"
tar -C "$work/go" --sort=name --mtime="@$SOURCE_DATE_EPOCH" --owner=0 --group=0 --numeric-owner -cf - "paseto-proved-go-$version" |
    gzip -9n >"$folder/paseto-proved-go-$version.tar.gz"

(cd "$folder" && sha256sum -- *.tar.gz *.deb *.whl *.crate | sort -k 2 >SHA256SUMS)
cat "$folder/SHA256SUMS"
