#!/usr/bin/env bash
# Makes what dist.sh makes, twice, and compares; installs the Debian packages into a fresh root by dpkg, makes and checks a token
# there, by the program and by a program in C, with no toolchain, and removes them again. The last line is
# 'N passed, M failed'.
#
#   tests/dist.sh PREFIX
#
# PREFIX is where build.sh installed.
set -uo pipefail
root=$(cd "$(dirname "$0")/.." && pwd)
. "$root/tests/counts.sh"
prefix=$(cd "${1:?usage: tests/dist.sh PREFIX}" && pwd)
work=$(mktemp -d)
trap 'rm -rf "$work"' EXIT
for tool in dpkg-deb:dpkg cargo:cargo cc:gcc pkg-config:pkg-config objdump:binutils; do needs "${tool%:*}" "${tool#*:}"; done

for turn in one two; do
    if bash "$root/dist.sh" "$work/$turn" "$prefix" >"$work/log" 2>&1; then pass; else fail "dist.sh: $(tail -n 3 "$work/log")"; finish; fi
done
if diff "$work/one/SHA256SUMS" "$work/two/SHA256SUMS" >"$work/log"; then pass; else fail "two runs differ: $(cat "$work/log")"; fi
# Without the sources of nginx there is no package of the module.
if [ -e /usr/share/nginx/src/conf_flags ]; then files=8; else files=7; echo 'there is no nginx-dev: the module for nginx is not packed'; fi
if [ "$(wc -l <"$work/one/SHA256SUMS")" = "$files" ]; then pass; else fail "not $files files: $(cat "$work/one/SHA256SUMS")"; fi
if (cd "$work/one" && sha256sum --quiet -c SHA256SUMS) >"$work/log" 2>&1; then pass; else fail "the sums: $(cat "$work/log")"; fi

if command -v lintian >/dev/null; then
    faults=$(lintian --fail-on error "$work"/one/*.deb 2>&1 | grep '^E: ')
    if [ -z "$faults" ]; then pass; else fail "lintian: $faults"; fi
else
    echo 'there is no lintian: it is not asked'
fi

# A fresh root, whose packages are known to have the C library of this machine and nothing else.
fresh=$work/fresh
mkdir -p "$fresh/var/lib/dpkg/info" "$fresh/var/lib/dpkg/updates"
cat >"$fresh/var/lib/dpkg/status" <<STATUS
Package: libc6
Status: install ok installed
Maintainer: nobody <nobody@localhost>
Architecture: amd64
Version: $(getconf GNU_LIBC_VERSION | cut -d ' ' -f 2)
Description: the C library of this machine

Package: nginx
Status: install ok installed
Maintainer: nobody <nobody@localhost>
Architecture: amd64
Version: 1.22.1
Provides: $(dpkg-query -W -f '${Provides}' nginx 2>/dev/null || echo nginx-abi-none)
Description: the nginx of this machine
STATUS
in_root() {
    PATH=$PATH:/usr/sbin:/sbin dpkg --root="$fresh" --log=/dev/null --force-not-root --force-script-chrootless "$@" >"$work/log" 2>&1
}
if in_root --install "$work"/one/*.deb; then pass; else fail "dpkg --install: $(tail -n 3 "$work/log")"; fi
for package in paseto libpaseto1 libpaseto-dev; do
    in_root --status $package
    if grep -qx 'Status: install ok installed' "$work/log"; then pass; else fail "$package is not installed: $(tail -n 3 "$work/log")"; fi
done
cd "$work" || exit 1
export PATH=/usr/bin:/bin
if [ "$files" = 8 ]; then
    in_root --status libnginx-mod-http-paseto
    if grep -qx 'Status: install ok installed' "$work/log"; then pass; else fail "the module is not installed: $(tail -n 3 "$work/log")"; fi
    is 'what nginx loads' "$(cat "$fresh$(readlink "$fresh/etc/nginx/modules-enabled/50-mod-http-paseto.conf")")" 'load_module modules/ngx_http_paseto_module.so;'
    printf 'load_module %s;\npid %s/pid;\nerror_log stderr;\nevents { }\nhttp { paseto off; access_log off; }\n' "$fresh/usr/lib/nginx/modules/ngx_http_paseto_module.so" "$work" >nginx.conf
    if LD_LIBRARY_PATH=$fresh/usr/lib/x86_64-linux-gnu /usr/sbin/nginx -t -p "$work" -c "$work/nginx.conf" >log 2>&1; then pass; else fail "nginx with the module of the package: $(tail -n 2 log)"; fi
fi
paseto=$fresh/usr/bin/paseto
"$paseto" keygen v4.local --quiet --out key && "$paseto" issue --key key --claim sub=ada --out token
if "$paseto" check --key key --claim sub=ada token | grep -q '"sub":"ada"'; then pass; else fail 'the program of the package'; fi
cat >client.c <<'END'
#include <paseto.h>
#include <string.h>

int main(void) {
    struct paseto_key key;
    uint8_t token[512], text[512];
    size_t n, m;
    if (paseto_version() != PASETO_VERSION) return 1;
    if (paseto_key_generate(4, PASETO_KEY_LOCAL, &key, PASETO_NO_REASON)) return 2;
    if (paseto_encrypt(&key, "hello", 5, NULL, 0, NULL, 0, token, sizeof token, &n, PASETO_NO_REASON)) return 3;
    if (paseto_decrypt(&key, token, n, NULL, 0, NULL, 0, text, sizeof text, &m, PASETO_NO_REASON)) return 4;
    paseto_key_wipe(&key);
    return m != 5 || memcmp(text, "hello", 5) != 0;
}
END
lib=$fresh/usr/lib/x86_64-linux-gnu
if cc -I "$fresh/usr/include" -o client client.c -L "$lib" -lpaseto 2>"$work/log" && LD_LIBRARY_PATH=$lib ./client; then pass; else fail "a program in C over the packages: $(tail -n 3 "$work/log")"; fi
if cc -I "$fresh/usr/include" -o client client.c "$lib/libpaseto.a" 2>"$work/log" && ./client; then pass; else fail "a program in C over libpaseto.a: $(tail -n 3 "$work/log")"; fi
# The program of README.md by the line that stands there, in which only the root is another.
mkdir readme && python3 "$root/tests/readme.py" c >readme/first.c && python3 "$root/tests/readme.py" sh first.c >readme/block
found=$(cd readme && PKG_CONFIG_LIBDIR=$lib/pkgconfig PKG_CONFIG_SYSROOT_DIR=$fresh LD_LIBRARY_PATH=$lib bash -e block 2>"$work/log")
is 'the program of README.md over the packages' "$(sed -E 's/"(exp|iat|nbf)":"[^"]*"/"\1":"T"/g' <<<"$found")" '{"exp":"T","iat":"T","nbf":"T","sub":"ada"}'
pages=$(find "$fresh/usr/share/man/man3" -name 'paseto_*.3.gz' | wc -l)
is 'the pages of the calls' "$pages" "$(find "$prefix/share/man/man3" -name 'paseto_*.3' | wc -l)"
packages=(paseto libpaseto1 libpaseto-dev)
[ "$files" = 7 ] || packages+=(libnginx-mod-http-paseto)
if in_root --purge "${packages[@]}"; then pass; else fail "dpkg --purge: $(tail -n 3 "$work/log")"; fi
left=$(find "$fresh" -type f ! -path "$fresh/var/*")
if [ -z "$left" ]; then pass; else fail "files that are left: $left"; fi
if tar -tzf one/*.crate | grep '/lib/libpaseto\.a$' >/dev/null; then pass; else fail 'the crate for Rust has no library'; fi
mkdir archive && tar -C archive -xzf one/paseto-[0-9]*.tar.gz
if tar -tzf one/paseto-proved-go-*.tar.gz | grep '/go\.mod$' >/dev/null; then pass; else fail 'the archive for Go has no module'; fi
# Its pages are those of docs/site.sh, which tests/site.sh asks.
bash "$root/docs/site.sh" "$work/site" >/dev/null
if diff -rq "$work/site" archive/*/share/doc/paseto/html >"$work/log" 2>&1; then pass; else fail "the pages of the archive: $(tail -n 3 "$work/log")"; fi
found=$(export PKG_CONFIG_PATH=$(echo "$work"/archive/*/lib/pkgconfig) && cc -o unpacked client.c $(pkg-config --cflags --libs paseto) \
    -Wl,-rpath,"$(pkg-config --variable=libdir paseto)" 2>&1 && ./unpacked && echo same)
is 'a program in C over the archive' "$found" same
if [ "$(archive/*/bin/paseto --version)" = "paseto $(cat "$root/VERSION")" ]; then pass; else fail 'the program of the archive'; fi
finish
