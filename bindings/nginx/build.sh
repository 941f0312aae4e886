#!/usr/bin/env bash
# Builds the module for nginx against the nginx that is installed, from the sources of Debian's package nginx-dev.
#
#   bash bindings/nginx/build.sh [FOLDER [PREFIX]]
#
# FOLDER, build/nginx where none is given, gets ngx_http_paseto_module.so; PREFIX is build, where `bash build.sh` installed the
# library. NGINX_CFLAGS is for the compiler, as -fsanitize=address.
set -euo pipefail
here=$(cd "$(dirname "$0")" && pwd)
root=$(cd "$here/../.." && pwd)
sources=/usr/share/nginx/src
export PASETO_PREFIX=${2:-$root/build}
if [ ! -e "$PASETO_PREFIX/lib/libpaseto.so" ]; then
    echo "There is no $PASETO_PREFIX/lib/libpaseto.so: bash build.sh makes it" >&2
    exit 1
fi
if [ ! -e "$sources/conf_flags" ]; then
    echo "There is no $sources. On Debian 12: apt-get install nginx-dev" >&2
    exit 1
fi
mkdir -p "${1:-$root/build/nginx}"
folder=$(cd "${1:-$root/build/nginx}" && pwd)
work=$(mktemp -d)
trap 'rm -rf "$work"' EXIT
cp -rL "$sources" "$work/src"
cd "$work/src"
# It sets NGX_CONF_FLAGS, those that nginx was built with.
. ./conf_flags
./configure "${NGX_CONF_FLAGS[@]}" --with-cc-opt="-g -O2 -fstack-protector-strong -Wformat -D_FORTIFY_SOURCE=2 -fPIC -ffile-prefix-map=$root=. -ffile-prefix-map=$work=. ${NGINX_CFLAGS-}" \
    --with-ld-opt='-Wl,-z,relro -Wl,-z,now -fPIC' --add-dynamic-module="$here" >"$work/log" 2>&1 || { tail -n 5 "$work/log" >&2; exit 1; }
make -f objs/Makefile modules >"$work/log" 2>&1 || { grep -E -A 3 'error|warning' "$work/log" | head -n 30 >&2; exit 1; }
install -m 644 objs/ngx_http_paseto_module.so "$folder/ngx_http_paseto_module.so"
echo "$folder/ngx_http_paseto_module.so"
