#!/usr/bin/env bash
# Asks the pages of HTML that docs/site.sh makes: that each source has a page, and that each link and each image leads to
# something that is there; and by a headless browser a page, a search by name, one by a word of a guide, and a link that is
# found. Where there is no browser it says so, and asks what needs none. The last line is 'N passed, M failed'.
set -uo pipefail
root=$(cd "$(dirname "$0")/.." && pwd)
. "$root/tests/counts.sh"
work=$(mktemp -d)
trap 'rm -rf "$work"' EXIT

bash "$root/docs/site.sh" "$work/site" >"$work/log" 2>&1 || { fail "docs/site.sh: $(cat "$work/log")"; finish; }
sources=("$root"/{README,SECURITY,CONTRIBUTING,CHANGELOG}.md "$root"/docs/*.md "$root"/docs/api/*.md "$root"/docs/api/*/*.md "$root"/bindings/*/README.md
    "$root"/bench/README.md)
is 'one page for each guide and each page of docs/api' "$(ls "$work/site"/*.html | wc -l)" "${#sources[@]}"

# Each link within the pages leads to a page, and to a heading of it where it names one; no link of Markdown is left over.
links=$(grep -oHE '(href|src)="[^"]*"' "$work/site"/*.html | sed -E 's|^.*/([^/:]+):[a-z]+="(.*)"$|\1 \2|; s|^([^ ]+) #|\1 \1#|' |
    cut -d ' ' -f 2 | grep -v '://' | sort -u)
for link in $links; do
    page=${link%%#*}
    if [ ! -f "$work/site/$page" ]; then
        fail "no page $page"
    elif [[ $link == *#* ]] && ! grep -qF "id=\"${link#*#}\"" "$work/site/$page"; then
        fail "no heading ${link#*#} in $page"
    else
        pass
    fi
done
if grep -q 'href="DECISIONS.html#schemes"' "$work/site/SCHEMES.html"; then pass; else fail 'no link from SCHEMES to a heading of DECISIONS'; fi
left=$(sed 's|<code>[^<]*</code>||g' "$work/site"/*.html | grep -o '\]([a-zA-Z./]*\.md[^)]*)')
is 'links that are none in HTML' "$left" ''
if grep -qF '[d]([e]G) is [e]([d]G)' "$work/site/paseto_p384.html"; then pass; else fail 'a multiple of a point is shown as a link'; fi

browser=$(command -v chromium || command -v chromium-browser || command -v google-chrome)
if [ -z "$browser" ]; then
    echo 'there is no browser (apt-get install chromium): the search is not asked'
    finish
fi

# page ADDRESS: what the browser makes of a page.
page() {
    timeout 60 "$browser" --headless --no-sandbox --disable-gpu --user-data-dir="$work/browser" --dump-dom "file://$work/site/$1" 2>"$work/log"
}

# has NAME ADDRESS TEXT
has() {
    if page "$2" | grep -qF "$3"; then pass; else fail "$1: $2 has no $3: $(tail -n 2 "$work/log")"; fi
}

has 'a page' rusty_paseto.html '<h2 id="PasetoBuilder">'
has 'a search' 'index.html?q=argon2id_with' '<a href="paseto_argon2.html#argon2id_with">argon2id_with (paseto_argon2)</a>'
if page 'index.html?q=nothing_of_this_name' | grep -qF '<ul id="found"></ul>'; then pass; else fail 'a search that finds nothing finds something'; fi
has 'what the link leads to' 'paseto_argon2.html#argon2id_with' 'id="argon2id_with"'
has 'a guide' GUIDE.html '<h2 id="what-to-know-before-you-go-live">'
has 'a table of a guide' C.html '<tr><th>Call</th><th>Does</th></tr>'
has 'a promise' promises-rusty_paseto_core.html '<a href="definitions-rusty_paseto_core.html#isanswer">'
# SysRng stands in the text of the guide, and in no heading.
if grep -q 'id="[^"]*SysRng' "$work/site"/*.html; then fail 'SysRng is a heading'; else pass; fi
has 'a guide by a word of it' 'rusty_paseto.html?q=SysRng' '<a href="GUIDE.html#a-token-with-claims">A token with claims (GUIDE)</a>'
has 'a guide by two words' 'index.html?q=incident+explain' '<a href="PASETO.html#after-an-incident">After an incident (PASETO)</a>'
finish
