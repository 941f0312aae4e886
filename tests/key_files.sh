#!/usr/bin/env bash
# Checks how `paseto` takes keys as people have them: PEM of OpenSSL, keys under a password, under a wrapping key, and sealed.
#
#   tests/key_files.sh [PROGRAM]
#
# Without PROGRAM it takes the one that build.sh leaves in the crate's out/. The last line is 'N passed, M failed', and the
# status is 0 where none failed.
set -u
export LC_ALL=C

root=$(cd "$(dirname "$0")/.." && pwd)
# shellcheck source=tests/counts.sh
source "$root/tests/counts.sh"
program=$(realpath -m "${1-$root/crates/paseto/out/paseto}")
needs openssl openssl
if [ ! -x "$program" ]; then
    fail "there is no program $program"
    finish
fi
work=$(mktemp -d)
trap 'rm -rf "$work"' EXIT
cd "$work" || exit 1
umask 077
unset PASETO_KEY PASETO_PASSWORD

# refuses NAME STATUS LINE WORD..: this status, no output, and on standard error `paseto: ` and this line.
refuses() {
    local name=$1 status=$2 line=$3
    shift 3
    timeout 20 "$program" "$@" <in >out 2>err
    is "$name, status" $? "$status"
    is "$name, output" "$(cat out)" ""
    is "$name, standard error" "$(cat err)" "paseto: $line"
    is "$name, no key is told" "$(cat out err | grep -cE 'correct horse|k[1-4]\.(local|secret)\.')" 0
}

# same NAME FILE FILE: the bytes of both are the same.
same() {
    if cmp -s "$2" "$3"; then pass; else fail "$1: $2 and $3 differ"; fi
}

# cost_of FILE: the cost in the text of a key under a password, in hexadecimal: the iterations of PBKDF2, or memory, passes and
# lanes of Argon2id. It stands behind a salt of 32 or 16 bytes.
cost_of() {
    local salt=32 length=4
    case $(cut -c 1-2 "$1") in k2 | k4) salt=16 length=16 ;; esac
    cut -d . -f 3 "$1" | cut -c 1-64 | tr _- /+ | base64 -d | tail -c +$((salt + 1)) | head -c $length | od -An -v -tx1 | tr -d ' \n'
}

# paserk HEADER: the text in PASERK of a key whose bytes are read.
paserk() {
    printf %s "$1"
    basenc --base64url -w 0 | tr -d =
    echo
}

# first_id TYPE FILE: the id of the key of version 1 whose text the file holds, by OpenSSL: what PASERK says of versions 1 and 3.
first_id() {
    printf '%s%s' "$1" "$(cat "$2")" | openssl dgst -sha384 -binary | head -c 33 | paserk "$1"
}

# modes FILE..: their modes, for files that hold a secret.
modes() {
    stat -c %a "$@" | sort -u | tr '\n' ' '
}

printf hello >in
printf 'correct horse battery staple\n' >password
printf other >password.other
input='standard input'
wrong='wrong key, wrong footer or assertion, or the token was changed'
wrong_password='wrong key or password, or the text was changed'
needs_password='the key is under a password: use --password-file FILE, or
  read -rs PASETO_PASSWORD
  export PASETO_PASSWORD'
no_password='no password is given: use --password-file FILE, or
  read -rs password
  printf %s "$password" | paseto wrap --password-file - --key FILE'
bare='the key is bare: it is under no password, not wrapped and not sealed'
no_key='The text is no PASERK key'
odd_password='not a password: it must have 1 to 4095 bytes'
one_input='standard input is named twice: name files for the key, the password or the input'
needs_key='the key is wrapped or sealed: name the key that opens it by --unlock-key'

# -- PEM

openssl genpkey -algorithm ed25519 -out ed.pem 2>err
openssl genpkey -algorithm EC -pkeyopt ec_paramgen_curve:P-384 -pkeyopt ec_param_enc:named_curve -out p384.pem 2>err
openssl genpkey -algorithm RSA -pkeyopt rsa_keygen_bits:2048 -out rsa.pem 2>err
for name in ed p384 rsa; do openssl pkey -in $name.pem -pubout -out $name.public.pem; done
openssl ec -in p384.pem -out sec1.pem 2>err
openssl rsa -in rsa.pem -RSAPublicKey_out -out rsa.pkcs1.pem 2>err

while read -r name version; do
    token=$("$program" sign --key $name.pem --footer id <in)
    is "a token by $name.pem" "${token:0:10}" "v$version.public."
    is "the text of a token by $name.pem" "$("$program" verify --key $name.public.pem --footer id <<<"$token")" hello
    printf %s "${token:0:40}AAAA${token:44}" >in
    refuses "a changed token by $name.pem" 1 "$input: $wrong" verify --key $name.public.pem --footer id
    printf hello >in
    token=$("$program" issue --key $name.pem --claim aud=customers --expires 2099-01-01T00:00:00Z)
    is "a token of claims by $name.pem" "${token:0:10}" "v$version.public."
    is "its claims" "$("$program" check --key $name.public.pem --claim aud=customers <<<"$token" | grep -o '"aud":"customers"')" '"aud":"customers"'
    printf %s "$token" >in
    refuses "a claim that differs, $name.pem" 1 "$input: The claim 'aud' is 'customers', and not 'all'" \
        check --key $name.public.pem --claim aud=all
    printf hello >in
    refuses "$name.public.pem signs nothing" 3 "$name.public.pem: The key is a public one, which verifies" sign --key $name.public.pem
    refuses "$name.pem verifies nothing" 3 "$name.pem: The key is a private one, which signs" verify --key $name.pem
    refuses "$name.pem checks nothing" 3 "$name.pem: The key is a private one, which signs" check --key $name.pem
    refuses "$name.public.pem issues nothing" 3 "$name.public.pem: The key is a public one, which verifies" issue --key $name.public.pem
    sed 's/$/\r/' $name.pem >returns.pem
    is "lines that end in CR LF, $name.pem" "$("$program" sign --key returns.pem <in | "$program" verify --key $name.public.pem)" hello
    is "PEM on standard input, $name.pem" "$("$program" sign --key - in <$name.pem | "$program" verify --key $name.public.pem)" hello
    is "PEM in the environment, $name.pem" "$(PASETO_KEY=$(cat $name.pem) "$program" sign <in | "$program" verify --key $name.public.pem)" hello
done <<'LIST'
ed 4
p384 3
rsa 1
LIST
[ "$("$program" sign --key rsa.pem <in)" != "$("$program" sign --key rsa.pem <in)" ] && pass || fail 'one salt signs twice'
is "PEM of SEC 1" "$("$program" sign --key sec1.pem <in | "$program" verify --key p384.public.pem)" hello
is "PEM of PKCS #1" "$("$program" sign --key rsa.pem <in | "$program" verify --key rsa.pkcs1.pem)" hello
"$program" sign --key rsa.pem <in >token
is "a token of RSA that was issued" "$("$program" explain --key rsa.public.pem --issued token token)" "issued: line 1
spelling: the same"
is "a token of RSA that was not issued" "$("$program" explain --key rsa.public.pem --issued in token | cut -d : -f 1 | paste -sd ' ')" \
    "forged message signature"
for name in ed p384 rsa; do
    "$program" wrap --key $name.pem --password-file password --out $name.locked
    "$program" unwrap --key $name.locked --password-file password --out $name.line
    "$program" unwrap --key $name.locked --password-file password --format pem --out $name.again
    same "a private key in PEM, written again, $name" $name.again $name.pem
    "$program" public --key $name.line --format pem --out $name.half
    same "the public half in PEM, $name" $name.half $name.public.pem
    is "the public half of PEM, $name" "$("$program" public --key $name.pem)" "$("$program" public --key $name.line)"
    is "the id of a public key in PEM, $name" "$("$program" public --key $name.line | "$program" id --key -)" "$("$program" id --key $name.public.pem)"
    is "the id of PEM, $name" "$("$program" id --key $name.pem)" "$("$program" id --key $name.line)"
done
for kind in v3.public v4.public; do
    "$program" keygen $kind --format pem --out new.pem --public new.public.pem --quiet
    openssl pkey -in new.pem -pubout -out openssl.public.pem
    same "keygen in PEM, $kind" new.public.pem openssl.public.pem
    openssl pkey -in new.pem -out openssl.pem
    same "the private key of keygen in PEM, $kind" new.pem openssl.pem
    rm new.pem new.public.pem
done

# -- keys of RSA in PASERK: the private one is the RSAPrivateKey of PKCS #1, and PKCS #8 is read too

openssl rsa -in rsa.pem -traditional -outform DER 2>err | paserk k1.secret. >rsa.secret
openssl pkcs8 -topk8 -nocrypt -in rsa.pem -outform DER | paserk k1.secret. >rsa.pkcs8
openssl pkey -in rsa.pem -pubout -outform DER | paserk k1.public. >rsa.public
first_id k1.sid. rsa.secret >rsa.sid
first_id k1.pid. rsa.public >rsa.pid
is "the forms of one private key" "$(sort -u rsa.secret rsa.pkcs8 | wc -l) $(cmp -s rsa.secret rsa.line; echo $?)" "2 0"
for name in rsa.pem rsa.secret rsa.pkcs8; do
    is "the public half of $name" "$("$program" public --key $name)" "$(cat rsa.public)"
    is "the public half of $name in PEM" "$("$program" public --key $name --format pem)" "$(cat rsa.public.pem)"
    is "the id of $name" "$("$program" id --key $name)" "$(cat rsa.sid)"
    token=$("$program" sign --key $name --footer id <in)
    for half in rsa.public.pem rsa.pkcs1.pem rsa.public; do
        is "$name signs, $half verifies" "$("$program" verify --key $half --footer id <<<"$token")" hello
    done
    "$program" wrap --key $name --password-file password --out locked
    is "$name under a password" "$(cut -d . -f 1,2 locked)" k1.secret-pw
    is "$name under a password, opened" "$("$program" unwrap --key locked --password-file password)" "$(cat rsa.secret)"
    is "$name under a password, opened in PEM" "$("$program" unwrap --key locked --password-file password --format pem)" "$(cat rsa.pem)"
    is "$name under a password, its id" "$("$program" id --key locked --password-file password)" "$(cat rsa.sid)"
    is "$name under a password, its public half" "$("$program" public --key locked --password-file password)" "$(cat rsa.public)"
    is "$name under a password signs" "$("$program" sign --key locked --password-file password <in | "$program" verify --key rsa.public)" hello
    rm locked
    refuses "$name verifies nothing" 3 "$name: The key is a private one, which signs" verify --key $name
done
for name in rsa.public.pem rsa.pkcs1.pem rsa.public; do
    is "the id of $name" "$("$program" id --key $name)" "$(cat rsa.pid)"
    refuses "the public half of $name" 3 "$name: The key is a public one, which verifies" public --key $name
    refuses "$name signs nothing" 3 "$name: The key is a public one, which verifies" sign --key $name
    refuses "$name under a password" 3 "$name: the key is public: it needs no password and no wrapping key" \
        wrap --key $name --password-file password
done
is "a key of RSA in the environment" "$(PASETO_KEY=$(cat rsa.secret) "$program" sign <in | "$program" verify --key rsa.public)" hello
is "a key of RSA on standard input" "$("$program" sign --key - in <rsa.secret | "$program" verify --key rsa.public)" hello
"$program" issue --key rsa.secret --claim aud=customers --footer-kid "$(cat rsa.pid)" >token
is "claims by a key of RSA in PASERK" \
    "$("$program" check --key rsa.public --footer-kid "$(cat rsa.pid)" <token | grep -o '"aud":"customers"')" '"aud":"customers"'
# A ring of it: the public key in each form, and a ring that has the private key alone.
for name in rsa.public.pem rsa.pkcs1.pem rsa.public; do
    mkdir ring1 && "$program" keygen v4.local --out ring1/own.key --quiet && cp $name "ring1/$(tr . - <<<"${name%.pem}")"
    is "claims by a ring with $name" "$("$program" check --ring ring1 token | grep -o '"aud":"customers"')" '"aud":"customers"'
    is "a text by a ring with $name" "$("$program" verify --ring ring1 token | grep -o '"aud":"customers"')" '"aud":"customers"'
    rm -r ring1
done
mkdir ring1 && cp rsa.pem ring1
"$program" issue --ring ring1 --claim aud=customers >issued
is "a token by a ring with a private key of RSA" "$("$program" check --key rsa.public --footer-kid "$(cat rsa.pid)" <issued | grep -o '"aud":"customers"')" \
    '"aud":"customers"'
refuses "a ring with the private key alone" 1 "token: The key '$(cat rsa.pid)' is not in the ring" check --ring ring1 token
cp rsa.public ring1/its && echo "$(cat rsa.public)AAAA" >ring1/a
is "a ring with another key that is broken" "$("$program" check --ring ring1 token 2>&1 | grep -o '"aud":"customers"')" '"aud":"customers"'
rm -r ring1
# What is no key of RSA of 2048 bits: fewer bytes, more, another size, a public key, and RSAPublicKey where the
# SubjectPublicKeyInfo belongs.
openssl genpkey -algorithm RSA -pkeyopt rsa_keygen_bits:3072 -out rsa3072.pem 2>err
head -c 1000 rsa.secret >bad.short
{ tr -d '\n' <rsa.secret && echo AAAA; } >bad.long
openssl rsa -in rsa3072.pem -traditional -outform DER 2>err | paserk k1.secret. >bad.3072
sed s/public/secret/ rsa.public >bad.kind
openssl pkey -in ed.pem -outform DER | paserk k1.secret. >bad.ed
openssl rsa -in rsa.pem -RSAPublicKey_out -outform DER 2>err | paserk k1.public. >bad.pkcs1
sed s/secret/public/ rsa.secret >bad.half
for name in bad.*; do
    for words in id public sign verify "wrap --password-file password"; do
        # shellcheck disable=SC2086
        refuses "$name, ${words%% *}" 3 "$name: The key was not in the correct format" ${words%% *} --key $name ${words#"${words%% *}"}
    done
done

# -- PEM of other tools: keys_of_others/make.sh says how each was made. As certtool does, text is put in front of each

# fronted FILE: the file behind lines such as certtool writes.
fronted() {
    printf 'Private Key Info:\n\tKey Security Level: High (256 bits)\n\nk4.local: none\n'
    cat "$1"
}

others=$root/tests/keys_of_others
"$program" keygen v4.local --out local.line --quiet
for file in "$others"/*.pem; do
    name=$(basename "$file" .pem)
    cp "$file" own.pem
    file=own.pem
    case $name in
        refused_*) continue ;;
        *ed25519*) version=4 ;;
        *p384*) version=3 ;;
        *rsa*) version=1 ;;
    esac
    openssl pkey -in "$file" -pubout -out half.pem 2>err
    token=$("$program" sign --key "$file" <in)
    is "a token by $name" "${token:0:10}" "v$version.public."
    is "the text of a token by $name" "$("$program" verify --key half.pem <<<"$token")" hello
    is "the public half of $name" "$("$program" public --key "$file" --format pem)" "$(cat half.pem)"
    fronted "$file" >behind.text
    is "the public half of $name behind a text" "$("$program" public --key behind.text --format pem)" "$(cat half.pem)"
    is "the id of $name behind a text" "$("$program" id --key behind.text)" "$("$program" id --key "$file")"
    is "a token by $name behind a text" "$("$program" sign --key behind.text <in | "$program" verify --key half.pem)" hello
    fronted half.pem >half.text
    is "the id of the public half of $name behind a text" "$("$program" id --key half.text)" "$("$program" id --key half.pem)"
    refuses "unwrap of $name behind a text" 3 "behind.text: $bare" unwrap --key behind.text
    chmod 644 behind.text half.text
    is "$name behind a text, which others can read" "$("$program" id --key behind.text 2>&1 >out)" \
        "paseto: behind.text: warning: others than its owner can read the key file"
    is "the public half of $name behind a text, which others can read" "$("$program" id --key half.text 2>&1 >out)" ""
    rm behind.text half.text
done
is "how many keys of other tools" "$(find "$others" -name '[!r]*.pem' | wc -l)" 23
for name in ed p384 rsa; do
    { cat local.line && cat $name.pem; } >behind.paserk
    refuses "$name.pem behind a key in PASERK" 3 "behind.paserk: line 2: a key file has one line of PASERK, or is PEM" id --key behind.paserk
    { cat $name.line && cat $name.public.pem; } >behind.paserk
    refuses "the public half of $name.pem behind a key in PASERK" 3 "behind.paserk: line 2: a key file has one line of PASERK, or is PEM" \
        sign --key behind.paserk
    "$program" wrap --key local.line --password-file password >behind.paserk
    cat $name.pem >>behind.paserk
    for words in id unwrap; do
        refuses "$words of $name.pem behind a locked key" 3 "behind.paserk: line 2: a key file has one line of PASERK, or is PEM" \
            $words --key behind.paserk --password-file password
    done
done
printf '%s\n\n' "$(cat local.line)" >behind.paserk
is "an empty line behind a key" "$("$program" id --key behind.paserk)" "$("$program" id --key local.line)"
while IFS='|' read -r name line; do
    cp "$others/refused_$name.pem" .
    refuses "a key of another tool, $name" 3 "refused_$name.pem: $line" sign --key "refused_$name.pem"
    fronted "$others/refused_$name.pem" >behind.text
    refuses "a key of another tool behind a text, $name" 3 "behind.text: $line" sign --key behind.text
done <<'END'
openssl_ed448|a key of another algorithm than RSA, P-384 and Ed25519
openssl_encrypted|encrypted PEM: remove its password by openssl pkey -in FILE -out NEW
openssl_explicit_curve|a curve without a name: name it by openssl ec -param_enc named_curve -in FILE -out NEW
openssl_p256|a key of P-256: version 3 takes P-384
openssl_rsa_3072|an RSA key of another size: version 1 takes 2048 bits
openssl_two_keys|more than one key: a key file has one
python_openssh|a key of OpenSSH: make another by paseto keygen or openssl genpkey
END

openssl genpkey -algorithm X25519 -out x25519.pem
openssl genpkey -algorithm EC -pkeyopt ec_paramgen_curve:P-256 -out p256.pem
openssl pkey -in ed.pem -aes256 -passout pass:secret -out encrypted.pem
sed '2s/./!/' ed.pem >broken.pem
refuses "another algorithm" 3 "x25519.pem: a key of another algorithm than RSA, P-384 and Ed25519" sign --key x25519.pem
refuses "another curve" 3 "p256.pem: a key of P-256: version 3 takes P-384" sign --key p256.pem
refuses "another size" 3 "rsa3072.pem: an RSA key of another size: version 1 takes 2048 bits" sign --key rsa3072.pem
refuses "an encrypted key of OpenSSL" 3 "encrypted.pem: encrypted PEM: remove its password by openssl pkey -in FILE -out NEW" sign --key encrypted.pem
refuses "broken PEM" 3 "broken.pem: neither PASERK nor valid PEM" sign --key broken.pem
"$program" keygen v4.local --out v4.local --quiet
"$program" keygen v2.public --out v2.secret --public v2.public --quiet
for name in v4.local v2.secret; do "$program" wrap --key $name --password-file password --out locked.$name; done
refuses "a local key in PEM" 3 "locked.v4.local: keys for local tokens have no PEM text" \
    unwrap --key locked.v4.local --password-file password --format pem
refuses "a new local key in PEM" 3 "v3.local: keys for local tokens have no PEM text" keygen v3.local --format pem
refuses "a key of version 2 in PEM" 3 \
    "locked.v2.secret: keys of version 2 have no PEM text of their own: it would be read as one of version 4" \
    unwrap --key locked.v2.secret --password-file password --format pem
rm locked.v4.local locked.v2.secret
refuses "no format" 2 "--format: must be paserk or pem" keygen v4.public --format der

printf '%s\r\n' "$(cat v4.local)" >returns.local
is "a line that ends in CR LF" "$("$program" encrypt --key returns.local <in | "$program" decrypt --key v4.local)" hello

# -- passwords

while read -r kind file; do
    (umask 022 && "$program" keygen $kind --password-file password --out locked.$kind --public half.$kind 2>err) ||
        (umask 022 && "$program" keygen $kind --password-file password --out locked.$kind 2>err)
    is "keygen $kind under a password" "$(cut -d . -f 1,2 locked.$kind)" "k${kind:1:1}.$file-pw"
    is "the mode of locked.$kind" "$(stat -c %a locked.$kind)" 600
    case $kind in v1* | v3*) cost=000186a0 ;; *) cost=00000000040000000000000200000001 ;; esac
    is "the cost of locked.$kind" "$(cost_of locked.$kind)" $cost
    is "no bare key, $kind" "$(grep -cE 'k[1-4]\.(local|secret)\.' locked.$kind)" 0
    if [ "$file" = local ]; then
        token=$("$program" encrypt --key locked.$kind --password-file password <in)
        is "locked.$kind opens" "$("$program" decrypt --key locked.$kind --password-file password <<<"$token")" hello
    else
        token=$("$program" sign --key locked.$kind --password-file password <in)
        is "locked.$kind signs" "$("$program" verify --key half.$kind <<<"$token")" hello
    fi
    refuses "another password, $kind" 1 "locked.$kind: $wrong_password" id --key locked.$kind --password-file password.other
    refuses "no password, $kind" 3 "locked.$kind: $needs_password" id --key locked.$kind
    is "the password of the environment, $kind" "$(PASETO_PASSWORD='correct horse battery staple' "$program" id --key locked.$kind)" \
        "$("$program" id --key locked.$kind --password-file password)"
done <<'LIST'
v1.local local
v2.local local
v3.local local
v4.local local
v2.public secret
v3.public secret
v4.public secret
LIST
is "what keygen says" "$("$program" keygen v4.local --password-file password --out told.local 2>&1)" \
    "paseto: told.local: the new key of kind v4.local, under a password"
is "the environment locks no new key" "$(PASETO_PASSWORD=secret "$program" keygen v4.local | cut -d . -f 1,2)" k4.local
(umask 022 && "$program" unwrap --key locked.v4.local --password-file password --out bare)
is "unwrap" "$(cut -d . -f 1,2 bare)" k4.local
(umask 022 && "$program" wrap --key bare --password-file password.other --out relocked)
is "another password" "$("$program" unwrap --key relocked --password-file password.other)" "$(cat bare)"
[ "$("$program" wrap --key bare --password-file password)" != "$("$program" wrap --key bare --password-file password)" ] && pass ||
    fail 'one salt and nonce under a password twice'
is "the cost of a key that is wrapped" "$(cost_of relocked)" 00000000040000000000000200000001
is "the modes of keys that are wrapped and unwrapped" "$(modes bare relocked)" "600 "
"$program" wrap --key rsa.pem --password-file password --out locked.rsa
is "a key of RSA under a password" "$(cut -d . -f 1,2 locked.rsa)" k1.secret-pw
is "it signs" "$("$program" sign --key locked.rsa --password-file password <in | "$program" verify --key rsa.public.pem)" hello
refuses "a key under a password in PEM" 2 "a key under a password is not written in PEM: omit --format or the password" \
    keygen v4.public --password-file password --format pem
refuses "wrap under nothing" 2 "$no_password" wrap --key bare
PASETO_PASSWORD=secret refuses "wrap by the environment" 2 "$no_password" wrap --key bare
# The lines that the errors show, without the part that asks a terminal.
printf 'correct horse battery staple\n' >typed
is "the lines for a password that opens" "$("$program" id --key locked.v4.local 2>&1 | sed -n '2,$p' | sed 's/^ *read.*/& <typed/' >ask
    PATH=.:$PATH bash -c "source ./ask && '$program' id --key locked.v4.local")" "$("$program" id --key locked.v4.local --password-file password)"
ln -s "$program" paseto
"$program" wrap --key bare 2>&1 | sed -n '2,$p' | sed 's/^ *read.*/& <typed/; s/FILE/bare/' >ask
is "the lines for a password that locks" "$(PATH=.:$PATH bash ask | "$program" unwrap --key - --password-file password)" "$(cat bare)"
rm paseto ask typed
is "a password on standard input" "$("$program" id --key locked.v4.local --password-file - <password)" "$("$program" id --key locked.v4.local --password-file password)"
is "a new key under it" "$("$program" keygen v4.local --password-file - <password | "$program" unwrap --key - --password-file password | cut -d . -f 1,2)" k4.local
for words in "id --key - --password-file -" "unwrap --key - --unlock-key -" "unseal --password-file - --unlock-key -" "decrypt --key bare --password-file -" \
    "encrypt --key bare --unlock-key -" "check --ring . --password-file -" "verify --ring . --unlock-key - -" "explain --key bare --issued - -" \
    "wrap --key - --password-file -" "wrap --key - --wrapping-key -" "seal --key - --to -" "issue --key - --password-file -"; do
    # shellcheck disable=SC2086
    refuses "standard input twice, $words" 2 "$one_input" $words
done
"$program" encrypt --key bare in >letter
"$program" wrap --key bare --password-file password --out locked.bare
is "a password on standard input beside an input" "$("$program" decrypt --key locked.bare --password-file - letter <password)" hello
: >nothing
refuses "an empty password" 3 "nothing: $odd_password" wrap --key bare --password-file nothing
echo >nothing
refuses "a password of a newline" 3 "nothing: $odd_password" wrap --key bare --password-file nothing
: >nothing
# The whole file but one final newline: of 4,095 bytes at most.
head -c 4095 /dev/zero | tr '\0' a >most
(cat most && echo) >ended
(cat most && printf a) >more
(cat more && echo) >more.ended
is "the longest password" "$("$program" wrap --key bare --password-file most | "$program" unwrap --key - --password-file ended)" "$(cat bare)"
refuses "a longer password" 3 "more: $odd_password" wrap --key bare --password-file more
refuses "a longer password and a newline" 3 "more.ended: $odd_password" wrap --key bare --password-file more.ended
printf 'a\nb\n' >lines
printf 'a\nb' >lines.unended
printf 'a\n' >lines.first
"$program" wrap --key bare --password-file lines --out locked.lines
is "a password of two lines" "$("$program" unwrap --key locked.lines --password-file lines.unended)" "$(cat bare)"
refuses "its first line" 1 "locked.lines: $wrong_password" unwrap --key locked.lines --password-file lines.first
refuses "no file of a password" 3 "nowhere: no such file" wrap --key bare --password-file nowhere
refuses "a public key under a password" 3 "half.v4.public: the key is public: it needs no password and no wrapping key" \
    wrap --key half.v4.public --password-file password
cp password open.password
chmod 644 open.password
"$program" id --key locked.v4.local --password-file open.password >out 2>err
is "a password that others can read" "$(cat err)" "paseto: open.password: warning: others than its owner can read the password file"
chmod 644 locked.v4.local
is "a locked key that others can read" "$("$program" id --key locked.v4.local --password-file password 2>&1 >out)" ""
printf 'k4.local-pw.AAAA' >cut
refuses "a locked key that was cut off" 3 "cut: what follows the header is no base64url of a wrapped key, or was cut off" id --key cut --password-file password

# -- wrapping keys

for version in 1 2 3 4; do
    "$program" keygen v$version.local --out wrapping.$version --quiet
    "$program" keygen v$version.local --out local.$version --quiet
    (umask 022 && "$program" wrap --key local.$version --wrapping-key wrapping.$version --out wrapped.$version)
    is "wrap, version $version" "$(cut -d . -f 1-3 wrapped.$version)" "k$version.local-wrap.pie"
    is "unwrap, version $version" "$("$program" unwrap --key wrapped.$version --unlock-key wrapping.$version)" "$(cat local.$version)"
    token=$("$program" encrypt --key wrapped.$version --unlock-key wrapping.$version <in)
    is "a wrapped key of version $version" "$("$program" decrypt --key local.$version <<<"$token")" hello
    [ "$("$program" wrap --key local.$version --wrapping-key wrapping.$version)" != "$(cat wrapped.$version)" ] && pass ||
        fail "one nonce under a wrapping key twice, version $version"
    refuses "another wrapping key, version $version" 1 "wrapped.$version: $wrong_password" id --key wrapped.$version --unlock-key local.$version
    refuses "no wrapping key, version $version" 3 "wrapped.$version: $needs_key" id --key wrapped.$version
done
cp rsa.secret secret.1
cp rsa.public public.1
for version in 1 2 3 4; do
    [ $version = 1 ] || "$program" keygen v$version.public --out secret.$version --public public.$version --quiet
    "$program" wrap --key secret.$version --wrapping-key wrapping.$version --out wrapped.secret
    is "wrap a private key, version $version" "$(cut -d . -f 1-3 wrapped.secret)" "k$version.secret-wrap.pie"
    is "unwrap a private key, version $version" "$("$program" unwrap --key wrapped.secret --unlock-key wrapping.$version)" "$(cat secret.$version)"
    token=$("$program" sign --key wrapped.secret --unlock-key wrapping.$version <in)
    is "a wrapped private key signs, version $version" "$("$program" verify --key public.$version <<<"$token")" hello
    is "the public half of a wrapped private key, version $version" \
        "$("$program" public --key wrapped.secret --unlock-key wrapping.$version)" "$(cat public.$version)"
    refuses "another wrapping key of a private key, version $version" 1 "wrapped.secret: $wrong_password" \
        id --key wrapped.secret --unlock-key local.$version
    rm wrapped.secret
done
for name in rsa.pem rsa.pkcs8; do
    "$program" wrap --key $name --wrapping-key wrapping.1 --out wrapped.secret
    is "unwrap $name" "$("$program" unwrap --key wrapped.secret --unlock-key wrapping.1)" "$(cat rsa.secret)"
    is "unwrap $name in PEM" "$("$program" unwrap --key wrapped.secret --unlock-key wrapping.1 --format pem)" "$(cat rsa.pem)"
    rm wrapped.secret
done
refuses "a wrapping key of RSA" 3 "rsa.secret: this key is a private one, and another type is needed" \
    wrap --key local.1 --wrapping-key rsa.secret
is "the modes of wrapped keys" "$(modes wrapped.?)" "600 "
refuses "a wrapping key of another version" 3 "wrapping.3: this key is one of version 3, and the other one is not" \
    wrap --key local.4 --wrapping-key wrapping.3
refuses "a wrapping key of another version to unwrap" 3 "wrapping.3: this key is one of version 3, and the other one is not" \
    id --key wrapped.4 --unlock-key wrapping.3
refuses "a private key as a wrapping key" 3 "secret.4: this key is a private one, and another type is needed" \
    wrap --key local.4 --wrapping-key secret.4
"$program" wrap --key wrapping.4 --password-file password --out wrapping.locked
is "a wrapping key under a password" "$("$program" unwrap --key wrapped.4 --unlock-key wrapping.locked --password-file password)" "$(cat local.4)"
"$program" wrap --key a --wrapping-key b --password-file c >out 2>err
is "two locks" "$? $(head -n 1 err)" "2 error: the argument '--wrapping-key <FILE>' cannot be used with '--password-file <FILE>'"

# -- sealed keys

for version in 2 3 4; do
    "$program" seal --key local.$version --to public.$version --out sealed.$version
    is "seal, version $version" "$(cut -d . -f 1,2 sealed.$version)" "k$version.seal"
    is "unseal, version $version" "$("$program" unseal --key sealed.$version --unlock-key secret.$version)" "$(cat local.$version)"
    token=$("$program" encrypt --key sealed.$version --unlock-key secret.$version <in)
    is "a sealed key of version $version" "$("$program" decrypt --key local.$version <<<"$token")" hello
    [ "$("$program" seal --key local.$version --to public.$version)" != "$(cat sealed.$version)" ] && pass ||
        fail "one ephemeral key twice, version $version"
    "$program" keygen v$version.public --out other.secret --quiet
    refuses "another private key, version $version" 1 "sealed.$version: $wrong_password" unseal --key sealed.$version --unlock-key other.secret
    rm other.secret
    refuses "no private key, version $version" 3 "sealed.$version: $needs_key" unseal --key sealed.$version
    refuses "a local key to unseal, version $version" 3 "local.$version: this key is one for local tokens, and another type is needed" \
        unseal --key sealed.$version --unlock-key local.$version
    refuses "a private key, sealed, version $version" 3 "secret.$version: The key is a private one, which signs" seal --key secret.$version --to public.$version
done
(umask 022 && "$program" seal --key local.3 --to p384.public.pem --out sealed.pem)
is "sealed to a key in PEM" "$("$program" unseal --key sealed.pem --unlock-key p384.pem)" "$(cat local.3)"
(umask 022 && "$program" unseal --key sealed.pem --unlock-key p384.pem --out unsealed)
is "the modes of keys that are sealed and unsealed" "$(modes sealed.pem unsealed)" "600 "
refuses "a public key of another version" 3 "public.3: this key is one of version 3, and the other one is not" seal --key local.4 --to public.3
refuses "a key of version 1, sealed" 3 "local.1: keys of version 1 are neither sealed nor unsealed here" seal --key local.1 --to rsa.public.pem
refuses "what is not sealed" 3 "wrapped.4: the key is not sealed: use paseto unwrap" unseal --key wrapped.4 --unlock-key wrapping.4
is "unwrap opens what is sealed" "$("$program" unwrap --key sealed.4 --unlock-key secret.4)" "$(cat local.4)"
"$program" seal --key local.4 >out 2>err
is "sealed to nobody" "$? $(head -n 1 err)" "2 error: the following required arguments were not provided:"

# -- what is not wrapped

for name in local.4 secret.4 public.4 ed.pem ed.public.pem sec1.pem rsa.pem rsa.public.pem rsa.secret rsa.public; do
    refuses "unwrap of $name" 3 "$name: $bare" unwrap --key $name
    refuses "unseal of $name" 3 "$name: $bare" unseal --key $name
done
refuses "a bare key with a password" 3 "local.4: $bare" unwrap --key local.4 --password-file password
printf j1.local-wrap.pie.kJfv >other
refuses "unwrap of another text" 3 "other: $no_key" unwrap --key other
refuses "unseal of another text" 3 "other: $no_key" unseal --key other
refuses "unwrap of another text into a file" 3 "other: $no_key" unwrap --key other --out taken
is "it is not there" "$(ls taken 2>&1 | grep -c 'No such')" 1
# A character in the header of each kind of wrapped key is changed.
for name in wrapped.4 locked.v4.local sealed.4; do
    length=$(sed -E 's/^(k4\.[a-z-]+\.(pie\.)?).*/\1/' $name | tr -d '\n' | wc -c)
    for place in $(seq "$length"); do
        awk -v place="$place" '{ print substr($0, 1, place - 1) "!" substr($0, place + 1) }' $name >other
        refuses "$name with another character $place" 3 "other: $no_key" unwrap --key other --unlock-key wrapping.4 --password-file password
    done
done
rm other

# -- 1,000 key pairs of version 3, whose public halves OpenSSL makes too

agree=0
for number in $(seq 1000); do
    "$program" keygen v3.public --format pem --out pair --public "half.$number" --quiet
    openssl pkey -in pair -pubout | cmp -s - "half.$number" && agree=$((agree + 1))
    rm pair
done
is "1,000 key pairs of version 3" "$agree" 1000
is "1,000 different ones" "$(for number in $(seq 1000); do tr -d '\n' <"half.$number"; echo; done | sort -u | wc -l)" 1000

# -- rings

mkdir ring
cp locked.v4.local ring/one
cp ed.public.pem ring/two
kid=$("$program" id --key locked.v4.local --password-file password)
token=$("$program" issue --key locked.v4.local --password-file password --footer-kid "$kid" --expires 2099-01-01T00:00:00Z)
is "a ring of a locked key" "$("$program" check --ring ring --password-file password <<<"$token" | grep -o '"exp"')" '"exp"'
kid=$("$program" id --key ed.public.pem)
token=$("$program" issue --key ed.pem --footer-kid "$kid" --expires 2099-01-01T00:00:00Z)
is "a ring of a key in PEM" "$("$program" check --ring ring --password-file password <<<"$token" | grep -o '"exp"')" '"exp"'
is "a ring with another key that is not opened" "$("$program" check --ring ring <<<"$token" | grep -o '"exp"')" '"exp"'
"$program" issue --key locked.v4.local --password-file password --footer-kid "$("$program" id --key locked.v4.local --password-file password)" >in
refuses "a ring that is not opened" 3 "ring/one: $needs_password" check --ring ring
rm ring/one
kid=$("$program" id --key locked.v4.local --password-file password)
for name in rsa.public.pem rsa.public rsa.pem rsa.secret; do
    cp $name ring/three
    refuses "a ring with $name and without the key" 1 "standard input: The key '$kid' is not in the ring" check --ring ring
done

# -- the lines

# What the lines are about, beside the files above.
printf '\377' >binary
head -c 40 local.4 >short
printf '%s\n%s\n' "$(cat local.4)" "$(cat local.3)" >two
truncate -s 16385 long
echo "k1.secret.$(printf '%040d' 0)" >k1
echo "k3.secret.AAAAAAAAAAAAAAAAAAAAAAAAAAAAAAAAAAAAAAAAAAAAAAAAAAAAAAAAAAAAAAAA" >zero
# The private half of a seed of zeros, with the public half of another seed.
echo "k4.secret.AAAAAAAAAAAAAAAAAAAAAAAAAAAAAAAAAAAAAAAAAADXWpgBgrEKt9VL_tPJZAc6DuFy89qmIyWvAhpo9wdRGg" >halves
"$program" keygen v4.local --out office --quiet
"$program" keygen v4.public --out signer --public reader --quiet
printf hello | "$program" encrypt --key office --footer id >letter
printf hello | "$program" sign --key signer >ticket
"$program" issue --key office --claim aud=customers --not-before 2026-11-22T09:00:00Z --expires 2026-11-22T10:00:00Z >claims
"$program" issue --key office --claim aud=customers --footer id >footed
"$program" issue --key office --footer '{"kid":4}' >numbered
"$program" issue --key office --footer-kid another >stranger
printf '{"a":1.5}' | "$program" encrypt --key office >odd
echo v4.local >part
echo v9.local.AAAA >unknown
echo 'v4.local.!' >spelled
mkdir keys keys.none
cp office keys
cp nothing keys.none/one

# STATUS|WORDS|LINE: the lines that the program has, word for word, and arguments for which it says each. Some are not here:
# that memory, random bytes or a moment of the clock was not found, and the rarer ones of wrapped keys and of PEM.
while IFS='|' read -r status words line; do
    # shellcheck disable=SC2046,SC2059
    refuses "the words ${words:0:60}" "$status" "$line" $(printf "$words")
done <<'LIST'
2|encrypt --key office --footer \377|an argument is not valid UTF-8: see paseto --help
2|encrypt --key k4.local.AAAA|a key is among the arguments, where others can see it: name the file that holds it
2|keygen v9.local|v9.local: not a kind of key: use v1.local, v2.local, v2.public, v3.local, v3.public, v4.local or v4.public
2|keygen v4.local --public half|v4.local: keys of this kind have no public half: omit --public
2|keygen v4.public --format der|--format: must be paserk or pem
2|keygen v4.public --password-file password --format pem|a key under a password is not written in PEM: omit --format or the password
3|wrap --key office --password-file nothing|nothing: not a password: it must have 1 to 4095 bytes
2|encrypt|no key is given: use --key FILE, or put the text of the key into PASETO_KEY
2|encrypt --key -|standard input is named twice: name files for the key, the password or the input
2|encrypt --key office --longest soon|--longest: write a number of bytes, such as 100000000
1|encrypt --key office --longest 4 in|in: longer than it may be: 64000000 bytes, or as many as --longest says
3|encrypt --key letter|letter: The text is no PASERK key
3|id --key k1|k1: The key was not in the correct format
3|sign --key office|office: The key is one for local tokens
3|verify --key signer|signer: The key is a private one, which signs
3|encrypt --key reader|reader: The key is a public one, which verifies
3|encrypt --key short|short: The key was not in the correct format
3|sign --key k1|k1: The key was not in the correct format
3|unwrap --key office|office: the key is bare: it is under no password, not wrapped and not sealed
3|unseal --key office|office: the key is bare: it is under no password, not wrapped and not sealed
3|unseal --key wrapped.4|wrapped.4: the key is not sealed: use paseto unwrap
3|encrypt --key nothing|nothing: it is empty, and holds no key
3|encrypt --key two|two: line 2: a key file has one line of PASERK, or is PEM
3|encrypt --key long|long: too long for a key file
1|encrypt --key office binary|binary: A Utf8 parsing error occurred
1|decrypt --key local.4 --footer id letter|letter: wrong key, wrong footer or assertion, or the token was changed
1|decrypt --key office letter|letter: The provided footer is invalid
1|decrypt --key office part|part: This string has an incorrect number of parts and cannot be parsed into a token
1|decrypt --key office spelled|spelled: A base64 decode error occurred
1|check --ring keys unknown|unknown: not a token of a supported kind
3|sign --key zero|zero: not a valid private key of its kind
3|sign --key halves|halves: the two halves of the private key do not belong together
1|decrypt --key office ticket|ticket: the token is v4.public, and the key is for v4.local
1|decrypt --key office unknown|unknown: the token is of no known kind, and the key is for v4.local
3|encrypt --key local.1 --assertion for|local.1: keys of versions 1 and 2 take no implicit assertion: omit --assertion
2|issue --key office --claim seats|--claim: write a claim as aud=customers, or as seats:=4 with a value of JSON
2|issue --key office --claim exp=never|--claim: set exp and nbf by --expires and --not-before; iat is set already
2|issue --key office --expires soon|--expires: write a time as 90s, 30m, 12h, 7d or 2026-11-22T10:00:00Z
2|issue --key office --not-before soon|--not-before: write a time as 90s, 30m, 12h, 7d or 2026-11-22T10:00:00Z
2|check --key office --at soon|--at: write a time as 90s, 30m, 12h, 7d or 2026-11-22T10:00:00Z
2|check --key office --leeway soon|--leeway: write a length of time as 5s, 30m, 12h or 7d
1|issue --key office --claim a:=1.5|--claim: a number in a claim must be a whole number of at most 64 bits
1|check --key office footed|footed: the token has another footer: give it by --footer or --footer-kid; paseto inspect shows it
1|check --ring keys claims|claims: the token has no footer, which names its key in a ring
1|check --ring keys footed|footed: the footer of the token is not a JSON object
1|check --ring keys numbered|numbered: the footer of the token names no key: it has no string under kid
1|check --ring keys stranger|stranger: The key 'another' is not in the ring
1|check --key office --footer id letter|letter: the text of the token is not valid JSON
1|check --key office odd|odd: a claim of the token has a number that is not a whole number of 64 bits
1|check --key office --at 2026-11-22T10:03:00Z claims|claims: expired 3 minutes ago, at 2026-11-22T10:00:00Z
1|check --key office --at 2026-11-22T08:59:00Z claims|claims: not valid before 2026-11-22T09:00:00Z, in 60 seconds
1|check --key office --at 2026-11-22T09:30:00Z --claim aud=staff claims|claims: The claim 'aud' is 'customers', and not 'staff'
1|check --key office --at 2026-11-22T09:30:00Z --require jti claims|claims: The expected claim 'jti' was not found in the payload
1|issue --key office --claim a=1 --claim a=2|The claim 'a' appears more than once in the top level payload json
3|check --ring keys.none stranger|keys.none/one: it is empty, and holds no key
3|issue --ring keys|keys: no private key is in this folder
2|issue --ring keys --footer id|--ring names its key in the footer: omit --footer and --footer-kid
2|keygen v4.public --out new --public new|--out and --public name one file: name two
3|encrypt --key nowhere|nowhere: no such file
3|keygen v4.local --out office/key|office/key: not a folder, or not in one
3|keygen v4.local --out office|office: the file already exists and is not overwritten
3|encrypt --key keys|keys: is a folder, and not a file
3|id --key wrapped.4|wrapped.4: the key is wrapped or sealed: name the key that opens it by --unlock-key
1|id --key locked.v4.local --password-file password.other|locked.v4.local: wrong key or password, or the text was changed
3|id --key cut --password-file password|cut: what follows the header is no base64url of a wrapped key, or was cut off
3|wrap --key half.v4.public --password-file password|half.v4.public: the key is public: it needs no password and no wrapping key
3|wrap --key local.4 --wrapping-key letter|letter: this is no PASERK key
3|wrap --key local.4 --wrapping-key wrapping.1|wrapping.1: this key is one of version 1, and the other one is not
3|wrap --key local.4 --wrapping-key wrapping.2|wrapping.2: this key is one of version 2, and the other one is not
3|wrap --key local.4 --wrapping-key wrapping.3|wrapping.3: this key is one of version 3, and the other one is not
3|wrap --key local.3 --wrapping-key wrapping.4|wrapping.4: this key is one of version 4, and the other one is not
3|unseal --key sealed.4 --unlock-key local.4|local.4: this key is one for local tokens, and another type is needed
3|wrap --key local.4 --wrapping-key secret.4|secret.4: this key is a private one, and another type is needed
3|wrap --key local.4 --wrapping-key public.4|public.4: this key is a public one, and another type is needed
3|wrap --key local.4 --wrapping-key short|short: this key was not in the correct format
3|seal --key local.1 --to rsa.public.pem|local.1: keys of version 1 are neither sealed nor unsealed here
3|unwrap --key locked.v4.local --password-file password --format pem|locked.v4.local: keys for local tokens have no PEM text
3|unwrap --key locked.v2.public --password-file password --format pem|locked.v2.public: keys of version 2 have no PEM text of their own: it would be read as one of version 4
3|sign --key broken.pem|broken.pem: neither PASERK nor valid PEM
3|sign --key encrypted.pem|encrypted.pem: encrypted PEM: remove its password by openssl pkey -in FILE -out NEW
3|sign --key x25519.pem|x25519.pem: a key of another algorithm than RSA, P-384 and Ed25519
3|sign --key p256.pem|p256.pem: a key of P-256: version 3 takes P-384
3|sign --key rsa3072.pem|rsa3072.pem: an RSA key of another size: version 1 takes 2048 bits
LIST

finish
