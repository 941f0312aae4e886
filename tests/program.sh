#!/usr/bin/env bash
# Checks the built program from outside: what no proof of a function can see, as the status of the
# process, the words and streams that it is really given, and which stream gets what.
#
#   tests/program.sh [PROGRAM]
#
# Without PROGRAM it takes the one that build.sh leaves in the crate's out/, and proves and builds it where it is
# not there. The last line is 'N passed, M failed', and the status is 0 where none failed.
set -u
export LC_ALL=C

root=$(cd "$(dirname "$0")/.." && pwd)
program=${1-$root/crates/paseto_tool/out/paseto_tool}
if [ $# -eq 0 ] && [ ! -x "$program" ]; then
    python3 "$root/tools/prove.py" paseto_tool
fi
if [ ! -x "$program" ]; then
    echo "there is no program $program"
    echo "0 passed, 1 failed"
    exit 1
fi

work=$(mktemp -d)
trap 'rm -rf "$work"' EXIT
passed=0
failed=0

# The 32 bytes `wubbalubbadubdubwubbalubbadubdub`, and others.
key=77756262616c7562626164756264756277756262616c75626261647562647562
other_key=87756262616c7562626164756264756277756262616c75626261647562647562
zero=0000000000000000000000000000000000000000000000000000000000000000
ones=ffffffffffffffffffffffffffffffffffffffffffffffffffffffffffffffff

# Tokens under the key and the nonce of zeros, made by Python's hashlib and hmac, libsodium and OpenSSL:
# of the empty text, of the letter `a`, and of the twelve bytes `hello, world`.
v4_empty=v4.local.AAAAAAAAAAAAAAAAAAAAAAAAAAAAAAAAAAAAAAAAAAAbOgN0OVjqz2vTDD02NopmW7deH56O2K4vACTMJ5F11A
v4_footer=v4.local.AAAAAAAAAAAAAAAAAAAAAAAAAAAAAAAAAAAAAAAAAACr89_zXPNiFDVeypK3tg0GXB5cZHG752dbZ4qV47Xkng.Zm9vdGVy
v4_both=v4.local.AAAAAAAAAAAAAAAAAAAAAAAAAAAAAAAAAAAAAAAAAAB-FRxKX3uaUvnGeCbRSNoU9jpkI6DiwGmIC0xZNxBpaQ.Zm9vdGVy
v4_nonce_of_ones=v4.local.__________________________________________8DOUsnKh0CTuDRGZanTsVHX4mURC0RW2lMVILorYC4DA
v3_empty=v3.local.AAAAAAAAAAAAAAAAAAAAAAAAAAAAAAAAAAAAAAAAAAC9IQiIqc1479XV9cyloDij0rVA9zpWAuLWvks7uK-mx692cBoB58uATR7nJKl5cEk
v3_both=v3.local.AAAAAAAAAAAAAAAAAAAAAAAAAAAAAAAAAAAAAAAAAAAXCulCjMfGzOfExvlnas17MAluMcrdximdcOqBKau6UkfhT5Z19sOFgAsltfej5gc.
v1_empty=v1.local.bB8u6Tj60uJL2RKYR0OCyiGMdds9g-EUs9Q2d3bRTTXq9Y401eI4FS7qbW7qvc5PGhe6_U4ftOqJig3AvYOFnA7a51CqRo5LIBv-tV-XJWA
v1_footer=v1.local.bB8u6Tj60uJL2RKYR0OCyiGMdds9g-EUs9Q2d3bRTTVE0LdPCPLdyAIb2OKk4RKC-70JjDBskyDOVJJKrUgcHBd-YlZVQgY9Fd4p8IHbByw.Zm9vdGVy
v4_empty_asserted=v4.local.AAAAAAAAAAAAAAAAAAAAAAAAAAAAAAAAAAAAAAAAAACCFSST9aMcS0D8VsRV2UMF7g9nBE9tBfhlLYqN4Ui1yQ
v4_a=v4.local.AAAAAAAAAAAAAAAAAAAAAAAAAAAAAAAAAAAAAAAAAADIhkPqrPPbiL9vRJYCPdoY41ZuM8kZrYlIV9d6tL_npow
v4_a_footer=v4.local.AAAAAAAAAAAAAAAAAAAAAAAAAAAAAAAAAAAAAAAAAADIxerjdEEPnnVreBtrbfiEKHXnweVj4sLrj0g1CWYOMVE.Zm9vdGVy
v4_a_both=v4.local.AAAAAAAAAAAAAAAAAAAAAAAAAAAAAAAAAAAAAAAAAADIQWEk6PIIil-8RadblwXfRbOBiSpqx68T35bH8naoAV4.eyJraWQiOiJrMSJ9
v3_a_footer=v3.local.AAAAAAAAAAAAAAAAAAAAAAAAAAAAAAAAAAAAAAAAAAB9GeADnt7MXSuLVKtzL4M10J-EjfeTzzQ2aysngNs5iDfpczfB5AQa7RCLbEldIIIJ.Zm9vdGVy
v3_a_both=v3.local.AAAAAAAAAAAAAAAAAAAAAAAAAAAAAAAAAAAAAAAAAAB9ej6JYJUkr2x0GxaeafU4_0ybgzRNZNub4loMx6GfpXzD7CEsmKRHR_M36aSX-nEb.eyJraWQiOiJrMSJ9
v1_a_footer=v1.local.CLSf5t9Bj9fhey6p8PnxikxYyYOjVOUVw38VewEQWVQkK1alyAMb1IRMc__nS7ztM2hRK5Hniyq_R21wq1_hO9TyaFILsOUl_DsIgwoR2aH_.Zm9vdGVy
declare -A hello=(
    [v1]=v1.local.JC83hO35dYCAexa8LevOYX2ytWxJfrjdAuUXdBDC5JuZLQqLCmn5qvxbqLLua5WNMQKJLfBrNiYKR3vc-GZiFdroqlyV3KcFZ5IrMyNAKRuT4Wq5xP-TA77ZH5o
    [v3]=v3.local.AAAAAAAAAAAAAAAAAAAAAAAAAAAAAAAAAAAAAAAAAAB0w7Vbo2fqWQ_Ikeycp0UZv2SVGN8BndFHNPq01Ft9II80KL5AkJq4lm05AUpptxzIWJJR9TpzrpCLI6g
    [v4]=v4.local.AAAAAAAAAAAAAAAAAAAAAAAAAAAAAAAAAAAAAAAAAADB2SxXxgxHwaPGNWLr_kgjle1qWw_YYE0oiBHTlnlwVPoah0A3UleShw-m2w
)

# What stands on standard error.
usage='usage: paseto_tool inspect TOKEN | seal VERSION KEY NONCE [FOOTER [ASSERTION]] | open VERSION KEY [FOOTER [ASSERTION]]'
bad_tag='An unspecified cryption error occured'
bad_key='Key was not in the correct format'
bad_count='This string has an incorrect number of parts and cannot be parsed into a token'
bad_header='The token header is invalid'
bad_footer='The provided footer is invalid'
bad_base64='A base64 decode error occurred'
not_utf8='A Utf8 parsing error occurred'
bad_stream='input or output failed'
no_memory='No memory was found'

# The bytes of a file, and a dot, so that line feeds at its end are seen.
bytes_of() {
    cat "$1"
    printf .
}

pass() {
    passed=$((passed + 1))
}

# The last line, and the status.
finish() {
    echo "$passed passed, $failed failed"
    [ "$failed" -eq 0 ]
    exit
}

# A program that fails so often is of no use, and may take its whole time each time.
fail() {
    failed=$((failed + 1))
    echo "FAILED: $1"
    if [ "$failed" -ge 30 ]; then
        echo "the rest is not tried"
        finish
    fi
}

# Runs the program on the words, with the standard streams as they are.
call() {
    timeout 10 "$program" "$@"
}

# verdict NAME STATUS: compares a status and what $work/out and $work/err have with what is wanted, in
# $want_status, $want_out and $want_err.
verdict() {
    local out err
    out=$(bytes_of "$work/out")
    err=$(bytes_of "$work/err")
    if [ "$2" != "$want_status" ]; then
        fail "$1: the status is $2 in place of $want_status"
    elif [ "$out" != "$want_out." ]; then
        fail "$1: standard output is ${out:0:200}"
    elif [ "$err" != "$want_err." ]; then
        fail "$1: standard error is ${err:0:200}"
    else
        pass
    fi
}

# gives NAME INPUT OUTPUT WORD..: status 0, just this output, and nothing on standard error.
gives() {
    local name=$1 input=$2
    want_status=0 want_out=$3 want_err=
    shift 3
    printf %s "$input" >"$work/in"
    call "$@" <"$work/in" >"$work/out" 2>"$work/err"
    verdict "$name" $?
}

# refuses NAME INPUT TEXT WORD..: status 1, no output, and just this line on standard error.
refuses() {
    local name=$1 input=$2
    want_status=1 want_out= want_err=$3$'\n'
    shift 3
    printf %s "$input" >"$work/in"
    call "$@" <"$work/in" >"$work/out" 2>"$work/err"
    verdict "$name" $?
}

# misuses NAME WORD..: status 2, no output, and the usage text, though no input is there.
misuses() {
    local name=$1
    want_status=2 want_out= want_err=$usage$'\n'
    shift
    call "$@" <&- >"$work/out" 2>"$work/err"
    verdict "$name" $?
}

line=$'\n'

# ---- inspect

gives 'inspect with a footer' '' "version: v4${line}purpose: local${line}footer: Zm9vdGVy${line}footer text: footer${line}" \
    inspect v4.local.payload.Zm9vdGVy
gives 'inspect without a footer' '' "version: v4${line}purpose: local${line}footer: none${line}" \
    inspect v4.local.payload
gives 'inspect of an empty footer' '' "version: v4${line}purpose: local${line}footer: ${line}footer text: ${line}" \
    inspect v4.local.payload.
gives 'inspect takes sections as they are' '' "version: ${line}purpose: b${line}footer: none${line}" inspect .b.
gives 'inspect of another version' '' \
    "version: v1${line}purpose: public${line}footer: Zm9vdGVy${line}footer text: footer${line}" inspect 'v1.public.!.Zm9vdGVy'
gives 'inspect of two dots' '' "version: ${line}purpose: ${line}footer: none${line}" inspect ..
refuses 'inspect of five sections' '' "$bad_count" inspect v4.local.payload.Zm9vdGVy.
refuses 'inspect of a footer with padding' '' "$bad_base64" inspect v4.local.payload.Zm9vdGVy=
refuses 'inspect of a footer that is no text' '' "$not_utf8" inspect v4.local.payload._w
refuses 'inspect of a footer that is no base64' '' "$bad_base64" inspect 'v4.local.payload.!!!invalid!!!'
refuses 'inspect of two sections' '' "$bad_count" inspect v4.local
refuses 'inspect of the empty word' '' "$bad_count" inspect ''

# ---- seal and open

gives 'seal v4' '' "$v4_empty$line" seal v4 "$key" "$zero"
gives 'seal v4 with an empty footer' '' "$v4_empty.$line" seal v4 "$key" "$zero" ''
gives 'seal v4 with a footer' '' "$v4_footer$line" seal v4 "$key" "$zero" footer
gives 'seal v4 with footer and assertion' '' "$v4_both$line" seal v4 "$key" "$zero" footer x
gives 'seal v4 under another nonce' '' "$v4_nonce_of_ones$line" seal v4 "$key" "$ones"
gives 'seal v3' '' "$v3_empty$line" seal v3 "$key" "$zero"
gives 'seal v3 with footer and assertion' '' "$v3_both$line" seal v3 "$key" "$zero" '' x
gives 'seal v1' '' "$v1_empty$line" seal v1 "$key" "$zero"
gives 'seal v1 with a footer' '' "$v1_footer$line" seal v1 "$key" "$zero" footer
for version in v1 v3 v4; do
    gives "seal $version of a text" 'hello, world' "${hello[$version]}$line" seal $version "$key" "$zero"
    gives "open $version" "${hello[$version]}" 'hello, world' open $version "$key"
    gives "open $version before a line feed" "${hello[$version]}$line" 'hello, world' open $version "$key"
    refuses "open $version under another key" "${hello[$version]}" "$bad_tag" open $version "$other_key"
    refuses "open $version with an unknown footer" "${hello[$version]}.Zm9v" "$bad_footer" open $version "$key"
done
# both_ways TOKEN VERSION [FOOTER [ASSERTION]]: the letter `a` is sealed to the token, and the token is opened.
both_ways() {
    local token=$1 version=$2
    shift 2
    gives "seal $version of a letter, $#" a "$token$line" seal "$version" "$key" "$zero" "$@"
    gives "open $version of a letter, $#" "$token" a open "$version" "$key" "$@"
    gives "open $version of a letter before a line feed, $#" "$token$line" a open "$version" "$key" "$@"
}

kid='{"kid":"k1"}'
both_ways "$v1_a_footer" v1 footer
both_ways "$v3_a_footer" v3 footer
both_ways "$v3_a_both" v3 "$kid" 'some assertion'
both_ways "$v4_a" v4
both_ways "$v4_a_footer" v4 footer
both_ways "$v4_a_both" v4 "$kid" 'some assertion'
upper_key=${key^^}
gives 'seal v4 under a key in capitals' a "$v4_a$line" seal v4 "$upper_key" "$zero"
gives 'open v4 under a key in capitals' "$v4_a" a open v4 "$upper_key"
gives 'seal v4 with an empty footer and an assertion' '' "$v4_empty_asserted.$line" seal v4 "$key" "$zero" '' x
gives 'open v4 with an empty footer and an assertion' "$v4_empty_asserted" '' open v4 "$key" '' x
gives 'open v4, footer and assertion passed as empty' "$v4_a" a open v4 "$key" '' ''
refuses 'open v4 with another footer' "$v4_a_footer" "$bad_footer" open v4 "$key" other
refuses 'open v4 with an assertion that is not there' "$v4_a_footer" "$bad_tag" open v4 "$key" footer x
refuses 'open v4 with an empty footer, without the assertion' "$v4_empty_asserted" "$bad_tag" open v4 "$key"

gives 'open v4 of the empty text' "$v4_empty$line" '' open v4 "$key"
gives 'open v4, footer passed as empty' "$v4_empty" '' open v4 "$key" ''
gives 'open v4, empty footer section' "$v4_empty." '' open v4 "$key"
gives 'open v4, empty footer on both sides' "$v4_empty." '' open v4 "$key" ''
gives 'open v4 with a footer' "$v4_footer" '' open v4 "$key" footer
gives 'open v4 with footer and assertion' "$v4_both" '' open v4 "$key" footer x
gives 'open v3 with footer and assertion' "$v3_both" '' open v3 "$key" '' x
gives 'open v1 with a footer' "$v1_footer" '' open v1 "$key" footer

refuses 'open v4 of the empty text under another key' "$v4_empty$line" "$bad_tag" open v4 "$other_key"
refuses 'open v4 without its footer section' "${v4_footer%.*}" "$bad_footer" open v4 "$key" footer
refuses 'open v4 with neither section nor footer' "${v4_footer%.*}" "$bad_tag" open v4 "$key"
refuses 'open v4 with a footer that is not passed' "$v4_footer" "$bad_footer" open v4 "$key"
refuses 'open v4 with footer and assertion exchanged' "$v4_both" "$bad_footer" open v4 "$key" x footer
refuses 'open v4 without the assertion' "$v4_both" "$bad_tag" open v4 "$key" footer
refuses 'open v4 of two sections' v4.local "$bad_count" open v4 "$key"
refuses 'open v4 of no input' '' "$bad_count" open v4 "$key"
refuses 'open v3 of a token of version 4' "$v4_empty" "$bad_header" open v3 "$key"
refuses 'open v4 before two line feeds' "$v4_empty$line$line" "$bad_base64" open v4 "$key"
refuses 'open v4 before a carriage return' "$v4_empty"$'\r\n' "$bad_base64" open v4 "$key"
refuses 'open v4, empty footer, before two line feeds' "$v4_empty.$line$line" "$bad_footer" open v4 "$key"
refuses 'open v4 of input that is no text' $'\xff' "$not_utf8" open v4 "$key"
refuses 'seal v4 of input that is no text' $'a\xffb' "$not_utf8" seal v4 "$key" "$zero"

# ---- KEY and NONCE are checked before the input is read, and KEY is not echoed

for bad in "${key%?}" "${key}0" "g${key#?}" '' ' ' "0x$key" 'my secret key'; do
    refuses "seal v4 with the bad key '$bad'" $'\xff' "$bad_key" seal v4 "$bad" "$zero"
    refuses "seal v4 with the bad nonce '$bad'" $'\xff' "$bad_key" seal v4 "$key" "$bad"
    refuses "open v4 with the bad key '$bad'" $'\xff' "$bad_key" open v4 "$bad"
done
want_status=1 want_out= want_err=$bad_key$line
call seal v4 "${key%?}" "$zero" <&- >"$work/out" 2>"$work/err"
verdict 'seal v4 with a bad key and a closed input' $?
call open v4 "${key%?}" <&- >"$work/out" 2>"$work/err"
verdict 'open v4 with a bad key and a closed input' $?

# ---- faults of usage

# What the words may be is proved of `run`. These six show that the program is given them, and what it ends with.
misuses 'no word'
misuses 'an empty word' ''
misuses 'help is no command' --help
misuses 'seal without a nonce' seal v4 "$key"
misuses 'open v1 with an assertion' open v1 "$key" footer x
misuses 'open of a version with no box' open v2 "$key"
# Words are taken as they are: these are no commands.
for word in -- -h -V ' inspect' 'inspect '; do
    misuses "the command '$word'" "$word" v4.local.payload
done

# ---- closed and full outputs

# fails_to_write NAME WORD..: the output takes nothing, so the status is 1.
fails_to_write() {
    local name=$1
    want_status=1 want_out= want_err=$bad_stream$line
    shift
    : >"$work/out"
    call "$@" <"$work/in" >&- 2>"$work/err"
    verdict "$name, output closed" $?
    call "$@" <"$work/in" >/dev/full 2>"$work/err"
    verdict "$name, output full" $?
}

printf %s "${hello[v4]}" >"$work/in"
fails_to_write 'seal v4' seal v4 "$key" "$zero"
fails_to_write 'open v4' open v4 "$key"
fails_to_write 'inspect' inspect v4.local.payload

want_status=0 want_out= want_err=
printf %s "$v4_empty" >"$work/in"
call open v4 "$key" <"$work/in" >&- 2>"$work/err"
verdict 'open v4 of the empty text, output closed' $?

# A file that may grow to 1,024 bytes takes so many bytes more.
for room in {0..96}; do
    printf '' >"$work/in"
    head -c $((1024 - room)) /dev/zero >"$work/grows"
    (trap '' XFSZ; ulimit -f 1; call seal v4 "$key" "$zero" <"$work/in" >>"$work/grows" 2>"$work/err")
    status=$?
    tail -c +$((1025 - room)) "$work/grows" >"$work/out"
    whole=$v4_empty$line
    want_out=${whole:0:room}
    if [ $room -lt 96 ]; then
        want_status=1 want_err=$bad_stream$line
    else
        want_status=0 want_err=
    fi
    verdict "seal v4 into room for $room bytes" $status
done

# A pipe whose reader has gone.
head -c 1000000 /dev/zero | tr '\0' a >"$work/long"
(trap '' PIPE; call seal v4 "$key" "$zero" <"$work/long" 2>"$work/err"; echo $? >"$work/status") \
    | head -c 9 >"$work/out"
want_status=1 want_out=v4.local. want_err=$bad_stream$line
verdict 'seal v4 into a pipe that is closed' "$(cat "$work/status")"

# ---- standard error closed or full changes no status

# keeps_status NAME STATUS OUTPUT WORD..
keeps_status() {
    local name=$1
    want_status=$2 want_out=$3 want_err=
    shift 3
    : >"$work/err"
    call "$@" <"$work/in" >"$work/out" 2>&-
    verdict "$name, standard error closed" $?
    call "$@" <"$work/in" >"$work/out" 2>/dev/full
    verdict "$name, standard error full" $?
}

printf '' >"$work/in"
keeps_status 'seal v4' 0 "$v4_empty$line" seal v4 "$key" "$zero"
keeps_status 'a bad key' 1 '' seal v4 "${key%?}" "$zero"
keeps_status 'no token' 1 '' open v4 "$key"
keeps_status 'a fault of usage' 2 '' seal v2 "$key" "$zero"

# ---- inputs that can't be read

# fails_to_read NAME WORD..
fails_to_read() {
    local name=$1
    want_status=1 want_out= want_err=$bad_stream$line
    shift
    call "$@" <&- >"$work/out" 2>"$work/err"
    verdict "$name, input closed" $?
    call "$@" <"$work" >"$work/out" 2>"$work/err"
    verdict "$name, a folder as input" $?
}

fails_to_read 'seal v4' seal v4 "$key" "$zero"
fails_to_read 'open v4' open v4 "$key"

# The first bytes of a token, and then no end.
for length in 0 1 40; do
    want_status=1 want_out= want_err=$bad_stream$line
    printf %s "${v4_a:0:length}" >"$work/in"
    python3 "$root/tests/broken_input.py" "$work/in" "$program" open v4 "$key" >"$work/out" 2>"$work/err"
    verdict "open v4 of an input that fails after $length bytes" $?
done

# Of 10,000 bytes: 4,096, then the rest, and then the end.
head -c 10000 /dev/zero | tr '\0' a >"$work/in"
strace -qq -e trace=read -o "$work/reads" "$program" seal v4 "$key" "$zero" <"$work/in" >/dev/null 2>"$work/err"
reads=$(grep -c '^read(0,' "$work/reads")
if [ "$reads" -eq 3 ] && [ ! -s "$work/err" ]; then
    pass
else
    fail "10,000 bytes are read by $reads calls in place of 3"
fi

want_status=0 want_out="version: v4${line}purpose: local${line}footer: none${line}" want_err=
call inspect v4.local.payload <&- >"$work/out" 2>"$work/err"
verdict 'inspect, input closed' $?
call inspect v4.local.payload <"$work" >"$work/out" 2>"$work/err"
verdict 'inspect, a folder as input' $?

# ---- long inputs, and inputs in pieces

call seal v4 "$key" "$ones" <"$work/long" >"$work/token" 2>"$work/err"
sealed=$?
call open v4 "$key" <"$work/token" >"$work/back" 2>>"$work/err"
opened=$?
if [ "$sealed $opened" = '0 0' ] && [ "$(sha256sum <"$work/back")" = "$(sha256sum <"$work/long")" ] \
    && [ "$(wc -c <"$work/token")" -eq 1333429 ] && [ ! -s "$work/err" ]; then
    pass
else
    fail 'a text of a million bytes, sealed and opened'
fi

# Sixteen mebibytes come and go within the ten seconds that a call may take.
head -c 16777216 /dev/zero | tr '\0' a >"$work/longer"
if call seal v4 "$key" "$ones" <"$work/longer" >"$work/token" 2>"$work/err" \
    && call open v4 "$key" <"$work/token" 2>>"$work/err" | cmp -s - "$work/longer" && [ ! -s "$work/err" ]; then
    pass
else
    fail 'a text of sixteen mebibytes, sealed and opened'
fi

# A footer and an assertion of 100,000 letters, and a text of control characters and a letter of four bytes.
letters=$(head -c 100000 "$work/long")
odd=$'\a\r\n\e\xf0\x9f\x98\x80'
printf 'a\0%s' "$odd" >"$work/in"
want_status=0 want_err=
call seal v4 "$key" "$ones" "$letters" "$letters" <"$work/in" >"$work/token" 2>"$work/err"
call open v4 "$key" "$letters" "$letters" <"$work/token" >"$work/back" 2>>"$work/err"
if cmp -s "$work/in" "$work/back" && [ ! -s "$work/err" ]; then
    pass
else
    fail 'a long footer, a long assertion and an odd text'
fi
gives 'seal v4 with an odd footer, and open it' "$(printf hello | call seal v4 "$key" "$zero" "$odd")" hello \
    open v4 "$key" "$odd"

# A word has at most 128 KiB; this one is the longest of them that is a token.
gives 'inspect of a long token' '' "version: v4${line}purpose: local${line}footer: none${line}" \
    inspect "v4.local.$(head -c 131000 "$work/long")"

# `inspect` does not wait for its input, and no variable changes what is said.
want_status=0 want_out="version: v4${line}purpose: local${line}footer: none${line}" want_err=
sleep 2 | timeout 1 "$program" inspect v4.local.payload >"$work/out" 2>"$work/err"
verdict 'inspect, an open pipe as input' ${PIPESTATUS[1]}
want_status=1 want_out= want_err=$bad_tag$line
printf %s "$v4_empty" | RUST_BACKTRACE=full RUST_LOG=trace DEBUG=1 LANG=de_DE.UTF-8 call open v4 "$other_key" \
    >"$work/out" 2>"$work/err"
verdict 'open v4, other variables' $?

want_status=0 want_out=${hello[v4]}$line want_err=
{ printf 'hello'; sleep 0.1; printf ', wor'; sleep 0.1; printf 'ld'; } \
    | call seal v4 "$key" "$zero" >"$work/out" 2>"$work/err"
verdict 'seal v4 of input in pieces' $?

want_status=1 want_out= want_err=$no_memory$line
head -c 300000000 /dev/zero \
    | (ulimit -v 100000; call seal v4 "$key" "$zero" >"$work/out" 2>"$work/err")
verdict 'seal v4 of more than the memory that it may have' $?

# ---- words that are no text, and more words than there is memory for

# A word that is not UTF-8 is a fault of usage.
words_that_are_no_text() {
    misuses 'a token that is no text' inspect $'v4.local.payload.\xff'
    misuses 'a command that is no text' $'\xff'
    misuses 'a key that is no text' seal v4 $'\xff' "$zero"
    misuses 'a footer that is no text' seal v4 "$key" "$zero" $'foot\xff'
}

# Where there is no memory for the words, that is said. So many words take the program more memory than
# the shell that starts it, so that under some limits the shell starts it and it has too little. With
# enough it says that they are no use.
no_memory_for_the_words() {
    local words limit status err refused=no used=no other=none
    words=$(printf 'a %.0s' {1..30000})
    for ((limit = 3000; limit <= 18000; limit += 500)); do
        # shellcheck disable=SC2086
        (
            timeout 10 sh -c 'ulimit -v "$1"; shift; exec "$@"' limited $limit "$program" $words \
                <&- >"$work/out" 2>"$work/err"
            exit $?
        ) 2>/dev/null
        status=$?
        err=$(bytes_of "$work/err")
        case "$status $err" in
            *" limited: "*) ;;
            "1 $no_memory$line.") refused=yes ;;
            "2 $usage$line.") used=yes ;;
            [012]\ *) other=$err ;;
        esac
    done
    if [ "$refused $used $other" = 'yes yes none' ]; then
        pass
    else
        fail "little memory for the words: refused: $refused, enough: $used, other texts: ${other:0:200}"
    fi
}

words_that_are_no_text
no_memory_for_the_words

finish
