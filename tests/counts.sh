# What the scripts of this folder count by: each reads this file, calls `pass` or `fail` for each thing that it asks, and
# ends with `finish`.
passed=0
failed=0

pass() {
    passed=$((passed + 1))
}

fail() {
    failed=$((failed + 1))
    echo "FAILED: $1"
}

# is NAME FOUND WANTED
is() {
    if [ "$2" = "$3" ]; then
        pass
    else
        fail "$1: ${2:0:200} in place of ${3:0:200}"
    fi
}

# The last line, and the status.
finish() {
    echo "$passed passed, $failed failed"
    [ "$failed" -eq 0 ]
    exit
}

# needs COMMAND PACKAGE: ends the script where a command that it asks is missing.
needs() {
    command -v "$1" >/dev/null && return
    fail "$1 is missing. On Debian: apt-get install $2"
    finish
}
