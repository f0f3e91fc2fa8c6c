# shellcheck shell=bash
# What the tests of the launcher share: plants/launcher and those whose names begin so. It is sourced, in the folder of the script that sources it.
set -u
cd "$(dirname "${BASH_SOURCE[1]}")" || exit 1
folder=$(mktemp -d) || exit 1
chmod 755 "$folder"
trap 'rm -rf "$folder"' EXIT
script=${BASH_SOURCE[1]##*/}
launcher=$PWD/../plant984
plants=$PWD
# On a busy machine a command that looks at runs would say how far it is.
export PLANT984_PATIENCE=none
"$launcher" run 1 first.toml >/dev/null || exit 1
passed=0
failed=0
line=$'\n'

# try NAME STATUS OUT SAYS WORD..   OUT is the whole standard output, SAYS a text that standard error has,
# or nothing where it has to be empty. The input is $input.
try() {
    local name=$1 status=$2 out=$3 says=$4 found
    shift 4
    "$@" <"$input" >"$folder/out" 2>"$folder/err"
    found=$?
    printf '%s' "$out" >"$folder/wanted"
    if [ "$found" -eq "$status" ] && cmp -s "$folder/out" "$folder/wanted" &&
        { [ -n "$says" ] && grep -qF -- "$says" "$folder/err" || [ -z "$says$(cat "$folder/err")" ]; }; then
        passed=$((passed + 1))
    else
        echo "plants/$script: $name: status $found; $(head -c 200 "$folder/out"); $(head -c 300 "$folder/err")"
        failed=$((failed + 1))
    fi
}

# holds NAME COMMAND..: whether a command succeeds.
holds() {
    local name=$1
    shift
    if "$@" >"$folder/out" 2>&1; then passed=$((passed + 1)); else
        echo "plants/$script: $name: $(head -c 300 "$folder/out")"
        failed=$((failed + 1))
    fi
}

# Says how many passed, and ends with that.
finish() {
    echo "$script: $passed passed, $failed failed"
    [ "$failed" -eq 0 ]
    exit
}
