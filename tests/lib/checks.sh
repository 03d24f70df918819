# What the tests in bash have in common. A test sources this file first: it goes to the top of the repository, and makes the folder
# $room, which is gone at the end. What fails is reported with the name of the test.
root=$(realpath "$(dirname "${BASH_SOURCE[0]}")/../..")
export LC_ALL=C.UTF-8 # what compilers and others say is compared
this_test=$(realpath --relative-to="$root" "$0")
cd "$root"
room=$(mktemp -d)
trap 'rm -rf "$room"' EXIT
faults=0

has() { command -v "$1" > /dev/null 2>&1; }

# fault WHAT..: says what failed, counts it, and goes on
fault() {
    faults=$((faults + 1))
    echo "$this_test: FAILED: $*" >&2
}

# fail WHAT..: says what failed, and ends the test
fail() {
    fault "$@"
    exit 1
}

# fail_with LOG WHAT..: the same after the text of a file
fail_with() {
    cat "$1" >&2
    fail "${@:2}"
}
