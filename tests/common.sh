# Shared by the scripts that compare the two programs; they source it. Each is
# called as
#
#   SCRIPT FIRST [COUNT [SEED]]
#     FIRST  the first program: reads case records on standard input
#     COUNT  how many generated records, 20000 where not given
#     SEED   what they are generated from, 1 where not given

script=$(basename "$0")
files=0
total=0

fail() {
    echo "$script: $*" >&2
    exit 1
}

# A decimal number without needless zeros in front.
is_number() {
    case $1 in
    '' | *[!0-9]* | 0?*) return 1 ;;
    esac
}

# Reads the script's arguments, builds the second program and makes a work
# folder.
prepare() {
    if [ $# -lt 1 ] || [ $# -gt 3 ]; then
        fail "usage: tests/$script FIRST [COUNT [SEED]]"
    fi
    first=$1
    count=${2:-20000}
    seed=${3:-1}
    command -v "$first" >/dev/null || fail "no such program: $first"
    is_number "$count" || fail "COUNT must be a number"
    [ "$count" -gt 0 ] || fail "COUNT must be above 0"
    is_number "$seed" || fail "SEED must be a number"

    root=$(cd "$(dirname "$0")/.." && pwd)
    second=$root/second/target/release/second
    cargo build --quiet --release --offline \
        --manifest-path "$root/second/Cargo.toml" \
        --target-dir "$root/second/target" || fail "the second program was not built"

    work=$(mktemp -d)
    trap 'rm -rf "$work"' EXIT
    trap 'exit 1' HUP INT TERM
}

# Runs both programs on $work/case; $1 is the case file's name.
run_both() {
    "$first" <"$work/case" >"$work/first" ||
        fail "$1: the first program ended with status $?"
    "$second" run <"$work/case" >"$work/second" ||
        fail "$1: the second program ended with status $?"
}

# Succeeds where two files hold the same lines, at least one; otherwise shows
# the first that differs. `crc *` in the expected file stands for any checksum.
same_lines() {
    awk -v expected="$1" -v printed="$2" -v who="$3" -v whose="$4" 'BEGIN {
        digit = "[0-9a-f]"
        four = digit digit digit digit
        do {
            line++
            more = (getline want <expected) > 0
            got_more = (getline got <printed) > 0
            if (want ~ / crc \*$/) sub(" crc " four four "$", " crc *", got)
        } while (more && got_more && want == got)
        if (!more && !got_more && line > 1) exit 0
        print "line " line ":"
        print "  " who ": " (more ? want : "(no line)")
        print "  " whose ": " (got_more ? got : "(no line)")
        exit 1
    }' >&2
}

# Checks what both programs printed: $1 name, $2 number of lines, $3 `bad`
# where the last line, and only that, must be `bad record`.
compare_outputs() {
    if ! cmp -s "$work/first" "$work/second"; then
        same_lines "$work/first" "$work/second" first second || fail "$1: the programs differ"
        fail "$1: the programs print the same lines but not the same bytes"
    fi
    lines=$(wc -l <"$work/second")
    [ "$lines" -eq "$2" ] || fail "$1: $((lines)) lines, expected $2"
    bad=$(grep -n -x 'bad record' "$work/second" | cut -d : -f 1) || true
    if [ "$3" = bad ]; then
        [ "$bad" = "$2" ] || fail "$1: the last line alone must be a bad record"
    else
        [ -z "$bad" ] || fail "$1: a bad record at line $bad"
    fi
    echo "$1: $2 lines agree"
    files=$((files + 1))
    total=$((total + $2))
}

# Holds both programs to the known answers in the folder $1.
compare_known() {
    known=0
    for file in "$1"/*.txt; do
        name=$(basename "$file" .txt)
        "$second" fixed "$name" >"$work/case" || fail "$name: no such case file"
        run_both "$name"
        for program in first second; do
            same_lines "$file" "$work/$program" known "$program" ||
                fail "$name: the $program program misses a known answer"
        done
        echo "$name: known answers met by both"
        known=$((known + 1))
    done
    [ "$known" -gt 0 ] || fail "no known answers"
}

# Compares the fixed case files that `second fixed $1` lists.
compare_fixed() {
    names=$("$second" fixed "$1") || fail "no list of fixed case files"
    [ -n "$names" ] || fail "no fixed case files"
    for name in $names; do
        "$second" fixed "$name" >"$work/case" || fail "$name: no such case file"
        lines_expected=$("$second" lines "$name") || fail "$name: no number of lines"
        [ "$lines_expected" -gt 0 ] || fail "$name: no line expected"
        run_both "$name"
        case $name in
        bad* | *-bad*) compare_outputs "$name" "$lines_expected" bad ;;
        *) compare_outputs "$name" "$lines_expected" good ;;
        esac
    done
}

# Compares records that the second program makes: $1 name, $2 number of lines,
# then the command.
compare_made() {
    made=$1
    lines_expected=$2
    shift 2
    "$second" "$@" >"$work/case" || fail "$made: nothing was made"
    run_both "$made"
    compare_outputs "$made" "$lines_expected" good
}

# Compares generated records: $1 is the command that makes them.
compare_generated() {
    lines_expected=$("$second" lines "$1" "$seed" "$count") || fail "no number of lines"
    [ "$lines_expected" -gt "$count" ] || fail "too few lines expected"
    compare_made "$1 from seed $seed" "$lines_expected" "$1" "$seed" "$count"
}

finish() {
    echo "$script: $files files, $total lines, all the same"
}
