#!/bin/sh
# Runs build/rafterloop on good and bad logs and compares status and words. Run from the top of the repository, after `make`.
# RUN names an emulator where the machine isn't x86-64. Natively, every run but those under a limit on memory is under valgrind where it is installed.
set -u
program=build/rafterloop
dir=$(mktemp -d)
trap 'rm -rf "$dir"' EXIT
run=${RUN:-}
if [ -z "$run" ] && command -v valgrind > /dev/null; then
    run="valgrind -q --error-exitcode=99 --leak-check=full"
fi
tests=0
failed=0

# expect STATUS WORDS COMMAND..: the status, and words (a basic regular expression) that the output or the errors must have
expect() {
    status=$1
    words=$2
    shift 2
    $run "$program" "$@" > "$dir/out" 2>&1
    got=$?
    tests=$((tests + 1))
    if [ "$got" != "$status" ] || ! tr -s ' ' < "$dir/out" | grep -q "$words"; then
        failed=$((failed + 1))
        echo "FAILED: rafterloop $*: status $got, not $status, or no '$words' in:"
        head -5 "$dir/out"
    fi
}

# folded WANT LOG..: the whole output of a fold, its header left out, blanks as one and none in front
folded() {
    want=$1
    shift
    $run "$program" fold "$@" > "$dir/out" 2>&1
    got=$?
    tests=$((tests + 1))
    printf '%s' "$want" > "$dir/want"
    if [ "$got" != 0 ] || ! tail -n +2 "$dir/out" | tr -s ' ' | sed 's/^ //' | cmp -s - "$dir/want"; then
        failed=$((failed + 1))
        echo "FAILED: rafterloop fold $*: status $got, or another output:"
        head -20 "$dir/out"
    fi
}

# wrong WORDS LOG: a log that neither command takes
wrong() {
    expect 1 "$1" fold "$2"
    expect 1 "$1" check "$2"
}

# bad LINE WORDS: a log whose second line is bad
bad() {
    printf '1 1 1 1 1\n%s\n' "$1" > "$dir/bad.log"
    wrong "bad.log:2: $2" "$dir/bad.log"
}

# good WANT UPDATES TEXT: a log of this text, with escapes as in %b: all that a fold of it says, and how many updates a check counts
good() {
    printf '%b' "$3" > "$dir/good.log"
    folded "$1" "$dir/good.log"
    expect 0 "good.log: good, $2 updates" check "$dir/good.log"
}

expect 2 usage
expect 2 usage fold
expect 2 usage mend samples/cold-morning.log
expect 1 'missing.log' fold "$dir/missing.log"

# the cold morning: yesterday's low air stands before today's clear; the plug that was taken back is gone
expect 0 '^ 12 3 41 90210 +1$' fold samples/cold-morning.log
expect 0 '^ 12 3 42 7 -1$' fold samples/cold-morning.log
expect 0 '7 updates, 2 trucks, 3 records' check samples/cold-morning.log
$run "$program" fold samples/cold-morning.log | tr -s ' ' > "$dir/out"
printf ' truck fault ignition tick change\n 9 8 42 30 +1\n 12 3 41 90210 +1\n 12 3 42 7 -1\n' > "$dir/want"
tests=$((tests + 1))
cmp "$dir/out" "$dir/want" || failed=$((failed + 1))

: > "$dir/empty.log"
expect 0 'truck' fold "$dir/empty.log"
expect 0 '0 updates, 0 trucks, 0 records' check "$dir/empty.log"
printf '# only a comment\n\n  \t\n5 6 7 8 9 # and a number\n' > "$dir/comment.log"
expect 0 '^ 5 6 7 8 +9$' fold "$dir/comment.log"
printf '5 6 7 8 -9' > "$dir/minus.log"
expect 0 '^ 5 6 7 8 -9$' fold "$dir/minus.log"
expect 0 '^ truck' fold "$dir/comment.log" "$dir/minus.log"
if grep -q 5 "$dir/out"; then failed=$((failed + 1)); echo "FAILED: two logs that cancel"; fi

# two logs that overlap: a shared change is added, one cancels, the longer log's end stands behind; in either order
printf '7 4 2 0 +1\n9 3 1 5 +2\n7 3 1 5 +1\n7 3 1 9 -1\n' > "$dir/a.log"
printf '7 4 1 0 +1\n7 3 1 9 +1\n7 3 1 5 +4\n' > "$dir/b.log"
ab='7 3 1 5 +5
7 4 1 0 +1
7 4 2 0 +1
9 3 1 5 +2
'
folded "$ab" "$dir/a.log" "$dir/b.log"
folded "$ab" "$dir/b.log" "$dir/a.log"
# with an empty one first, last and between
folded "$ab" "$dir/empty.log" "$dir/a.log" "$dir/b.log"
folded "$ab" "$dir/a.log" "$dir/empty.log" "$dir/b.log" "$dir/empty.log"
folded '' "$dir/empty.log" "$dir/empty.log"
# three logs: the third takes back a sum of the other two, and a change of its own stands before all; and five
printf '1 1 1 1 -3\n7 3 1 5 -5\n9 3 1 5 -1\n' > "$dir/c.log"
abc='1 1 1 1 -3
7 4 1 0 +1
7 4 2 0 +1
9 3 1 5 +1
'
folded "$abc" "$dir/a.log" "$dir/b.log" "$dir/c.log"
folded "$abc" "$dir/c.log" "$dir/a.log" "$dir/b.log"
folded "$abc" "$dir/b.log" "$dir/c.log" "$dir/a.log"
folded '1 1 1 1 -6
7 3 1 5 -4
7 3 1 9 -1
7 4 1 0 +1
7 4 2 0 +2
9 3 1 5 +2
' "$dir/c.log" "$dir/a.log" "$dir/b.log" "$dir/a.log" "$dir/c.log"
# logs that cancel entirely: two, and three together
sed 's/+/x/; s/-/+/; s/x/-/' "$dir/a.log" > "$dir/back.log"
folded '' "$dir/a.log" "$dir/back.log"
folded "$ab" "$dir/a.log" "$dir/back.log" "$dir/a.log" "$dir/b.log"
printf '7 4 1 0 -1\n7 3 1 9 -1\n7 3 1 5 -4\n1 1 1 1 +3\n7 3 1 5 +5\n9 3 1 5 -1\n7 4 2 0 -1\n7 3 1 5 -1\n7 3 1 9 +1\n' > "$dir/rest.log"
folded '' "$dir/a.log" "$dir/b.log" "$dir/c.log" "$dir/rest.log"
# a refused log among good ones is named, and so is a bad line of another
printf '1 1 1 1 1099511627777\n' > "$dir/over.log"
expect 1 'over.log: refused, 4: ' fold "$dir/a.log" "$dir/over.log" "$dir/b.log"
printf '18446744073709551615 18446744073709551615 4294967295 4294967295 1099511627776\r\n' > "$dir/most.log"
expect 0 '^ *18446744073709551615 18446744073709551615 4294967295 4294967295 +1099511627776$' fold "$dir/most.log"
printf '1 1 1 1 1099511627777\n' > "$dir/over.log"
expect 1 'over.log: refused, 4: ' fold "$dir/over.log"
expect 1 'over.log: refused, 4: ' check "$dir/over.log" samples/cold-morning.log

bad '1 2 3 4' 'change is missing'
bad '1 2 3' 'tick is missing'
bad 'x 2 3 4 5' 'truck is not a whole number'
bad '1 2.5 3 4 5' 'fault is not a whole number'
bad '1 -2 3 4 5' 'fault is not a whole number'
bad '1 2 4294967296 4 5' 'ignition is too large'
bad '1 2 3 4294967296 5' 'tick is too large'
bad '18446744073709551616 2 3 4 5' 'truck is too large'
bad '1 2 3 4 9223372036854775808' 'change is too large'
bad '1 2 3 4 --5' 'change is not a whole number'
bad '1 2 3 4 5 6' 'line has more than'
printf '1 1 1 1 1\0\n' > "$dir/zero.log"
expect 1 'zero.log:1: line has a zero byte' fold "$dir/zero.log"

# a carriage return is good before a newline and at the very end, and nowhere else: not as the only line end, not in a comment
two='5 6 7 8 +9
5 6 7 9 -9
'
good "$two" 2 '# a comment\r\n5 6 7 8 +9\r\n\r\n5 6 7 9 -9 # another\r\n'
good "$two" 2 '5 6 7 9 -9\r\n5 6 7 8 +9\r'
printf '# a comment\r5 6 7 8 +9\r5 6 7 9 -9\r' > "$dir/return.log"
wrong 'return.log:1: line has a carriage return inside' "$dir/return.log"
printf '5 6 7 8 +9\r5 6 7 9 -9\r' > "$dir/return.log"
wrong 'return.log:1: line has a carriage return inside' "$dir/return.log"
bad "$(printf '1 2 3 4 5 # a\rcomment')" 'line has a carriage return inside'
bad "$(printf '1 2 3\r4 5')" 'line has a carriage return inside'
bad "$(printf '1 2 3 4 5\r\r')" 'line has a carriage return inside'
# a byte order mark is passed over at the very start, and nowhere else
good "$two" 2 '\0357\0273\02775 6 7 8 +9\n5 6 7 9 -9\n'
good "$two" 2 '\0357\0273\0277# a comment\r\n5 6 7 9 -9\r\n5 6 7 8 +9\r\n'
good '' 0 '\0357\0273\0277'
bad "$(printf '\357\273\2771 2 3 4 5')" 'truck is not a whole number'
bad "$(printf '1 2 3 4 5\357\273\277')" 'change is not a whole number'
printf '\357\273\277\357\273\2771 2 3 4 5\n' > "$dir/marks.log"
wrong 'marks.log:1: truck is not a whole number' "$dir/marks.log"

# a folder is no log
mkdir "$dir/folder.log"
wrong 'folder.log: can.t be read to the end: Is a directory' "$dir/folder.log"
# under a limit on memory (kilobytes; the emulator starts with half of it), a good log is good; but a good line and then 1 GB without a newline,
# which take no room on the disk, are no log of one update
limited() { (ulimit -v 500000 && exec "$@"); }
whole=$run
run="limited ${RUN:-}"
good "$two" 2 '5 6 7 8 +9\n5 6 7 9 -9\n'
printf '1 1 1 1 1\n' > "$dir/long.log"
dd if=/dev/null of="$dir/long.log" bs=1 seek=1000000000 2> /dev/null
wrong 'long.log: can.t be read to the end: Cannot allocate memory' "$dir/long.log"
run=$whole

# the library's own limit: 1048576 updates are taken, one more is refused with 2
awk 'BEGIN { for (i = 0; i < 1048576; i++) print i % 1000, 1, 1, 1, 1 }' > "$dir/limit.log"
expect 0 '1048576 updates, 1000 trucks, 1000 records' check "$dir/limit.log"
echo '1 1 1 1 1' >> "$dir/limit.log"
expect 1 'limit.log: refused, 2: ' check "$dir/limit.log"
# two logs of as many times as are taken, and one more in the second: refused with 2
awk 'BEGIN { for (i = 0; i < 524288; i++) print 2 * i, 1, 1, 1, 1 }' > "$dir/even.log"
awk 'BEGIN { for (i = 0; i < 524288; i++) print 2 * i + 1, 1, 1, 1, 1 }' > "$dir/odd.log"
expect 0 '^ 1048575 1 1 1 +1$' fold "$dir/even.log" "$dir/odd.log"
echo '0 1 1 2 1' >> "$dir/odd.log"
expect 1 'all logs: refused, 2: ' fold "$dir/even.log" "$dir/odd.log"
# a change out of range, as the last of a million
awk 'BEGIN { for (i = 0; i < 999999; i++) print i % 1000, 1, 1, 1, 1; print "1 1 1 1 1099511627777" }' > "$dir/last.log"
expect 1 'last.log: refused, 4: ' check "$dir/last.log"

# answer WANT LINE: what build/answers says of one case, its last zeros, five or more, written `..`
answer() {
    got=$(echo "$2" | $run build/answers | sed 's/\( 0\)\{5,\}$/ ../')
    tests=$((tests + 1))
    if [ "$got" != "$1" ]; then
        failed=$((failed + 1))
        echo "FAILED: $2: '$got', not '$1'"
    fi
}

# document 01's chunk A, extracted and surveyed
a='2 3 4 4 7 9 2 3 3 4 3 2 3 4 4294967301 4294967305 8589934592 4294967301 1 2 3 4 1 18446744073709551615 1 2'
b='1 2 2 2 7 2 3 4 1 2 4294967305 4294967296 1 2 1 1'
gap='1 1 1 0 7 1 3 1 5 0'
answer '0 | 1 2 2 2 7 2 3 4 1 2 4294967305 8589934592 1 2 18446744073709551615 1 | 2 2 2 2 7 9 1 2 3 3 1 2 4294967301 4294967301 1 2 1 2 | 2 2 4294967305 8589934592 ..' \
    "extract 2 4294967305 8589934592 | $a"
answer "0 | $a | 0 0 0 0 | 0 2 4294967301 8589934592 .." "extract 1 0 | $a"
answer "0 | 0 0 0 0 | $a | 1 .." "extract 0 | $a"
answer '0 | 0 0 0 0 | 0 0 0 0 | ..' 'extract 0 | 0 0 0 0'
answer 9 "extract 2 8589934592 4294967305 | $a"
answer 9 'extract 129 0 | 1'
answer 5 'extract 0 | 1'
answer 6 "extract 0 | $gap"
answer 13 "@-1 extract 0 | $a"
answer 13 "@0,-1,0 extract 0 | $a"
answer 13 "@0,0,-1 extract 0 | $a"
answer '0 | 2 | 2 0 0 0 1 2' "@0,0,0 survey | $a | $b"
answer '0 | 2 | 2 0 0 1 1 2' "survey | $b | $a"
answer 12 "@-1 survey | $a | $b"
answer 13 "@0,0,-1 survey | $a | $b"
answer 5 "survey | 1 | $b"
answer 6 "survey | $gap | $b"
answer 7 "survey | $a | 0 0 0 0"

# A merged with B up to (7, 4, (1, 0)): (7, 3, (1, 9)) cancels, and A is left from (7, 4, (2, 0)) on
most='1 1 1 1 7 1 3 1 4294967301 1 9223372036854775807'
answer '0 | 1 2 3 2 7 2 3 4 2 3 4294967301 4294967305 4294967296 1 1 2 1 1 | 1 0 1 2' "@0,0,0 merge | $a | $b"
answer '0 | 1 2 3 2 7 2 3 4 2 3 4294967301 4294967305 4294967296 1 1 2 1 1 | 2 0 1 2' "merge | $b | $a"
answer '0 | 1 2 2 2 7 2 3 4 1 2 4294967305 4294967296 1 2 2 2 | 0 0 0 0' "merge | $b | $b"
answer 13 "@0,0,-1 merge | 1 | 1"
answer 5 "merge | 1 | $gap"
answer 6 "merge | $gap | 1"
answer 7 "merge | 0 0 0 0 | 1"
answer 5 "merge | $a | 1"
answer 6 "merge | $a | $gap"
answer 7 "merge | $a | 0 0 0 0"
answer 12 "@-1,-1 merge | $a | $b"
answer 13 "@-1 merge | $a | $b"
answer 14 "merge | $most | $most"
answer '0 | 1 1 1 1 7 1 3 1 4294967301 1 9223372036854775807 | 1 1 1 1' "merge | 2 2 2 2 7 8 1 2 3 3 1 2 4294967301 1 1 2 9223372036854775806 5 | 1 1 1 1 7 1 3 1 4294967301 1 1"

# the whole merge: the cancelled time is gone from the second chunk, the third is what is left of A
ab='1 2 3 2 7 2 3 4 2 3 4294967301 4294967305 4294967296 1 1 2 1 1'
clean='1 2 2 2 7 2 3 4 1 2 4294967301 4294967296 1 2 1 1'
rest='2 2 2 2 7 9 1 2 4 3 1 2 8589934592 4294967301 1 2 1 2'
answer "0 | $ab | $clean | $rest | 1 0 1 2" "@0,0,0 whole | $a | $b"
answer "0 | $ab | $clean | $rest | 2 0 1 2" "@0,0,0,-20,0 whole | $b | $a"
answer '0 | 1 2 2 0 7 2 3 4 1 2 4294967305 4294967296 0 0 | 0 0 0 0 | | 0 0 0 0' "@0,0,0,-2,-16 whole | $b | 1 2 2 2 7 2 3 4 1 2 4294967305 4294967296 1 2 18446744073709551615 18446744073709551615"
answer 13 "@0,0,-1 whole | 1 | 1"
answer 7 "whole | $a | 0 0 0 0"
answer 12 "@0,-1 whole | $a | $b"
answer 13 "@-1 whole | $a | $b"
answer 13 "@0,0,0,-21,0 whole | $a | $b"
answer 13 "@0,0,0,0,-1 whole | $a | $b"
answer 14 "whole | $most | $most"

echo "host/test.sh: $tests runs, $failed failed"
[ "$failed" = 0 ]
