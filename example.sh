#!/bin/sh
# Proves and builds mcpre, prints a shipped module, runs another one, optimises a third, and checks its certificate. It
# works in the folder example/ beside it.
#
#     sh example.sh          does that
#     sh example.sh --all    does that, and then prints, runs, reports on, optimises and checks each example of examples/
set -u

fail() {
    echo "example.sh: $1" >&2
    exit 1
}

# Shows a command, and runs it.
step() {
    echo "+ $*"
    "$@" || fail "this step failed: $*"
}

# Goes on only where two files hold the same.
same() {
    cmp "$1" "$2" || fail "$1 isn't what $2 says"
}

# Runs a module of an example over the input of the example, for its profile. What it shows and says must be as it should.
run_example() {
    entered=/dev/null
    [ ! -f "$given/input" ] || entered=$given/input
    "$program" run 1000000 "$1" "$2" <"$entered" >"$made/shown" 2>"$made/line" || fail "the run of $1 failed"
    same "$made/shown" "$given/shown"
    same "$made/line" "$given/line"
}

# Prints, runs, reports on, optimises and checks an example, and compares all that comes with the files of the example.
try_example() {
    given=examples/$1
    made=example/$1
    module=$given/$1.ll
    rm -rf "$made" || fail "$made can't be removed"
    mkdir -p "$made" || fail "$made can't be made"
    "$program" print "$module" "$made/printed.ll" || fail "$module wasn't printed"
    "$program" print "$made/printed.ll" "$made/again.ll" || fail "the text of $module wasn't printed"
    same "$made/again.ll" "$made/printed.ll"
    run_example "$module" "$made/profile"
    same "$made/profile" "$given/profile"
    "$program" report "$module" "$made/profile" >"$made/report" || fail "there is no report on $module"
    same "$made/report" "$given/report"
    "$program" opt "$module" "$made/profile" "$made/optimised.ll" "$made/certificate.json" || fail "$module wasn't optimised"
    same "$made/optimised.ll" "$given/optimised.ll"
    "$program" check "$module" "$made/profile" "$made/optimised.ll" "$made/certificate.json" ||
        fail "the checker didn't say yes to $module"
    run_example "$made/optimised.ll" -
    echo "$1 was printed, run, reported on, optimised, checked and run again as it should"
}

case "$*" in
"") wants_all=no ;;
--all) wants_all=yes ;;
*) fail "usage: sh example.sh [--all]" ;;
esac

program=crates/mcpre/out/mcpre
input=example/a.ll
output=example/o.ll
expected=example/expected.ll
running=example/upper.ll
profile=example/upper.prof
plain=example/square.ll
counts=example/square.prof
optimised=example/square.opt.ll
certificate=example/square.json
broken=example/broken.json

cd "$(dirname "$0")" || fail "the folder of this script can't be entered"
command -v rt >/dev/null || fail "the command rt of the toolchain is not on the PATH"

step mkdir -p example
step rm -f "$output" "$expected" "$profile" "$counts" "$optimised" "$certificate" "$broken"
step cp crates/mcpre/data/a.ll "$input"
step cp crates/mcpre/data/upper.ll "$running"
step cp crates/mcpre/data/square.ll "$plain"

# The toolchain builds a program only once all is proved, and runs it at once; the first time takes minutes.
step cd crates/mcpre
step rt run -- print "../../$input" "../../$output"
step cd ../..

step rm -f "$output"
step "$program" print "$input" "$output"

step cat "$input"
echo
step cat "$output"

cat >"$expected" <<'END' || fail "$expected can't be written"
define i32 @main() {
0:
  %1 = alloca i32
  store i32 40, ptr %1
  %2 = load i32, ptr %1
  %3 = add i32 %2, 2
  ret i32 %3
}
END
step cmp "$output" "$expected"
echo "the example printed as it should"

# The second module shows its input in upper case, and counts the bytes.
echo "+ echo Hello, world. | $program run 1000 $running $profile"
shown=$(echo "Hello, world." | "$program" run 1000 "$running" "$profile") || fail "the run failed"
echo "$shown"
step cat "$profile"

cat >"$expected" <<'END' || fail "$expected can't be written"
mcpre-profile 1
func 0 1
block 0 1
block 1 14 1
block 2 14
block 3 14
block 4
func 1 14
block 0 9 5
block 1 9 0
block 2 9
block 3 5
block 4
END
step cmp "$profile" "$expected"
[ "$shown" = "HELLO, WORLD." ] || fail "the run showed something else"
echo "the example ran as it should"

# The third module computes a sum three times. It runs once for its profile; the optimised module computes the sum once,
# and does the same.
echo "+ echo AC | $program run 1000 $plain $counts"
shown=$(echo AC | "$program" run 1000 "$plain" "$counts" 2>&1) || fail "the run failed"
echo "$shown"
step "$program" opt "$plain" "$counts" "$optimised" "$certificate"
step cat "$optimised"
step cat "$certificate"
echo

cat >"$expected" <<'END' || fail "$expected can't be written"
define i32 @main() {
0:
  %1 = alloca i32
  %2 = alloca i32
  %3 = alloca i32
  %pre.0 = alloca i32
  store i32 0, ptr %1
  %4 = call i32 @getchar()
  store i32 %4, ptr %2
  %5 = call i32 @getchar()
  store i32 %5, ptr %3
  %6 = load i32, ptr %2
  %7 = load i32, ptr %3
  %8 = add i32 %6, %7
  store i32 %8, ptr %pre.0
  %9 = sdiv i32 %8, 2
  %10 = call i32 @putchar(i32 %9)
  %11 = call i32 @putchar(i32 10)
  %12 = load i32, ptr %2
  %13 = load i32, ptr %3
  %14 = load i32, ptr %pre.0
  %15 = load i32, ptr %2
  %16 = load i32, ptr %3
  %17 = load i32, ptr %pre.0
  %18 = mul i32 %14, %17
  ret i32 %18
}

declare i32 @getchar()

declare i32 @putchar(i32)
END
step cmp "$optimised" "$expected"
echo "+ echo AC | $program run 1000 $optimised -"
again=$(echo AC | "$program" run 1000 "$optimised" - 2>&1) || fail "the run of the optimised module failed"
echo "$again"
[ "$again" = "$shown" ] || fail "the optimised module showed something else"
echo "the example was optimised as it should"

# The checker says yes to the certificate. With one unit more on the first arc than its capacity, which is the weight of
# one turn, it says no.
step "$program" check "$plain" "$counts" "$optimised" "$certificate"
echo "the checker says yes"
echo "+ sed 's/\"flow\":\[\"0\"\]/\"flow\":[\"1048577\"]/' $certificate > $broken"
sed 's/"flow":\["0"\]/"flow":["1048577"]/' "$certificate" >"$broken" || fail "$broken can't be written"
echo "+ $program check $plain $counts $optimised $broken"
answer=$("$program" check "$plain" "$counts" "$optimised" "$broken" 2>&1)
status=$?
echo "$answer"
[ "$status" = 6 ] || fail "the checker ended with status $status"
[ "$answer" = "mcpre: no: N5 Capacity function 0 expression 0 arc 0" ] || fail "the checker said something else"
echo "the checker said no to the broken certificate, as it should"

if [ "$wants_all" = yes ]; then
    for folder in examples/*/; do
        try_example "$(basename "$folder")"
    done
fi
