#!/usr/bin/env bash
# Tries the examples: the tools, the header, and the stand-ins for the kernel. It takes less than a minute.
#
#     examples/try.sh [--model N] [--keep] [CAPWEAVE]
#
# CAPWEAVE is the program; without it that of the environment's variable CAPWEAVE is taken, and else crates/capweave/out/capweave. --model says how many
# random programs there are for each of two seeds (150). --keep writes the woven texts and the reports of attempts beside this file anew.
# Needs a Unix with bash, diff, Python 3.8 and a C compiler. The last line is `tried`, and the status 0, where nothing failed; what a system doesn't allow is told.
#
#   tools       each tool under each of its policies is woven and checked; gcc and clang compile the woven text without a warning; over both stand-ins it
#               prints what the plain tool prints; and what its policy forbids, put in by a build flag, is answered as tests/attempts has it
#   enforce     the stand-in that enforces, call by call (tests/enforce.c)
#   freebsd     the header's FreeBSD half, against declarations as the manual pages give them (tests/freebsd)
#   faults      signals, full disks, crashes, exhausted tables: each ends with its message and its status (faults.py)
#   model       random programs, compiled over a kernel that answers from a tape: they do what `run` prints (model.py)
set -u
from=$PWD
cd "$(dirname "$0")" || exit 1
programs=150
keep=
while [ $# -gt 0 ]; do
    case $1 in
    --model) programs=$2; shift ;;
    --keep) keep=1 ;;
    *) CAPWEAVE=$1 ;;
    esac
    shift
done
case ${CAPWEAVE:=$PWD/../crates/capweave/out/capweave} in
/*) program=$CAPWEAVE ;;
*/*) program=$from/$CAPWEAVE ;;
*) program=$(command -v "$CAPWEAVE") ;;
esac
work=$(mktemp -d) || exit 1
trap 'rm -rf "$work"' EXIT
failed=0
flags="-std=c11 -O1 -Wall -Wextra -Werror -I."

fail() {
    echo "failed: $*"
    failed=1
}

"$program" weave lines.toml lines.c >"$work/out" 2>&1 || { echo "failed: $program doesn't weave: $(head -1 "$work/out")"; exit 1; }

# On FreeBSD the kernel enforces; elsewhere a stand-in does, where the system lets one.
enforcing=
[ "$(uname -s)" != Linux ] || flags="$flags -D_DEFAULT_SOURCE"
case $(uname -s)-$(uname -m) in
FreeBSD-*) enforcing=kernel ;;
Linux-x86_64 | Linux-aarch64) enforcing=stand-in ;;
*) echo "enforce: the stand-in that enforces is for Linux on x86-64 and aarch64: not tried here" ;;
esac
compilers=
for compiler in gcc clang cc; do
    command -v $compiler >/dev/null && { [ $compiler != cc ] || [ -z "$compilers" ]; } && compilers="$compilers $compiler"
done
[ -n "$compilers" ] || { echo "failed: no C compiler"; exit 1; }
set -- $compilers
first=$1

if [ "$enforcing" = stand-in ]; then
    $first $flags -D_GNU_SOURCE -Wno-unused-function -DCW_STANDIN -DCW_ENFORCE -o "$work/enforce" tests/enforce.c || fail "tests/enforce.c"
    "$work/enforce" tests >"$work/out" 2>"$work/note"
    case $? in
    0) echo "enforce: $(tail -1 "$work/out")" ;;
    69)
        enforcing=
        echo "enforce: $(cat "$work/note"): not tried here"
        ;;
    *)
        cat "$work/out" "$work/note"
        fail "the stand-in that enforces"
        ;;
    esac
fi

# The header's object: $1 the compiler, $2 books or enforced.
header() {
    echo "$work/header.$1.$2.o"
}

for compiler in $compilers; do
    $compiler $flags -DCW_STANDIN -c -o "$(header $compiler books)" capweave.c || fail "$compiler capweave.c"
    case $enforcing in
    kernel) $compiler $flags -c -o "$(header $compiler enforced)" capweave.c || fail "$compiler capweave.c, for the kernel" ;;
    stand-in) $compiler $flags -DCW_STANDIN -DCW_ENFORCE -c -o "$(header $compiler enforced)" capweave.c || fail "$compiler capweave.c, enforcing" ;;
    esac
done

# what a tool prints, its status, and the files that it writes, for some inputs; $1 is the program, $2 the tool; in a folder of its own
ran() {
    rm -rf in && mkdir in && cd in || exit 1
    printf 'one two\nTwo three  \n\nlast line without end' >text
    printf 'E bad\nok line\n<3>err\n<7>info\n\n\001\n' >log
    seq 3000 >many
    case $2 in
    lines) for words in "two words" text log many absent ""; do "$1" $words; echo "status $?"; done ;;
    find) for words in "two text" "-i two text" "-civ two text" "zzz text" "-c 7 many" "x absent" ""; do "$1" $words; echo "status $?"; done ;;
    split) "$1" <log; echo "status $?"; cat errors.log others.log; "$1" </dev/null; echo "status $?"; cat errors.log others.log ;;
    head) for words in text "text absent many log" "-n 1 many text" "-n 2000 many" "-n 0 many" ""; do "$1" $words; echo "status $?"; done ;;
    wc) for words in text "text absent many log" "absent" "many" ""; do "$1" $words; echo "status $?"; done ;;
    tee)
        for words in "" "a" "a b" "-a a b" "absent/a b" "a b c"; do
            "$1" $words <many >out; echo "status $?"
            cksum out a b
            rm -f b
        done
        ;;
    esac 2>&1
}

# what comes of attempts: at each read of the tool, or where split judges a byte
attempted() {
    rm -rf in && mkdir in && cd in || exit 1
    (printf 'one two\nE three\n'; seq 1500) >text
    case $2 in
    lines | head | wc) set -- "$1" text ;;
    find) set -- "$1" two text ;;
    tee) set -- "$1" copy ;;
    split)
        set -- "$1"
        printf 'one two\nE three\n' >text
        ;;
    esac
    ATTEMPT_REPORT=$PWD/report "$@" <text >out 2>note || echo "status $?" >>report
    cat report note
}

# one tool, under each of its policies; what is wrong is told in lines that begin with `failed: `
tool_tried() {
    local tool=$1 here=$work/$1 extra= at=READ policy name woven tried compiler kind object
    mkdir "$here"
    [ $tool = wc ] && extra=wc_count.c
    [ $tool = split ] && at=ISPRINT
    $first $flags -Wno-unused-label -o "$here/plain" $tool.c $extra || fail "$first $tool.c"
    (cd "$here" && ran "$here/plain" $tool) | sed "s#$here/plain#$tool#" >"$here/before"
    for policy in $tool.toml $tool.*.toml; do
        name=${policy%.toml}
        woven=$work/$name.woven.c
        tried=
        "$program" weave $policy $tool.c >"$woven" || { fail "weave $policy $tool.c"; continue; }
        [ "$("$program" check $policy "$woven")" = yes ] || fail "check $policy"
        if [ $name = $tool ]; then
            [ -z "$keep" ] || cp "$woven" $tool.woven.c
            cmp $tool.woven.c "$woven" || fail "$tool.woven.c is not what is woven today"
        fi
        for compiler in $compilers; do
            $compiler $flags -c -o "$here/tool.o" "$woven" || fail "$compiler $name"
            [ -z "$extra" ] || $compiler $flags -c -o "$here/extra.o" $extra || fail "$compiler $extra"
            for kind in books ${enforcing:+enforced}; do
                $compiler -o "$here/$kind" "$here/tool.o" ${extra:+"$here/extra.o"} "$(header $compiler $kind)" || fail "$compiler $name $kind"
                (cd "$here" && ran "$here/$kind" $tool) | sed "s#$here/$kind#$tool#" >"$here/after"
                diff "$here/before" "$here/after" || fail "$policy, $compiler, $kind: what it prints differs"
                tried="$tried $compiler/$kind"
            done
        done
        if [ -n "$enforcing" ]; then
            object=
            for file in "$woven" $extra; do
                object="$object $here/$(basename "$file").o"
                $first $flags -DATTEMPT_AT_$at -include tests/attempt.h -c -o "$here/$(basename "$file").o" "$file" || fail "attempts in $file"
            done
            $first $flags -o "$here/attempts" $object tests/attempt.c "$(header $first enforced)" || fail "attempts of $name"
            (cd "$here" && attempted "$here/attempts" $tool) >"$here/report"
            [ -z "$keep" ] || cp "$here/report" tests/attempts/$name.txt
            diff tests/attempts/$name.txt "$here/report" || fail "$policy: an attempt has another answer"
            tried="$tried, $(grep -c ' 9[34]$' "$here/report") attempts refused"
        fi
        echo "tool $name:$tried"
    done
}

# One tool that leaves processes behind: what they wrote is compared once they have ended, which is within ten seconds.
left_behind() {
    local here=$work/serve woven=$work/serve.woven.c tried= compiler kind turn
    mkdir -p "$here/plain.d"
    "$program" procs serve.toml serve.c >"$woven" || fail "procs serve.toml serve.c"
    [ "$("$program" check serve.toml "$woven")" = yes ] || fail "check serve.toml"
    [ -z "$keep" ] || cp "$woven" serve.woven.c
    cmp serve.woven.c "$woven" || fail "serve.woven.c is not what is woven today"
    $first $flags -Wno-unused-label -o "$here/plain" serve.c || fail "$first serve.c"
    printf 'one\ntwo words\n<three>\n\nfour\n' >"$here/requests"
    (cd "$here/plain.d" && ../plain <../requests) || fail "serve"
    for compiler in $compilers; do
        for kind in books ${enforcing:+enforced}; do
            rm -rf "$here/woven.d" && mkdir "$here/woven.d"
            $compiler $flags -o "$here/$kind" "$woven" "$(header $compiler $kind)" || fail "$compiler serve $kind"
            (cd "$here/woven.d" && "../$kind" <../requests) || fail "serve, $compiler, $kind"
            for turn in $(seq 100); do
                diff -r "$here/plain.d" "$here/woven.d" >"$here/differs" && break
                sleep 0.1
            done
            diff -r "$here/plain.d" "$here/woven.d" || fail "serve, $compiler, $kind: what it writes differs"
            tried="$tried $compiler/$kind"
        done
    done
    echo "tool serve:$tried"
}
left_behind

tools="lines find split head wc tee"
for tool in $tools; do
    tool_tried $tool >"$work/$tool.told" 2>&1 &
done
wait
for tool in $tools; do
    cat "$work/$tool.told"
    grep -q '^failed: ' "$work/$tool.told" && failed=1
done

# the header's FreeBSD half, over a kernel of the tests that tells what it is asked
for compiler in $compilers; do
    for tool in lines split; do
        $compiler $flags -Itests/freebsd -o "$work/freebsd" "$work/$tool.woven.c" capweave.c tests/freebsd/kernel.c || fail "$compiler, the FreeBSD half, $tool"
        printf 'E one\ntwo\n' >"$work/text"
        (cd "$work" && ./freebsd text <text 2>&1) >"$work/after" || true
        diff tests/freebsd/$tool.txt "$work/after" || fail "the FreeBSD half asks something else of the kernel, $tool"
    done
    echo "freebsd: $compiler compiles it, and it asks what it should"
done

for seed in 1 2; do
    (python3 model.py --seed $seed --programs "$programs" "$program" || echo "failed: model.py, seed $seed") >"$work/model.$seed.told" 2>&1 &
done
python3 faults.py ${enforcing:+--enforcing $enforcing} --compilers "$compilers" "$program" || fail "faults.py"
wait
for seed in 1 2; do
    cat "$work/model.$seed.told"
    grep -q '^failed: ' "$work/model.$seed.told" && failed=1
done
[ $failed = 0 ] && echo tried
exit $failed
