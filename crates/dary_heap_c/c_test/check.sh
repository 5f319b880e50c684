#!/usr/bin/env bash
# Builds the static library, installs it into an empty folder, and then compiles and runs what is written in C and C++
# over it: answers.c, double_keys.c, the programs of ../examples and that of ../README.md. It prints what it found right, a
# line for each wrong answer, and at last how many of the answers are wrong. Its status is 0 if none is.
#
# It needs the command `rt`, and passes its words on to `rt lib`. CC and CXX name the compilers, with words behind if you
# like. If CC isn't set and there is no `cc` nothing is compiled, which the last line says, and the status is 0. If CXX
# isn't set and there is no `c++` the programs in C++ are left out.
set -euo pipefail
cd -- "$(dirname -- "$(readlink -f -- "${BASH_SOURCE[0]}")")"

say() {
    printf 'dary_heap_c: %s\n' "$1"
}

fail() {
    say "$1"
    exit 1
}

read -ra compiler <<< "${CC-cc}"
read -ra cpp <<< "${CXX-c++}"
if [[ ! -v CC ]] && ! command -v cc > /dev/null; then
    say 'there is no C compiler cc, so nothing was compiled'
    exit 0
fi
command -v "${compiler[0]-}" > /dev/null || fail "CC is '${CC-}', which isn't found"
has_cpp=true
if ! command -v "${cpp[0]-}" > /dev/null; then
    [[ ! -v CXX ]] || fail "CXX is '$CXX', which isn't found"
    say 'there is no C++ compiler c++, so the programs in C++ are left out'
    has_cpp=false
fi
for it in nm size; do
    command -v "$it" > /dev/null || fail "there is no $it"
done

room=$(mktemp -d)
trap 'rm -rf -- "$room"' EXIT

(cd .. && rt lib "$@" > "$room/log" 2>&1) || {
    tail -n 20 -- "$room/log" >&2
    fail "rt lib $* failed"
}
make -s -C .. install "PREFIX=$room/installed" || fail 'make install failed'
library=$room/installed/lib/libdary_heap_c.a
header=$room/installed/include/dary_heap_c.h

# The exported symbols are the functions that the header declares, each in plain words, and nothing from outside is called.
sed -nE 's/^DARY_HEAP_MUST_USE bool (dheap_\w+)\(.*/\1/p' "$header" | sort > "$room/declared"
nm -g --defined-only "$library" | awk 'NF == 3 { print $3 }' | sort > "$room/exported"
diff -- "$room/declared" "$room/exported" || fail "the library's symbols aren't the functions of the header"
[[ -z "$(nm -g --undefined-only "$library" | awk 'NF == 2')" ]] || fail 'the library calls a function from outside'
[[ -z "$(nm "$library" | awk '$2 ~ /^[BbCcDd]$/')" ]] || fail 'the library has a variable'
say "the library exports the $(wc -l < "$room/declared") functions of the header alone, and calls none from outside"

if command -v pkg-config > /dev/null; then
    export PKG_CONFIG_PATH=$room/installed/lib/pkgconfig
    read -ra flags <<< "$(pkg-config --cflags --libs dary_heap)"
    version=$(pkg-config --modversion dary_heap)
    number=$(sed -nE 's/^#define DARY_HEAP_VERSION_(MAJOR|MINOR|PATCH) //p' "$header" | paste -sd .)
    [[ "$version" == "$number" ]] || fail "dary_heap.pc has the version $version, and the header $number"
else
    say "there is no pkg-config, so dary_heap.pc wasn't tried"
    flags=(-I "$room/installed/include" -L "$room/installed/lib" -ldary_heap_c)
fi

strict=(-Wall -Wextra -Wpedantic -Werror -O2)

# Older and newer languages read the header too.
for it in c99 c17 c++11 c++20; do
    case $it in
        c++*) ! $has_cpp || "${cpp[@]}" "-std=$it" "${strict[@]}" -fsyntax-only -x c++ "$header" ;;
        *) "${compiler[@]}" "-std=$it" "${strict[@]}" -fsyntax-only -x c "$header" ;;
    esac || fail "the header isn't read as $it"
done

# Compiles a source in C or C++ against the installed library, with more words behind.
compile() {
    local to=$room/$1 from=$2
    shift 2
    case $from in
        *.cpp) "${cpp[@]}" -std=c++17 "${strict[@]}" -o "$to" "$from" "${flags[@]}" "$@" ;;
        *) "${compiler[@]}" -std=c11 "${strict[@]}" -o "$to" "$from" "${flags[@]}" -lm "$@" ;;
    esac || fail "$from isn't compiled"
}

# Compiles a program, and compares what it prints.
shows() {
    local source=$1 wanted=$2 printed
    shift 2
    compile program "$source" "$@"
    printed=$("$room/program") || fail "$source fails"
    [[ "$printed" == "$wanted" ]] || fail "$source prints something else"
}

due=$(sed -n '/^    30: timer 1/,/^$/s/^    //p' ../README.md)
turns=$'at 5\nfirst at 20\nsecond at 20\nthird at 20'

# Each program of the examples and of README.md, compiled with these words.
show_all() {
    local input printed
    shows ../examples/timers.c "$due" "$@"
    shows ../examples/by_age.c $'Ada, 36\nAlan, 41\nEdsger, 72\nGrace, 85' "$@"
    shows "$room/readme.c" 9 "$@"
    ! $has_cpp || shows ../examples/timers.cpp "$turns" "$@"
    compile greatest ../examples/greatest.c "$@"
    for input in '5 -1 12 7 7 3 12 0=12 12 7' '4 -9=4 -9' '='; do
        printed=$(printf '%s\n' "${input%=*}" | "$room/greatest") || fail "greatest.c fails for ${input%=*}"
        [[ "${printed//$'\n'/ }" == "${input#*=}" ]] || fail "greatest.c prints other numbers for ${input%=*}"
    done
    ! printf '5 x\n' | "$room/greatest" > "$room/printed" 2>&1 || fail 'greatest.c takes a word for a number'
}

# The sizes that README.md names are these, but for a tenth, since compilers differ.
compile sized ../examples/timers.c -Wl,--gc-sections
named='s/.* has ([0-9.]+) MB, ([0-9.]+) MB of it code, .*: ([0-9]+) kB for `timers`.*/\1e6 \2e6 \3e3/p'
read -ra figures <<< "$(sed -nE "$named" ../README.md)"
sizes=("$(wc -c < "$library")" "$(size -t "$library" | awk 'END { print $1 }')" "$(size "$room/sized" | awk 'END { print $1 }')")
for i in 0 1 2; do
    awk -v a="${figures[i]-0}" -v b="${sizes[i]}" 'BEGIN { exit !(a <= 1.1 * b && b <= 1.1 * a) }' ||
        fail "README.md has the size ${figures[i]-}, and it is ${sizes[i]}"
done

awk '/^```c$/ { on = 1; next } /^```$/ { on = 0 } on' ../README.md > "$room/readme.c"
show_all
sed -nE 's/^ +(memcpy\(&key, .*|if \(key < 0\) .*)/    \1/p' ../README.md > "$room/double_keys.inc"
shows double_keys.c 'the keys of doubles are in the order of the numbers' -I "$room"
say 'the examples and what is code in README.md do what they should'

compile answers answers.c

# A compiler that can warn of an ignored result must.
if "${compiler[@]}" -dM -E -x c /dev/null | grep -q __GNUC__; then
    printf '#include <dary_heap_c.h>\nint main(void) { dheap_max_push_i64(&(int64_t){0}, 1, 4); }\n' > "$room/ignored.c"
    ! "${compiler[@]}" -std=c11 -Werror -I "$room/installed/include" -c -o "$room/ignored.o" "$room/ignored.c" 2> "$room/printed" ||
        fail 'a program that ignores a result is compiled without a warning'
    grep -q unused-result "$room/printed" || fail 'an ignored result is refused for another reason'
fi

sanitizers=('-fsanitize=address,undefined' -fno-sanitize-recover=all -g)
if printf 'int main(void) { return 0; }\n' | "${compiler[@]}" "${sanitizers[@]}" -x c -o "$room/plain" - 2> "$room/printed" && "$room/plain"; then
    show_all "${sanitizers[@]}"
    compile answers_checked answers.c "${sanitizers[@]}"
    "$room/answers_checked" short | sed 's/$/, with the sanitizers/' || fail 'a sanitizer found a fault'
else
    say 'the C compiler has no address and undefined-behaviour sanitizers, so they were left out'
fi

"$room/answers"
