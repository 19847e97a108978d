#!/usr/bin/env bash
# The package and the library around the service program: the header and the examples compile
# clean, an installed copy works, threads do not disturb each other.
# The last line is 'N passed, N failed'.   package.sh LIBRARY INCLUDE
set -u
library=$(realpath "$1")
include=$(realpath "$2")
cd "$(dirname "$0")/../.." || exit 1
host=$PWD
place=$(mktemp -d) || exit 1
trap 'rm -rf "$place"' EXIT
passed=0
failed=0

# try NAME COMMAND...: the command has status 0 and prints nothing.
try() {
    local name=$1 found
    shift
    if found=$("$@" 2>&1) && [ -z "$found" ]; then
        passed=$((passed + 1))
    else
        failed=$((failed + 1))
        printf '  FAILED  %s: %s\n' "$name" "$found"
    fi
}

# same NAME EXPECTED COMMAND...: the command prints this line.
same() {
    local name=$1 expected=$2
    shift 2
    try "$name" diff <(printf '%s\n' "$expected") <("$@" 2>&1)
}

echo "the package"
WARN="-Wall -Wextra -pedantic -Werror"
printf '#include <coffee.h>\n' >"$place/header.c"
cp "$place/header.c" "$place/header.cc"
cp examples/run.c "$place/run.cc"
for std in c99 c11; do
    # shellcheck disable=SC2086
    try "header, gcc $std" gcc -std=$std $WARN -I "$include" -fsyntax-only "$place/header.c"
    # shellcheck disable=SC2086
    try "example, gcc $std" gcc -std=$std $WARN -I "$include" -fsyntax-only examples/run.c
done
for std in c++11 c++17; do
    # shellcheck disable=SC2086
    try "header, g++ $std" g++ -std=$std $WARN -I "$include" -fsyntax-only "$place/header.cc"
    # shellcheck disable=SC2086
    try "example, g++ $std" g++ -std=$std $WARN -I "$include" -fsyntax-only "$place/run.cc"
done
# shellcheck disable=SC2086
try "example, the archive" gcc $WARN -I "$include" examples/run.c "$library" -o "$place/example"
same "example, the archive: output" "3 0 00000000" "$place/example"
# shellcheck disable=SC2086
try "example as C++, the archive" g++ $WARN -I "$include" "$place/run.cc" "$library" -o "$place/example"
same "example as C++: output" "3 0 00000000" "$place/example"

root=$place/root
try "install" bash -c "make -s install PREFIX=/opt/coffee DESTDIR='$root' LIBRARY='$library' >'$place/log' 2>&1 || cat '$place/log'"
same "what is installed" "bin bin/service include include/coffee.h lib lib/libcoffee.a lib/libcoffee.so lib/libcoffee.so.2 lib/libcoffee.so.2.2.0 lib/pkgconfig lib/pkgconfig/coffee.pc" \
    bash -c "cd '$root/opt/coffee' && find . -mindepth 1 | sed 's,^\./,,' | LC_ALL=C sort | xargs"
same "soname" "libcoffee.so.2" bash -c "objdump -p '$root/opt/coffee/lib/libcoffee.so' | sed -n 's/^ *SONAME *//p'"
same "functions" "coffee_carry_over coffee_encode coffee_listing coffee_reach coffee_reset coffee_run" bash -c "nm -D --defined-only '$root/opt/coffee/lib/libcoffee.so' | sed 's/.* //' | LC_ALL=C sort | xargs"
export PKG_CONFIG_PATH=$root/opt/coffee/lib/pkgconfig PKG_CONFIG_SYSROOT_DIR=$root
export LD_LIBRARY_PATH=$root/opt/coffee/lib
same "version" "2.2.0" pkg-config --modversion coffee
# shellcheck disable=SC2046,SC2086
try "example, by pkg-config" gcc $WARN examples/run.c $(pkg-config --cflags --libs coffee) -o "$place/example"
same "example, the shared library: output" "3 0 00000000" "$place/example"
same "it is the installed one that runs" "$root/opt/coffee/lib/libcoffee.so.2" bash -c "ldd '$place/example' | sed -n 's/^[[:space:]]*libcoffee.so.2 => \(.*\) (.*/\1/p'"
same "example in Python: output" "3 0 00000000" python3 examples/coffee.py
same "example in Python, a named library" "3 0 00000000" python3 examples/coffee.py "$root/opt/coffee/lib/libcoffee.so.2.2.0"
cp examples/run.c "$place"
same "the installed program" "service 2.2.0" "$root/opt/coffee/bin/service" --version
printf '\x88\x01\x00\x05\x48\x07\x88\x3f\xdc\x00\x00\x03' >"$place/code.bin"
try "the installed program: new" "$root/opt/coffee/bin/service" new "$place/m.card"
same "the installed program: run" "3 0 00000000" "$root/opt/coffee/bin/service" run "$place/code.bin" "$place/m.card" 3
same "the installed program: list" $'00000000 88010005        lli      R1 5         \n00000004 4807883F        addi     R2 R1 -1     \n00000008 DC000003        trap     3            ' \
    "$root/opt/coffee/bin/service" list "$place/code.bin" 32
same "the installed program: reach" "00000008 DC000003        trap     3            " \
    "$root/opt/coffee/bin/service" reach "$place/code.bin" 32 8
# jmp to 10h, its slot, trap 1 that is reached from 8 alone, a nop that is not, trap 2.
printf '\x90\0\0\6\0\0\0\0\xdc\0\0\1\0\0\0\0\xdc\0\0\2' >"$place/code.bin"
same "the installed program: what neither of two STARTs reaches" $'4d3\n< 0000000C 00000000        nop                   ' \
    bash -c "cd '$place' && PATH='$root/opt/coffee/bin':\$PATH
        service list code.bin 32 >all
        (service reach code.bin 32 0; service reach code.bin 32 8) | sort -u >kept
        diff all kept"
same "the installed program: encode" "07C87FDD" "$root/opt/coffee/bin/service" encode 32 egt C7 add R31 R30 R29
try "uninstall" make -s --no-print-directory uninstall PREFIX=/opt/coffee DESTDIR="$root"
try "nothing is left" find "$root" ! -type d

echo "threads"
# shellcheck disable=SC2086
try "threads: built" gcc -std=c11 -g -O2 $WARN -pthread -I "$include" "$host/service/tests/threads.c" "$library" -o "$place/threads"
try "eight threads" "$place/threads" 2000
if command -v valgrind >/dev/null; then
    try "eight threads, helgrind" valgrind -q --tool=helgrind --error-exitcode=9 "$place/threads" 20
else
    echo "  skipped helgrind: there is no valgrind"
fi
printf '%d passed, %d failed\n' "$passed" "$failed"
[ "$failed" -eq 0 ]
