#!/bin/sh
# Installs a program that only says its words, and runs it; lets the script onvm build one beside sources; and reads the
# manual page. Prints what is wrong and ends with status 1, or else prints how many checks passed. It needs no program.
cd "$(dirname "$0")/.." || exit 1
room=$(mktemp -d) || exit 1
trap 'rm -rf "$room"' EXIT
passed=0
wrong=0
unset ONVM_PROGRAM

# judge WHAT WANTED FOUND: one check, which passes where the two are one.
judge() {
    if [ "$2" = "$3" ]; then
        passed=$((passed + 1))
    else
        wrong=$((wrong + 1))
        printf '%s: it is\n%s\nand not\n%s\n' "$1" "$3" "$2"
    fi
}

# stub FILE: a program that says its words.
stub() {
    printf '#!/bin/sh\necho "$@"\n' >"$1"
    chmod +x "$1"
}

# Installed: what stands where, how it is called, and that it goes again.
stub "$room/program"
(export ONVM_PROGRAM="$room/program" && make -s --no-print-directory install PREFIX="$room/there")
files=$(cd "$room/there" && find . -type f | LC_ALL=C sort)
judge 'what make install installs' "./bin/onvm
./libexec/onvm/onvm
./share/doc/onvm/FORMATS.md
./share/doc/onvm/LICENSE
./share/doc/onvm/chain.schema.json
./share/doc/onvm/version
./share/man/man1/onvm.1" "$files"
judge 'an installed onvm' '--serial a b' "$("$room/there/bin/onvm" --serial a b)"
ln -s there/bin/onvm "$room/link"
judge 'an installed onvm through a link' 'a b c' "$("$room/link" a b c)"
judge 'an installed onvm by its name' 'a' "$(PATH="$room/there/bin:$PATH" && onvm a)"
make -s uninstall PREFIX="$room/there"
judge 'make uninstall' '' "$(find "$room/there" -type f)"
(export ONVM_PROGRAM="$room/program" && make -s --no-print-directory install DESTDIR="$room/staged" PREFIX=/usr)
judge 'make install with DESTDIR' 'a' "$("$room/staged/usr/bin/onvm" a)"

# Beside sources: it is built where it is missing or old, and only there.
mkdir -p "$room/tree/crates/one/src" "$room/tree/crates/onvm_main"
cp onvm "$room/tree"
echo 'one:' >"$room/tree/crates.txt"
echo source >"$room/tree/crates/one/src/lib.rt"
{
    echo 'mkdir -p "${0%/*}/crates/onvm_main/out"; echo built'
    printf 'cp "%s" "${0%%/*}/crates/onvm_main/out/onvm_main"; exit "${BUILDS:-0}"\n' "$room/program"
} >"$room/tree/build.sh"
run() {
    "$room/tree/onvm" a 2>&1
}
judge 'where the program is missing' "built
a" "$(run)"
judge 'where it is there' a "$(run)"
touch -d '2 seconds' "$room/tree/crates/one/src/lib.rt"
judge 'where a source is newer' "built
a" "$(run)"
touch -d '1 hour ago' "$room/tree/crates/one/src/lib.rt"
mkdir "$room/tree/crates/one/out"
touch -d '2 seconds' "$room/tree/crates/one/out/made.rt" "$room/tree/crates/one/README.md"
judge 'where only what is made or told is newer' a "$(run)"
touch -d '4 seconds' "$room/tree/crates.txt"
judge 'where it could not be built' "built
onvm: the program could not be built
1" "$(BUILDS=1 run; echo $?)"

# make alone says what there is; the manual page has no fault.
judge 'make alone' 1 "$(make -s | grep -c '^make test ')"
if command -v groff >/dev/null; then
    judge 'the manual page' '' "$(groff -man -ww -Tascii -z docs/onvm.1 2>&1)"
fi
echo "install: $passed passed, $wrong failed"
[ "$wrong" -eq 0 ]
