#!/bin/sh
# build.sh [CRATE]: proves, compiles and links a program, onvm_main where none is named, as
# crates/CRATE/out/CRATE. It says a line for each crate on standard error, and keeps all that the
# prover says in crates/CRATE/out/build.log, and in crates/CRATE/out/version what was proved with which
# kit. The status is 0 exactly where the program stands there at the end.
program=${1:-onvm_main}
cd "$(dirname "$0")" || exit 1
command -v rt >/dev/null || {
    echo "build.sh: there is no command rt" >&2
    exit 1
}
out=crates/$program/out
log=$PWD/$out/build.log

# The crates that the program stands on, the lowest first, as crates.txt lists them.
below() {
    awk -v program="$program" '
    { sub(/#.*/, "") }
    split($0, line, ":") == 2 { names[++count] = line[1]; uses[line[1]] = line[2] }
    END {
        needed[program] = 1
        for (i = count; i > 0; i--)
            if (needed[names[i]])
                for (k = split(uses[names[i]], used, " "); k > 0; k--) needed[used[k]] = 1
        for (i = 1; i <= count; i++) if (needed[names[i]] && names[i] != program) print names[i]
    }' crates.txt
}

give_up() {
    echo "build.sh: $1 is not built; the end of $log:" >&2
    tail -n 20 "$log" >&2
    exit 1
}

# What of the sources was there when the build began, and which kit.
commit() {
    git rev-parse --short=12 HEAD 2>/dev/null || echo unknown
    [ -z "$(git status --porcelain 2>/dev/null)" ] || echo 'with changes'
}
version="commit $(commit | tr '\n' ' ')
$(rt version)"

# The program that an earlier build left must not be taken for this one's.
mkdir -p "$out"
rm -f "$out/$program" "$out/version"
: >"$log"
echo "build.sh: proving and building $program; the first time that takes as long as README says" >&2
for crate in $(below); do
    (cd "crates/$crate" && rt lib) </dev/null >>"$log" 2>&1 || give_up "$crate"
    echo "build.sh: $crate is proved" >&2
done

# rt run ends by running the program, here without words: it says its usage line and ends with
# status 2. So neither its output nor its status says anything of the build.
(cd "crates/$program" && rt run) </dev/null >>"$log" 2>&1
[ -x "$out/$program" ] || give_up "$program"
echo "$version" >"$out/version"
echo "build.sh: $program is proved and built" >&2
