#!/usr/bin/env bash
# prove.sh archive|program|library CRATE: proves a crate and those it stands on, and builds
#   archive   target/staticlib/libCRATE.a, for every x86-64 processor
#   program   target/bin/CRATE, which must print crates/CRATE/stdout when crates/CRATE/stdin is its input
#   library   target/mir/NAME.json for the crate and each of those, and for the toolchain's core: what the compiler made of
#             its functions
# Standard error gets which crates these are, what rt tells on the way, and all that rt printed where
# something is not proved.
set -euo pipefail
cd "$(dirname "$0")/.."

kind=$1
crate=$2
log=$(mktemp)
printed=$(mktemp)
trap 'rm -f "$log" "$printed"' EXIT

# The crate and those of crates.txt that it stands on, lowest first.
below() {
    awk -v crate="$1" '
        function visit(name,    words, count, i) {
            if (!(name in needs) || name in seen) return
            seen[name]
            count = split(needs[name], words, " ")
            for (i = 1; i <= count; i++) visit(words[i])
            found = found " " name
        }
        !/^#/ && split($0, line, ":") == 2 { split(line[1], head, " "); needs[head[1]] = line[2] }
        END { visit(crate); print found }
    ' crates.txt
}

# told: shows on standard error the lines of rt that tell how far it is; all go into the log.
told() {
    tee "$log" | { grep --line-buffered -E '^(rt: |checked |logic=)' >&2 || true; }
}

# fail: shows all that rt printed.
fail() {
    cat "$log" >&2
    exit 1
}

# build COMMAND..: runs rt in the crate's folder.
build() {
    (cd "crates/$crate" && rt "$@") 2>&1 | told || fail
}

# rt builds a program to run it, so it runs on the crate's own input.
program() {
    local input=/dev/null wanted=/dev/null
    [ ! -f "crates/$crate/stdin" ] || input=$PWD/crates/$crate/stdin
    [ ! -f "crates/$crate/stdout" ] || wanted=crates/$crate/stdout
    (cd "crates/$crate" && rt run) <"$input" 2>&1 >"$printed" | told || fail
    cmp "$printed" "$wanted" >&2 || fail
    install -D "crates/$crate/out/$crate" "target/bin/$crate"
}

library() {
    build lib
    mkdir -p target/mir
    for name in $(below "$crate"); do
        cp "crates/$name/out/rlib/$name.rlib/toolchain/mir.json" "target/mir/$name.json"
    done
    cp "$(kit)/rlibs/core.rlib/toolchain/mir.json" target/mir/core.json
}

# kit: the folder of the toolchain that rt belongs to.
kit() {
    dirname "$(dirname "$(readlink -f "$(command -v rt)")")"
}

archive() {
    build lib --cpu x86-64
    install -D -m 644 "crates/$crate/out/lib$crate.a" "target/staticlib/lib$crate.a"
}

echo "Proving, where changed since the last proof:$(below "$crate"). This may take minutes." >&2
case $kind in
archive | program | library) "$kind" ;;
*) echo "prove.sh: '$kind' is neither archive, program nor library" >&2 && exit 2 ;;
esac
