# Sourced by native, archive, dist and test, which work at the repository's root: the kit, the dependencies of crates, proving with a progress count, what
# rattle compiles of a proved crate, and checks of its texts.
set -euo pipefail

fail() {
    printf '%s: %s\n' "${0##*/}" "$*" >&2
    exit 1
}

# The kit whose rt is on the PATH.
find_kit() {
    local rt
    rt=$(command -v rt) || fail 'rt is not on the PATH: install the Rattle kit'
    kit=$(dirname "$(dirname "$(readlink -f "$rt")")")
    clang=$kit/toolchain/bin/clang
    "$clang" --version >/dev/null 2>&1 || fail "no clang of the Rattle kit at $clang that runs here: is $rt a wrapper of rt, or is there no kit for $(uname -m)?"
}

# leans CRATE: the dependencies of a crate, by crates.txt.
leans() { awk -F: -v name="$1" '{ sub(/#.*/, ""); gsub(/[ \t]/, "", $1) } $1 == name { print $2 }' crates.txt; }

# with_below CRATE..: these crates and all their dependencies in this repository, in the order of crates.txt.
with_below() {
    WANTED=$* awk -F: '
        { sub(/#.*/, "") }
        NF > 1 { gsub(/[ \t]/, "", $1); order[++count] = $1; leans[$1] = $2 }
        END {
            n = split(ENVIRON["WANTED"], todo, " ")
            for (i = 1; i <= n; i++) {
                if (todo[i] in wanted || !(todo[i] in leans)) continue
                wanted[todo[i]]
                more = split(leans[todo[i]], below, " ")
                for (k = 1; k <= more; k++) todo[++n] = below[k]
            }
            for (i = 1; i <= count; i++) if (order[i] in wanted) print order[i]
        }' crates.txt
}

# The crates of the C border, and those of them that export calls. (capi_record has only structs.)
border() { awk -F: '{ sub(/#.*/, ""); gsub(/[ \t]/, "", $1) } $1 ~ /^capi_/ { print $1 }' crates.txt; }
exporting() {
    local crate
    for crate in $(border); do
        if grep -rqF '#[unsafe(no_mangle)]' "crates/$crate/src"; then echo "$crate"; fi
    done
}

# prove LOG CRATE..: has rt build these libraries, in this order, where they don't stand; its output is kept in LOG. One that took time is reported, as number
# `at` of `steps`.
prove() {
    local log=$1 crate began
    shift
    at=0
    : >"$log"
    for crate; do
        at=$((at + 1)) began=$SECONDS
        (cd "crates/$crate" && exec rt lib) >>"$log" 2>&1 || failed "$log" "rt lib in crates/$crate"
        [ $((SECONDS - began)) -lt 3 ] || printf '%s: %d of %d: %s proved (%d s)\n' "${0##*/}" "$at" "$steps" "$crate" $((SECONDS - began)) >&2
    done
}

# failed LOG WHAT: stops, with the last lines of the log.
failed() {
    tail -5 "$1" | cut -c1-300 >&2
    fail "$2 failed: $1 has it whole"
}

# prove_below LOG CRATE..: proves all dependencies of these crates. `steps` counts those proofs and these crates' own.
prove_below() {
    local log=$1 below
    shift
    below=$(with_below $(for crate; do leans "$crate"; done))
    steps=$(($(wc -w <<<"$below") + $#))
    printf '%s: %d proofs, of which those that stand are not made again\n' "${0##*/}" "$steps" >&2
    prove "$log" $below
}

# next_proof CRATE: reports that this crate is next.
next_proof() {
    at=$((at + 1))
    printf '%s: %d of %d: proving and compiling %s\n' "${0##*/}" "$at" "$steps" "$1" >&2
}

# build CRATE TOOLS OUT [WORD..]: has rattle prove the crate and compile it by the toolchain TOOLS, over its dependencies, which stand already, and over what rt
# keeps of the crate. The words are those that rt passes to rattle; a library that crates.txt lists becomes a static library by --crate-type, which rt has
# only for one that nothing leans on. While it runs no rt works in the crate.
build() {
    local crate=$1 tools=$2 out=$3 root=src/lib.rt dep rlib log=$PWD/target/build-$1.log words
    shift 3
    [ -f "crates/$crate/$root" ] || root=src/main.rt
    words=(--crate-name "$crate" "$root" --extern "std=$kit/rlibs/std.rlib" -L "dependency=$kit/rlibs" --links "$crate=")
    for dep in $(leans "$crate"); do
        if [ -d "crates/$dep" ]; then rlib=../$dep/out/rlib/$dep.rlib; else rlib=$kit/rlibs/$dep.rlib; fi
        words+=(--extern "$dep=$rlib")
    done
    for dep in $(with_below $(leans "$crate")); do words+=(-L "dependency=../$dep/out/rlib"); done
    words+=(--antt-project "$kit/rattle/logic/antt-project.json" --logic-built "$kit/logic_built" --incremental out/incremental --jobs 2)
    mkdir -p "crates/$crate/out"
    (cd "crates/$crate" && exec flock . "$kit/bin/rattle" build "${words[@]}" "$@" --toolchain "$tools" -o "$out") >"$log" 2>&1 || failed "$log" "building $crate"
}

# Compiled for every processor of x86-64, and not for those of rt's default alone. (For Arm the default is every processor.)
every_x86_64=(--target x86_64-unknown-linux-gnu --cpu x86-64)

# text CRATE PROCESSOR ROOM: proves a library and compiles it for x86_64 or aarch64, to ROOM/CRATE.PROCESSOR.s; its LLVM module before any optimization is then
# ROOM/CRATE.PROCESSOR.ll, and the compiler's flags ROOM/PROCESSOR.flags. The text comes from rattle's own call of clang, with -S in place of -c and with the
# words at `by_hand`: -fno-addrsig, since GNU as has no such directive; -ffp-contract=off, since a fused step would round once where the proofs say twice.
by_hand='-ffp-contract=off -fno-addrsig -fno-verbose-asm'
text() {
    local crate=$1 processor=$2 room=$3 tool kind=(--target aarch64-unknown-linux-gnu)
    [ "$processor" = aarch64 ] || kind=("${every_x86_64[@]}")
    rm -rf "$room/tools" "$room"/kept.*
    mkdir -p "$room/tools/bin"
    ln -s "$kit/toolchain/lib" "$room/tools/lib"
    for tool in ld.lld llvm-ar rattle-x64; do ln -s "$kit/toolchain/bin/$tool" "$room/tools/bin/$tool"; done
    cat >"$room/tools/bin/clang" <<SH
#!/bin/sh
for word; do case \$word in *.bc) cp "\$word" "$room/kept.bc" ;; esac; done
case " \$* " in *' -c '*)
    (
        for word; do
            shift
            case \$word in -c) word=-S ;; *.o) word=$room/kept.s ;; esac
            set -- "\$@" "\$word"
        done
        set -- "\$@" $by_hand
        printf '%s\n' "\$*" | sed 's|--sysroot=$room/tools ||; s| -x ir [^ ]*||; s| -o $room/kept.s||' >"$room/kept.flags"
        exec "$clang" "\$@"
    ) || exit 1 ;;
esac
exec "$clang" "\$@"
SH
    chmod +x "$room/tools/bin/clang"
    build "$crate" "$room/tools" "$room/kept.a" --crate-type staticlib "${kind[@]}"
    mv "$room/kept.s" "$room/$crate.$processor.s"
    mv "$room/kept.flags" "$room/$processor.flags"
    "$clang" --no-default-config "--target=$processor-unknown-linux-gnu" -S -emit-llvm -O0 -Xclang -disable-llvm-passes -x ir "$room/kept.bc" -o "$room/$crate.$processor.ll"
}

# alike CRATE X86_64 AARCH64: stops unless rattle's two modules answer as C does. On x86-64 a large argument lies on the stack (byval), and a large result is
# written through a first pointer, which is returned. C on Arm takes a pointer to a copy, and the address of the result in a register of its own (sret).
# Exported functions (all others are internal) must on Arm return nothing, a number or two whole numbers in registers (as C does on both processors; rattle writes [2 x i64] there; small
# structs of those included), or a struct through sret, as many of these as on x86-64; and no argument may lie on the stack.
alike() {
    local given moved other
    given=$(exported "$2" | grep -c '^define [^@]*ptr @' || true)
    moved=$(exported "$3" | grep -cE '^define void @[A-Za-z0-9_]+\(ptr noundef sret\(\[[0-9]+ x i8\]\) %a0' || true)
    other=$(exported "$3" | grep -vE '^define (noundef )?(void|i1|i8|i16|i32|i64|float|double|\{ i64, i64 \}|\[2 x i64\]) @[A-Za-z0-9_]+\(' || true)
    [ "$given" = "$moved" ] || fail "$1: $given exported functions give a struct on x86-64, and $moved on Arm"
    [ -z "$other" ] || fail "$1: an exported function gives what is not known to be the same on Arm: $other"
    ! grep -q 'byval' "$3" || fail "$1: a struct is still taken on the stack"
}

exported() { grep '^define ' "$1" | grep -v '^define internal '; }

# Checks of an assembly text: no_fused_step, plain, only_memset. Each stops if it fails.
no_fused_step() {
    ! grep -nE '\b(vfn?m(add|sub)[0-9a-z]*|fn?m(add|sub)|fml[as]l?2?|fcmla)\b' "$1" >&2 || fail "${1##*/} has a fused step, which rounds once where the proofs say twice"
}

plain() {
    ! grep -nE '::|/(tmp|home|root|usr|opt|work)/' "$1" >&2 || fail "${1##*/} has a quoted name or a path"
    ! LC_ALL=C grep -n '[^ -~	]' "$1" >&2 || fail "${1##*/} is not plain ASCII"
}

# only_memset TEXT ROOM: linked with a memset and nothing else, no name is undefined.
only_memset() {
    local processor=x86_64
    case $1 in *aarch64*) processor=aarch64 ;; esac
    "$clang" --no-default-config "--target=$processor-unknown-linux-gnu" -c "$1" -o "$2/whole.o"
    "$kit/toolchain/bin/ld.lld" -shared -z defs -z text --defsym=memset=0 "$2/whole.o" -o "$2/whole.so" || fail "${1##*/} wants a name from outside that is not memset"
}
