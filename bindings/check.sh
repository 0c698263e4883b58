#!/usr/bin/env bash
# Proves and writes the archive, then holds to it all that those who link it read or copy: what the header says that it needs, the Rust
# tests, the layouts and the calls as C sees them, mistakes that a compiler has to find, the examples, and the programs in the README.
# BREDUMALT_LIB names a folder that has the archive already: then nothing is proved here.
set -euo pipefail
[ -z "${BREDUMALT_LIB:-}" ] || BREDUMALT_LIB=$(cd "$BREDUMALT_LIB" && pwd)
cd "$(dirname "$0")"
. ../.ci/x86-64 || exit 1
work=$(mktemp -d)
trap 'rm -rf "$work"' EXIT
export LC_ALL=C # what compilers say is read below

fail() {
    printf 'bindings: %s\n' "$*"
    exit 1
}

# A file, then a command that has to end well and print what the file holds.
same() {
    "${@:2}" | diff "$1" - || fail "not $1, or a bad end: ${*:2}"
}

if [ -z "${BREDUMALT_LIB:-}" ]; then
    (cd ../crates/bredumalt && rt lib) >"$work/rt" 2>&1 || {
        cat "$work/rt"
        exit 1
    }
    BREDUMALT_LIB=$(cd ../crates/bredumalt/out && pwd)
fi
export BREDUMALT_LIB
export CARGO_TARGET_DIR=${CARGO_TARGET_DIR:-../target/bindings}
archive=$BREDUMALT_LIB/libbredumalt.a
header=include/bredumalt.h

# Of C the functions that the header names, and those all; no data; no registers but the plain ones and SSE's; no more stack than is
# promised.
sed -n 's/.* of its C library \([a-z, ]*\), and nothing else.*/\1/p' $header | tr -s ', ' '\n\n' | sort >"$work/named"
nm -u "$archive" | awk 'NF == 2 { print $2 }' | sort -u | diff "$work/named" - ||
    fail "the archive needs other functions than the header names"
nm "$archive" | awk 'NF > 1 && $(NF - 1) !~ /^[TtRrU]$/ { print; more = 1 } END { exit more }' ||
    fail "the archive keeps data of its own"
objdump -dr --no-show-raw-insn "$archive" >"$work/code"
if grep -E '%(st|mm|[yz]mm|k[0-7]|[fg]s)' "$work/code"; then
    fail "the archive uses registers that the header does not name"
fi
awk -f tests/stack.awk $header tests/layout.txt "$work/code" || fail "the archive does not keep to the stack that the header promises"

cargo test --quiet --offline --locked

c="${CC:-cc} -std=c11 -Wall -Wextra -Werror -I include"
$c tests/layout.c -o "$work/layout"
same tests/layout.txt $emulator "$work/layout"

# calls.c has to make every call that the archive exports, and through every inline function of the header.
$c -c tests/calls.c -o "$work/calls.o"
nm -g --defined-only "$archive" | awk '$2 == "T" { print $3 }' | sort >"$work/exported"
nm -u "$work/calls.o" | awk '$2 ~ /^bredumalt_/ { print $2 }' | sort | diff "$work/exported" - || fail "calls.c leaves a call out"
sed -n 's/.*static inline [a-z0-9_]* \(bredumalt_[a-z0-9_]*\)(.*/\1/p' $header | sort >"$work/inline"
nm "$work/calls.o" | awk '$2 == "t" && $3 ~ /^bredumalt_/ { print $3 }' | sort | diff "$work/inline" - ||
    fail "calls.c leaves an inline function out"
$c "$work/calls.o" "$archive" -o "$work/calls"
$emulator "$work/calls" || fail "a call from C does not answer as document 01 says"

# A mistake that the compiler has to find, and what it has to say about it. Put right, the file compiles.
refused() {
    $c -D RIGHT -c "$1" -o "$work/misuse.o" || fail "$1 is not taken where it is right"
    if $c -c "$1" -o "$work/misuse.o" 2>"$work/said"; then
        fail "the compiler takes $1"
    fi
    grep -m 1 "error: .*$2" "$work/said" || fail "$1 is refused for another reason: $(cat "$work/said")"
}
refused tests/misuse_kind.c 'incompatible type'
refused tests/misuse_token.c 'incompatible type'
refused tests/misuse_unused.c 'unused-result'

# hello.txt was worked out by hand from document 01. Slot 0 is idle's, so the lowest free one is 1, in its epoch 0. Idle yields and
# stands behind 1/0, the head, which runs; it blocks, and 0/0 is the head. Raw, 1/0 is 0 * 65,536 + 1. A wake succeeds for a Blocked
# id, so once, and leaves it Ready. 4 names no kind of switch. board.txt was too; its reasons stand in board.rs and board.c.
for example in hello board; do
    same examples/$example.txt cargo run --quiet --offline --locked --example $example
    $c examples/$example.c "$archive" -o "$work/$example"
    same examples/$example.txt $emulator "$work/$example"
done
if command -v pkg-config >"$work/which"; then
    ./write-pc "$BREDUMALT_LIB" >"$work/bredumalt.pc"
    flags=$(PKG_CONFIG_PATH=$work pkg-config --cflags --libs bredumalt)
    ${CC:-cc} -std=c11 examples/hello.c $flags -o "$work/linked"
    same examples/hello.txt $emulator "$work/linked"
fi

# The README's programs are cut from hello.rs and hello.c, and are whole: they build, and print the first line.
cut_from() {
    awk -v opens="\`\`\`$2" '$0 == "```" { on = 0 } on { print } $0 == opens { on = 1 }' ../README.md >"$3"
    diff "$1" "$3" >"$work/diff" || true
    if grep '^>' "$work/diff"; then
        fail "the README has lines that $1 does not have"
    fi
}
readme=$CARGO_TARGET_DIR/readme
mkdir -p "$readme/src"
cut_from examples/hello.rs rust "$readme/src/main.rs"
cut_from examples/hello.c c "$work/readme.c"
head -n 1 examples/hello.txt >"$work/first"
printf '[package]\nname = "readme"\nedition = "2024"\n[dependencies]\nbredumalt = { path = "%s" }\n' "$PWD" >"$readme/Cargo.toml"
same "$work/first" cargo run --quiet --offline --manifest-path "$readme/Cargo.toml"
$c "$work/readme.c" "$archive" -o "$work/readme.out"
same "$work/first" $emulator "$work/readme.out"

echo "bindings: needs, tests, layouts, calls, mistakes, examples and the README agree"
