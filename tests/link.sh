#!/bin/sh
# Builds the archives of the exported calls and the two examples over them, and compares what they print with document 01's figures.
# Then compares every call with the Rust reference, on inputs from a seed. One line for each check; ends with 1 if one failed.
cd "$(dirname "$0")/.." || exit 2
work=$PWD/target/link
mkdir -p "$work"
failed=0

check() { # NAME COMMAND..
    name=$1
    shift
    if "$@" >"$work/$name.log" 2>&1; then
        echo "ok $name"
    else
        echo "FAILED $name (target/link/$name.log)"
        failed=1
    fi
}

archives() {
    tools/build/archives >"$work/folder"
}

c_example() {
    cc -std=c99 -Wall -Wextra -Werror -O2 -Ibindings/c -o "$work/c-link" tests/conformance/main.c "$archive/libbelfry_earth.a" "$archive/libbelfry_centre.a" "$archive/libbelfry_almanac.a" "$archive/libbelfry_repair.a" "$archive/libbelfry_pane.a" "$archive/libbelfry_book.a" &&
        "$work/c-link" data/books/book30.bin >"$work/c-link.out" && diff tests/conformance/expected "$work/c-link.out"
}

rust_example() {
    BELFRYWOOL_LIB=$archive cargo build --release -j1 -p conformance &&
        target/cargo/release/conformance data/books/book30.bin >"$work/rust-link.out" && diff tests/conformance/expected "$work/rust-link.out"
}

same_as_reference() {
    BELFRYWOOL_LIB=$archive cargo test --release -j1 -p bench
}

check archives archives
archive=$(cat "$work/folder")
[ "$archive" != "$work" ] || echo "this machine is $(uname -m): the archives' modules are compiled for it"
check c-link c_example
check rust-link rust_example
check same-as-reference same_as_reference
exit $failed
