# Sourced in the repository's folder: makes the on-air service. Sets `onair`, the program. Messages about
# installing and building go to standard error.
# The library is that of the folder BELFRYWOOL_LIB, if that is set. Otherwise its archives are made; the first
# time, everything that they need is proved.
. tools/build/programs.sh
need cargo cargo
need python3 python3
for crate in hyper-0.14:hyper tokio-1:tokio serde-1:serde serde_derive-1:serde-derive serde_json-1:serde-json sha2-0.10:sha2 libm-0.2:libm \
    libc-0.2:libc; do
    set -- /usr/share/cargo/registry/"${crate%:*}"*
    need_file "$1" "librust-${crate#*:}-dev"
done
if [ -z "${BELFRYWOOL_LIB:-}" ]; then
    BELFRYWOOL_LIB=$(tools/build/archives belfry_almanac belfry_centre belfry_pane belfry_repair belfry_book) || exit
    export BELFRYWOOL_LIB
fi
onair=$PWD/target/onair/release/onair
# Nothing is built if no source of the program is newer. A user who may not write here can then start it.
made_of() {
    [ -x "$onair" ] && [ "$(cat target/onair/library 2>/dev/null)" = "$BELFRYWOOL_LIB" ] &&
        [ -z "$(find service bindings/rust data/books data/orders tools/order/moonshot.txt examples/night "$BELFRYWOOL_LIB"/*.a -newer "$onair" -print -quit)" ]
}
if ! made_of; then
    # The crates' versions are those that Debian has now.
    [ ! service/Cargo.lock -ot /usr/share/cargo/registry ] || rm -f service/Cargo.lock
    # In service/, whose .cargo/config.toml names the place of Debian's crates.
    (cd service && cargo build --release --quiet -j1 --target-dir ../target/onair) >&2 ||
        { echo "onair: the service could not be built" >&2; exit 1; }
    touch "$onair"
    printf '%s' "$BELFRYWOOL_LIB" >target/onair/library
fi
