# Sourced by the tests that link the compiled library, which is code for x86-64: how such code is built and run here. On another
# processor that takes Debian's cross compiler, a Rust library for x86-64 and an emulator of user programs (README.md names the packages).
target=x86_64-unknown-linux-gnu
cc_x86=() rustc_x86=() run_x86=()
if [ "$(uname -m)" = x86_64 ]; then
    cc_x86=(cc) rustc_x86=(rustc)
elif command -v x86_64-linux-gnu-gcc qemu-x86_64 > /dev/null; then
    for rustc in rustc /usr/bin/rustc; do
        if compgen -G "$("$rustc" --print target-libdir --target "$target")/libstd-*" > /dev/null; then
            cc_x86=(x86_64-linux-gnu-gcc) run_x86=(qemu-x86_64)
            rustc_x86=("$rustc" --target "$target" -C linker=x86_64-linux-gnu-gcc)
            break
        fi
    done
fi

# x86_64_or_leave NAME: ends the test NAME where such code cannot be run, and says so.
x86_64_or_leave() {
    if [ ${#cc_x86[@]} = 0 ]; then
        echo "$1: not run: the compiled library is x86-64 code, this machine is $(uname -m) and has no cross compiler and emulator for it"
        exit 0
    fi
}

# library NAME: target/staticlib/libNAME.a, compiled again only if a crate's file has changed since.
library() {
    tools/build "$1"
}

# Of the customer's requests the independent engine is built with the first so many: those that have landed here.
peer_level=1

# peer_program NAME FOLDER [WORDS...]: FOLDER/NAME, of bench/src/NAME.rs and the independent engine, as that engine's own release
# profile has it: a yardstick built with less would flatter what is held against it.
peer_program() {
    local name=$1 folder=$2 words=(--edition 2021 -C opt-level=3 -C codegen-units=1 -C panic=abort)
    shift 2
    "${rustc_x86[@]}" "${words[@]}" -A warnings --cfg "level=\"$peer_level\"" --crate-type rlib --crate-name xgpon_peer bench/peer/src/lib.rs -o "$folder/libxgpon_peer.rlib"
    "${rustc_x86[@]}" "${words[@]}" -C lto=fat "bench/src/$name.rs" --extern xgpon_peer="$folder/libxgpon_peer.rlib" "$@" -o "$folder/$name"
}
