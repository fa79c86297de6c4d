# Sourced behind tools/made.sh by the scripts that build for Rust and C: what builds and runs x86-64 programs here. The archive of the proved library
# links into no others; on another processor they are built with Debian's cross packages and run by an emulator. Sets
#   built     the folder of all that is built
#   cc        the C compiler's words
#   run       the words in front of an x86-64 program
# and gives `in_crate`, which is cargo in the crate. Where something is missing, tools/setup has named it, and the exit status is 3.
built=$root/target/rust
"$root/tools/setup" rust || exit 3

RUSTC=$(rustc_for_x86_64)
cargo=${RUSTC%/*}/cargo
cc=(cc) run=()
export RUSTC RUSTDOC=${RUSTC%/*}/rustdoc MBENARUUL_LIB=$archive CARGO_TARGET_DIR=$built CARGO_BUILD_TARGET=x86_64-unknown-linux-gnu
# Programs are static, so that they run where they are handed to, and in an emulator.
export CARGO_ENCODED_RUSTFLAGS=-Ctarget-feature=+crt-static CARGO_ENCODED_RUSTDOCFLAGS=-Ctarget-feature=+crt-static
if [ "$(uname -m)" != x86_64 ]; then
    cc=(x86_64-linux-gnu-gcc -static) run=(qemu-x86_64)
    export CARGO_TARGET_X86_64_UNKNOWN_LINUX_GNU_LINKER=${cc[0]} CARGO_TARGET_X86_64_UNKNOWN_LINUX_GNU_RUNNER=${run[0]}
    # The example in the documentation is run in the emulator too, which cargo of today's Debian does only if it is asked as a nightly one is.
    export RUSTC_BOOTSTRAP=1 CARGO_UNSTABLE_DOCTEST_XCOMPILE=true
fi

# in_crate SUBCOMMAND WORDS..: in the crate's own folder, since cargo looks for its settings from the current one on.
in_crate() {
    local subcommand=$1
    shift
    (cd "$root/rust/mbenaruul" && "$cargo" "$subcommand" --locked --offline "$@")
}
