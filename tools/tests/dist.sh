# Sourced by tools/test: the archive file for people without Rattle's toolchain, unpacked in an empty folder and used there with no rt in PATH.
cd "$root"
told 'dist: it is made' "$root/tools/dist"
dist=$(echo "$root"/target/dist/*.tar.gz)
version=$(sed -n 's/^version = "\(.*\)"/\1/p' "$root/rust/mbenaruul/Cargo.toml")
told 'dist: one file, with the version in its name' [ "$dist" = "$root/target/dist/mbenaruul-$version-x86_64-linux.tar.gz" ]

# The same sources elsewhere, with the proved parts as they were made; what is for Rust is built anew.
again() {
    local elsewhere=$cases/elsewhere/deeper
    mkdir -p "$elsewhere"
    (cd "$root" && umask 027 && cp -R --parents README.md LICENSE NOTICE docs include plan paircheck crates.txt crates/*/{src,specs,proofs,data} tools rust \
        target/made target/bin target/obj target/staticlib "$elsewhere")
    (PATH=$path_without_rt && "$elsewhere/tools/dist") && cmp "$dist" "$elsewhere"/target/dist/*.tar.gz
}
told 'dist: the same input gives the same bytes, also in another folder' again

unpacked=$cases/unpacked
mkdir -p "$unpacked"
tar -xzf "$dist" -C "$unpacked"
cd "$unpacked/mbenaruul-$version-x86_64-linux"
told 'dist: every file has its checksum' sha256sum --quiet --strict -c SHA256SUMS
listed_files() { (find . -type f ! -name SHA256SUMS -printf '%P\n' | LC_ALL=C sort) | cmp - <(cut -c 67- SHA256SUMS); }
told 'dist: and no file is without' listed_files
told 'dist: the version' says 0 "$version" cat VERSION
told 'dist: no name of a folder of this system is in it' says 1 '' grep -rlF -e "$root" .

# Programs that need nothing of the system but its kernel.
is_static() { readelf -lW "$1" >"$told_log" && ! grep -q INTERP "$told_log"; }
told 'dist: plan is static' is_static bin/plan
told 'dist: paircheck is static' is_static bin/paircheck
told 'dist: plan' says 1 $'no rule=P11 record=1\nrecord 1: the index says byte 188, the record stands at byte 100' \
    without_rt ./plan check --why crates/pairs/data/exchanged.shp
told 'dist: the program itself' says 0 "$good" without_rt "${run[@]}" bin/plan check "$data/good_3.shp"
told 'dist: paircheck' says 1 'no rule=P11 record=1' without_rt ./paircheck crates/pairs/data/exchanged.shp crates/pairs/data/exchanged.shx
told 'dist: the program itself' says 0 'no rule=P11 record=1' without_rt "${run[@]}" bin/paircheck crates/pairs/data/exchanged.shp crates/pairs/data/exchanged.shx

c_example() {
    without_rt "${cc[@]}" -I include "rust/c/$1.c" lib/libexport.a -o "$1"
}
told 'dist: the C example that writes builds' c_example write
told 'dist: it writes' says 0 '2 of 7 points' first_line "${run[@]}" ./write written.shp written.shx
told 'dist: the C example builds' c_example example
told 'dist: the C example runs' says 0 'yes records=3 parts=3 points=7' "${run[@]}" ./example written.shp written.shx
told 'dist: and says no' says 1 'no rule=P11 record=1' "${run[@]}" ./example crates/pairs/data/exchanged.shp crates/pairs/data/exchanged.shx

mkdir -p printer/src
cat >printer/Cargo.toml <<'TOML'
[package]
name = "printer"
version = "0.1.0"
edition = "2021"

[dependencies]
mbenaruul = { path = "../rust/mbenaruul" }
TOML
cat >printer/src/main.rs <<'RUST'
fn main() {
    let [shp, shx] = ["shp", "shx"].map(|e| std::fs::read(format!("crates/pairs/data/exchanged.{e}")).unwrap());
    let fault = mbenaruul::Plan::check(&shp, &shx).unwrap_err();
    println!("{}", fault.why(&shp, &shx).unwrap());
}
RUST
rust_program() {
    (
        unset MBENARUUL_LIB CARGO_TARGET_DIR CARGO_ENCODED_RUSTFLAGS
        [ "${#run[@]}" -eq 0 ] || export CARGO_ENCODED_RUSTFLAGS=-Ctarget-feature=+crt-static
        cd printer && without_rt "$cargo" build --quiet --offline
    )
}
told 'dist: a Rust program builds with cargo alone' rust_program
told 'dist: the Rust program runs' says 0 'record 1: the index says byte 188, the record stands at byte 100' "${run[@]}" printer/target/$CARGO_BUILD_TARGET/debug/printer
cd "$cases"
