# Sourced by tools/test: that nothing around a script changes what it says, and that it runs nothing that is older than its sources.

# ---- rt is needed to build, and for nothing else

# The folders of PATH that have no rt in them.
path_without_rt() {
    local folder path= rest=$PATH:
    while [ -n "$rest" ]; do
        folder=${rest%%:*} rest=${rest#*:}
        [ -e "$folder/rt" ] || path+=${path:+:}$folder
    done
    echo "$path"
}
path_without_rt=$(path_without_rt)
without_rt() { PATH=$path_without_rt "$@"; }
told 'rt is not in that PATH' says 1 '' without_rt command -v rt
told 'paircheck: once it is built, with no rt' says 0 "$good" without_rt pair linked.shp linked.shx
told 'plan: once it is built, with no rt' says 0 "$good" without_rt check linked.shp

# ---- a folder full of files that would be run, if anything were

trap_folder=$cases/trap
mkdir -p "$trap_folder/lib" "$trap_folder/bin" "$trap_folder/toolchain/lib" "$trap_folder/toolchain/bin"
printf '#!/bin/sh\necho yes records=9 parts=9 points=9\n' >"$trap_folder/one"
chmod +x "$trap_folder/one"
for name in lib/ld-linux-x86-64.so.2 toolchain/lib/ld-linux-x86-64.so.2 toolchain/bin/qemu-x86_64 bin/qemu-x86_64 \
    readlink dirname uname cat sha256sum find sort xargs cut flock bash rt rustc cargo cc qemu-x86_64 plan paircheck program bin/plan bin/paircheck; do
    cp "$trap_folder/one" "$trap_folder/$name"
done
mkdir -p "$trap_folder/.cargo"
printf '[build]\nrustc = "./rustc"\n' >"$trap_folder/.cargo/config.toml"
cp linked.shp linked.shx "$trap_folder"
cd "$trap_folder"
told 'paircheck: nothing of the current folder is run' says 0 "$good" without_rt pair linked.shp linked.shx
told 'plan: nothing of the current folder is run' says 0 "$good" without_rt check linked.shp
here_first() { PATH=.::$PATH:. CDPATH=. timeout 60 "$@"; }
told 'paircheck: nor with . in PATH' says 0 "$good" here_first "$root/paircheck" linked.shp linked.shx
told 'plan: nor with . in PATH' says 0 "$good" here_first "$root/plan" check linked.shp
from_bash_env() { BASH_ENV=./one LD_LIBRARY_PATH=.:lib QEMU_LD_PREFIX=. "$@"; }
told 'paircheck: nor what the environment names' says 0 "$good" from_bash_env pair linked.shp linked.shx
told 'plan: nor what the environment names' says 0 "$good" from_bash_env check linked.shp
as_functions() {
    (
        readlink() { echo /; } && sha256sum() { echo 0; } && exec() { echo "$good"; }
        export -f readlink sha256sum exec
        timeout 60 "$@"
    )
}
told 'paircheck: nor functions of the environment' says 1 'no rule=P11 record=1' as_functions "$root/paircheck" "$data/exchanged.shp" "$data/exchanged.shx"
told 'plan: nor functions of the environment' says 1 'no rule=P11 record=1' as_functions "$root/plan" check "$data/exchanged.shp"
cd "$cases"

# ---- links

mkdir -p links/deep
ln -s "$root/plan" links/plan
ln -s ../plan links/deep/plan
ln -s "$root/paircheck" links/paircheck
ln -s "$root/tools/run-program" links/run
told 'plan: through a link' says 0 "$good" links/plan check linked.shp
told 'plan: through a link to a link' says 0 "$good" links/deep/plan check linked.shp
told 'paircheck: through a link' says 0 "$good" links/paircheck linked.shp linked.shx
told 'run-program: through a link' says 0 "$good" links/run paircheck linked.shp linked.shx
by_path() { PATH=$cases/links:$PATH "$@"; }
told 'plan: through a link in PATH' says 0 "$good" by_path env plan check linked.shp

# ---- with nothing changed a script starts in well under a second

# quick MILLISECONDS WORDS..: the best of five runs.
quick() {
    local most=$1 best=100000 began took _
    shift
    for _ in 1 2 3 4 5; do
        began=$(date +%s%N)
        "$@" >/dev/null || return
        took=$((($(date +%s%N) - began) / 1000000))
        [ "$took" -ge "$best" ] || best=$took
    done
    echo "$best ms"
    [ "$best" -lt "$most" ]
}
# an emulator takes time of its own
told 'paircheck: starts at once' quick $((${#run[@]} ? 2000 : 700)) "$root/paircheck" linked.shp linked.shx
told 'plan: starts at once' quick $((${#run[@]} ? 2000 : 700)) "$root/plan" check linked.shp

# ---- nothing is run that is older than its sources: tried in a copy, without rt, so that nothing can be built again

copied="$cases/a copy"
mkdir -p "$copied"
(cd "$root" && cp -R --parents plan paircheck crates.txt crates/*/{src,specs,proofs} tools rust include target/made target/bin target/obj target/staticlib target/rust/plan "$copied")
copied_pair() { without_rt "$copied/paircheck" linked.shp linked.shx; }
copied_plan() { without_rt "$copied/plan" check linked.shp; }
missing="setup: missing: Rattle's rt"
told 'a copy of all that was built runs, in a folder with a space in its name' says 0 "$good" copied_pair
told 'plan: the same' says 0 "$good" copied_plan
source=$copied/crates/report/src/lib.rt
cp "$source" source.kept
echo '// a word more' >>"$source"
touch -d 2000-01-01 "$source"
told 'paircheck: a source has changed, even if it looks older' complains 2 "$missing" copied_pair
told 'plan: a source has changed' complains 2 "$missing" copied_plan
cp source.kept "$source"
told 'paircheck: the source is as it was' says 0 "$good" copied_pair
told 'plan: the source is as it was' says 0 "$good" copied_plan
touch "$copied/crates/format/specs/New.antt"
told 'paircheck: a source is new' complains 2 "$missing" copied_pair
rm "$copied/crates/format/specs/New.antt"
cp "$trap_folder/one" "$copied/target/bin/paircheck"
told 'paircheck: another program stands in its place' complains 2 "$missing" copied_pair
cp "$trap_folder/one" "$copied/target/rust/plan"
told 'plan: another program stands in its place, and is built again' says 0 "$good" copied_plan
echo 'no Rust' >>"$copied/rust/mbenaruul/src/lib.rs"
told 'plan: what does not build is not run' says 2 '' copied_plan
rm -rf "$copied"
