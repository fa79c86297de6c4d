# Sourced by every script, in its second line: where the repository is, and that nothing around it changes what a script does. Sets
#   root      the repository, also where a script was called through a link
# and gives `run_alone` and `run_x86_64`, which become a program, and `rustc_for_x86_64`.
set -euo pipefail
root=$(command -p readlink -f -- "${BASH_SOURCE[0]}")
root=${root%/tools/common.sh}

# Nothing is taken from the current folder, whatever stands in it: of PATH only the folders that are named from / on.
clean_path() {
    local folder path= rest=${PATH-}:
    while [ -n "$rest" ]; do
        folder=${rest%%:*} rest=${rest#*:}
        [[ $folder != /* ]] || path+=${path:+:}$folder
    done
    PATH=${path:-/usr/bin:/bin}
}
clean_path
unset CDPATH BASH_ENV ENV

# run_alone WORDS..: becomes this program. A loader or an emulator is told nothing by the environment.
run_alone() {
    unset LD_PRELOAD LD_LIBRARY_PATH LD_AUDIT "${!QEMU_@}"
    exec "$@"
}

# run_x86_64 PROGRAM ARGS..: becomes this static program for x86-64; on another processor an emulator runs it.
run_x86_64() {
    if [ "$(uname -m)" != x86_64 ]; then
        command -v qemu-x86_64 >/dev/null || {
            echo "${1##*/}: qemu-x86_64 is missing (Debian: qemu-user)" >&2
            exit 2
        }
        set -- qemu-x86_64 "$@"
    fi
    run_alone "$@"
}

# The first rustc in PATH that has the standard library for x86-64; Debian's may stand behind another.
rustc_for_x86_64() {
    local rustc libraries
    while IFS= read -r rustc; do
        libraries=$("$rustc" --print target-libdir --target x86_64-unknown-linux-gnu 2>/dev/null) || continue
        if compgen -G "$libraries/libstd-*.rlib" >/dev/null; then
            echo "$rustc"
            return
        fi
    done < <(type -ap rustc)
    return 1
}
