# Sourced behind tools/common.sh by the scripts that build. target/made/NAME says of what a product was made, and which bytes it had: so one that is older
# than its sources, or that something else has put there, is made again, and with nothing changed a script starts at once. Sets
#   archive   the folder of libexport.a
# and gives `made`, `sum_of`, `proved_sum`, `make_archive` and `build_program`.
archive=$root/target/staticlib

# made NAME SUM BUILD PRODUCT..: the products are there, built of the sources as they are. SUM is a command that prints the sum of the sources, and BUILD one
# that builds them; no other script builds meanwhile.
made() {
    local name=$1 sum
    sum=$("$2")
    is_made "$name" "$sum" "${@:4}" || alone_in_target build_noted "$@"
}

build_noted() {
    local name=$1 sum
    sum=$("$2")
    # another script may have built them meanwhile
    ! is_made "$name" "$sum" "${@:4}" || return 0
    "$3" "$name" || return
    [ "$("$2")" = "$sum" ] || {
        echo "$name: the sources changed while it was built" >&2
        return 2
    }
    mkdir -p "$root/target/made"
    note_of "$sum" "${@:4}" >"$root/target/made/$name"
}

is_made() {
    local note=$root/target/made/$1
    [ -f "$note" ] && [ "$(cat "$note")" = "$(note_of "${@:2}")" ]
}

# note_of SUM PRODUCT..
note_of() {
    echo "$1" && sha256sum -- "${@:2}" 2>/dev/null | cut -c 1-64
}

# Runs the words while no other script builds; at once, where that is so already.
alone=
alone_in_target() {
    if [ -n "$alone" ]; then
        "$@"
        return
    fi
    mkdir -p "$root/target"
    (
        flock 9
        alone=yes
        "$@"
    ) 9>"$root/target/lock"
}

# sum_of PATH..: one sum over the names and the bytes of all files below these paths of the repository.
sum_of() {
    (cd "$root" && find -L "$@" -type f -print0 | LC_ALL=C sort -z | xargs -0 sha256sum -- | sha256sum | cut -c 1-64)
}

# What the proofs, the programs and the library are made of.
proved_sum() {
    (cd "$root" && shopt -s nullglob && sum_of crates.txt crates/*/src crates/*/specs crates/*/proofs)
}

# libexport.a, the archive of the static library crates/export_c, is proved and built.
make_archive() {
    made libexport.a proved_sum prove_archive "$archive/libexport.a"
}

prove_archive() {
    local said
    "$root/tools/setup" rt || return 3
    echo "rust: proving and building the library first, which takes some minutes" >&2
    said=$(cd "$root/crates/export_c" && rt lib 2>&1 </dev/null) || {
        echo "$said" >&2
        echo "rust: rt lib failed in crates/export_c" >&2
        return 1
    }
    put "$root/crates/export_c/out/libexport_c.a" "$archive/libexport.a"
}

# put FILE COPY: what runs or reads the copy just now keeps its own bytes.
put() {
    mkdir -p "${2%/*}" && cp -- "$1" "$2.new" && mv -- "$2.new" "$2"
}

# build_program NAME: the program crates/NAME is proved and built. target/made/kit says where the toolchain stands that it runs with.
build_program() {
    made "$1" proved_sum prove_program "$root/target/bin/$1" "$root/target/obj/$1.o"
}

prove_program() {
    local said kit program=$root/crates/$1/out/$1
    "$root/tools/setup" rt || return 3
    echo "$1: proving and building it first, which takes a minute or two" >&2
    # rt builds a program to run it, and its status is then the program's: the program is there only where it was proved. It is given nothing to do.
    rm -f "$program"
    said=$(cd "$root/crates/$1" && rt run 2>&1 </dev/null) || true
    [ -x "$program" ] || {
        echo "$said" >&2
        echo "$1: it is not proved" >&2
        return 2
    }
    put "$program" "$root/target/bin/$1" && put "$program.o" "$root/target/obj/$1.o" || return
    kit=$(rt doc) && kit=${kit%/*} && [ -d "$kit/toolchain" ] || {
        echo "$1: rt does not say where its toolchain stands" >&2
        return 2
    }
    mkdir -p "$root/target/made"
    echo "$kit" >"$root/target/made/kit"
}
