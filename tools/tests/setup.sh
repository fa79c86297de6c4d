# Sourced by tools/test: the set-up, and what the gate makes of something that is missing. Both are run with nothing but the system's own tools in PATH, and with
# stand-ins for those that the set-up asks or calls.
bare=$cases/bare

# stand_in NAME TEXT: a program of that name, in the place of the system's.
stand_in() {
    rm -f "$bare/$1"
    printf '#!/bin/sh\n%s\n' "$2" >"$bare/$1"
    chmod +x "$bare/$1"
}

# a_system PROCESSOR USER: one that has none of what the set-up brings.
a_system() {
    rm -rf "$bare" "$cases/called"
    mkdir -p "$bare"
    ln -s /usr/bin/* "$bare"
    (cd "$bare" && rm -f rt rustc rustdoc cargo cc c89 c99 gcc gcc-* clang* ./*-linux-gnu-* qemu-* apt-get dpkg)
    stand_in uname "echo $1"
    stand_in id "echo $2"
}

# What it has once the packages are there: a library folder for rustc, and a C library for the compilers.
brought() {
    mkdir -p "$cases/brought"
    : >"$cases/brought/libstd-1.rlib"
    : >"$cases/brought/libc.a"
    stand_in rustc "echo '$cases/brought'"
    stand_in cargo ''
    stand_in cc "echo '$cases/brought/libc.a'"
    stand_in x86_64-linux-gnu-gcc "echo '$cases/brought/libc.a'"
    stand_in qemu-x86_64 ''
}

# has_apt_get TEXT: apt-get and dpkg note what they are called with; an install does what the text says.
has_apt_get() {
    stand_in dpkg "echo dpkg \"\$@\" >>'$cases/called'"
    stand_in apt-get "echo apt-get \"\$@\" >>'$cases/called'; case \" \$* \" in *' install '*) $1 ;; esac"
}
called() { cat "$cases/called"; }
set_up() { PATH=$bare "$root/tools/setup" "$@"; }
the_rest='a rustc with the standard library for x86-64, cc, the C library for x86-64'

told 'setup: here all is there' says 0 '' "$root/tools/setup"
told 'setup: and nothing is said' complained ''

a_system x86_64 1000
told 'setup: without root the packages are named in one line' complains 3 "setup: missing: $the_rest (Debian: rustc cargo gcc libc6-dev)" set_up rust
has_apt_get true
told 'setup: without root nothing is installed' ends 3 set_up rust
told 'setup: apt-get was not called' [ ! -e "$cases/called" ]
told 'setup: rt is in no package' complains 3 "setup: missing: Rattle's rt" set_up rt
brought
told 'setup: what is there is not asked for' says 0 '' set_up rust
told 'setup: rt alone is named' complains 3 "setup: missing: Rattle's rt" set_up

a_system x86_64 0
has_apt_get "cp -P '$bare.brought/'* '$bare'"
mkdir -p "$bare.brought" && (bare=$bare.brought && brought)
told 'setup: root has it installed' ends 0 set_up rust
told 'setup: on x86-64 without cross packages' says 0 'apt-get -q update
apt-get -q -y -o DPkg::Lock::Timeout=300 install --no-install-recommends rustc cargo gcc libc6-dev' called

a_system aarch64 0
has_apt_get "cp -P '$bare.brought/'* '$bare'"
told 'setup: root on another processor' ends 0 set_up rust
told 'setup: the foreign architecture first' says 0 'dpkg --add-architecture amd64
apt-get -q update
apt-get -q -y -o DPkg::Lock::Timeout=300 install --no-install-recommends gcc-x86-64-linux-gnu qemu-user rustc cargo libstd-rust-dev:amd64 gcc libc6-dev libc6-dev:amd64' called

a_system x86_64 0
has_apt_get 'echo E: no way; exit 100'
told 'setup: an install that fails' says 3 '' set_up rust
told 'setup: says so in its last line' grep -qxF "setup: missing: $the_rest (Debian: rustc cargo gcc libc6-dev); apt-get: E: no way" "$told_log"
a_system x86_64 0
told 'setup: root without apt-get' complains 3 "setup: missing: $the_rest (Debian: rustc cargo gcc libc6-dev)" set_up rust

# ---- the gate, with a stand-in for rt

gate=$cases/gate
mkdir -p "$gate"
(cd "$root" && cp -R --parents .ci crates.txt tools rust "$gate")
a_system x86_64 1000
stand_in rt '[ "$1" = ci ] && echo "3 passed, 0 failed"'
run_gate() { PATH=$bare "$@" bash "$gate/.ci/run" 2>/dev/null; }
told 'gate: elsewhere the last lines say what was passed over' says 0 '3 passed, 0 failed
gate: PASSED OVER, since something is missing here: the comparison with the Rust crate
gate: PASSED OVER, since something is missing here: what is for Rust and C
gate: PASSED OVER, since something is missing here: the commands and what is handed on
3 passed, 0 failed' run_gate env -u CI
told 'gate: in CI what is missing is a failure' says 1 'gate: FAILED: something is missing' run_gate env CI=true
brought
told 'gate: in CI a part that cannot run is a failure' says 1 '3 passed, 0 failed
gate: FAILED: the comparison with the Rust crate: it cannot run here' run_gate env CI=true SHAPEFILE_SRC=/nowhere
stand_in rt 'echo "rt: ok; handles allowed: none; must-fail edits: 4 refused, 1 bad; every proof and must-fail edit was done in this run"; echo "3 passed, 0 failed"'
told 'gate: an edit that could not be tried is a failure' says 1 'rt: ok; handles allowed: none; must-fail edits: 4 refused, 1 bad; every proof and must-fail edit was done in this run
3 passed, 0 failed
gate: FAILED: a must-fail edit is bad' run_gate env CI=true
stand_in rt 'echo "2 passed, 1 failed"; exit 1'
told 'gate: rt that fails is a failure' says 1 '2 passed, 1 failed' run_gate env CI=true
stand_in rt 'echo something'
told 'gate: rt without a verdict is a failure' says 1 'something
gate: FAILED: rt ci ended without its verdict' run_gate env CI=true
