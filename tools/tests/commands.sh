# Sourced by tools/test: plan and paircheck by the scripts in the root: words and options, names, files, sizes, and what cannot be printed.

# copy NAME [SHP SHX]: a good pair under another name, with these endings.
copy() {
    mkdir -p "$(dirname -- "$1")"
    cp -- "$data/good_3.shp" "$1.${2:-shp}" && cp -- "$data/good_3.shx" "$1.${3:-shx}"
}

# ---- plan: words and options

told 'plan builds' "$root/rust/build-plan"
cd "$data"
told 'plan: a pair' says 0 "$good" check good_3.shp
told 'plan: two entries exchanged' says 1 'no rule=P11 record=1' check exchanged.shp
told 'plan: every pair at once, each with its name' says 1 "$(cat ../stdout)" check $(grep '\.shp$' ../args)
told 'plan: every pair with its reason' says 1 "$(cat ../why)" check --why $(grep '\.shp$' ../args)
told 'plan: yes to several' says 0 $'good_1.shp: yes records=2 parts=0 points=2\nempty_1.shp: yes records=0 parts=0 points=0' check good_1.shp empty_1.shp
told 'plan: a no wins over a yes' says 1 $'exchanged.shp: no rule=P11 record=1\nempty_1.shp: yes records=0 parts=0 points=0' check exchanged.shp empty_1.shp
told 'plan: what cannot be read wins' says 2 $'nothing.shp: cannot read\nexchanged.shp: no rule=P11 record=1' check nothing.shp exchanged.shp
told 'plan: and it is said why' complained 'plan: nothing.shp: the .shp: No such file or directory (os error 2)'
told 'plan: --why of a yes is one line' says 0 "$good" check --why good_3.shp
told 'plan: --why behind the name' says 1 $'no rule=P11 record=1\nrecord 1: the index says byte 188, the record stands at byte 100' check exchanged.shp --why

told 'plan: no word' complains 2 'usage: plan WORD ..' plan
told 'plan: no file' complains 2 'usage: plan check [--why] [--json] [--] FILE.shp ..' plan check
told 'plan: an unknown word' complains 2 'plan: unknown word chekc; see plan --help' plan chekc good_3.shp
told 'plan: an unknown option' complains 2 'plan: unknown option --why; see plan --help' plan --why check good_3.shp
told 'plan: an unknown option of a word' complains 2 'plan check: unknown option --wyh; see plan check --help' check good_3.shp --wyh
told 'plan: the version' says 0 "plan $(sed -n 's/^version = "\(.*\)"/\1/p' "$root/rust/mbenaruul/Cargo.toml")" plan --version
first_line() {
    local text
    text=$("$@") && head -n 1 <<<"$text"
}
told 'plan: --help' says 0 'usage: plan WORD ..' first_line plan --help
told 'plan: -h' says 0 'usage: plan WORD ..' first_line plan -h
told 'plan: --help of a word' says 0 'usage: plan check [--why] [--json] [--] FILE.shp ..' first_line plan check --help
told 'plan: --help in front of a word' complains 2 'plan: --help stands alone' plan --help check good_3.shp
told 'plan: help among names does not skip the check' says 1 'no rule=P11 record=1' check exchanged.shp --help
told 'plan: and it is said' complained 'plan check: --help stands alone; the files are checked'
copy "$cases/--help"
copy "$cases/-dash"
cd "$cases"
told 'plan: -- ends the options' says 0 $'--help.shp: '"$good"$'\n-dash.shp: '"$good" check -- --help.shp -dash.shp
told 'plan: a name behind -- is no option' says 2 '--why: cannot read
-dash.shp: '"$good" check -- --why -dash.shp

# ---- plan: --json

cd "$data"
told 'plan: --json' says 2 '{"name":"good_3.shp","verdict":"yes","records":2,"parts":3,"points":8}
{"name":"exchanged.shp","verdict":"no","rule":"P11","record":1,"reason":"record 1: the index says byte 188, the record stands at byte 100"}
{"name":"nothing.shp","verdict":"cannot read","reason":"the .shp: No such file or directory (os error 2)"}' check --json good_3.shp exchanged.shp nothing.shp
told 'plan: --json says nothing beside its lines' complained ''
told 'plan: --json of one file' says 0 '{"name":"good_3.shp","verdict":"yes","records":2,"parts":3,"points":8}' check --json --why good_3.shp

# ---- plan: names

odd=$cases/$'a"b\\c\nd: yes records=9'
latin=$cases/$'G\xe4nge'
copy "$odd"
copy "$latin"
cp "$data/exchanged.shx" "$cases/"$'not\xe4.shx'
cp "$data/exchanged.shx" "$cases/"$'past\xf4\x90\x80\x80.shx'
cd "$cases"
told 'plan: a name with a newline is on one line' says 0 "./a\"b\\\\c\\nd: yes records=9.shp: $good"$'\n'"./-dash.shp: $good" check ./"${odd##*/}".shp ./-dash.shp
told 'plan: a name that is not UTF-8 comes out as its bytes' says 0 $'G\xe4nge.shp: '"$good"$'\n'"./-dash.shp: $good" check $'G\xe4nge.shp' ./-dash.shp
told 'plan: such a name with --json' says 0 '{"name":"a\"b\\c\u000ad: yes records=9.shp","verdict":"yes","records":2,"parts":3,"points":8}' check --json "${odd##*/}".shp
told 'plan: and the other' says 0 $'{"name":"G\xef\xbf\xbdnge.shp","name_bytes":"47e46e67652e736870","verdict":"yes","records":2,"parts":3,"points":8}' check --json $'G\xe4nge.shp'
told 'plan: what cannot be read is on one line too' says 2 $'x\\ny.shp: cannot read\n./-dash.shp: '"$good" check $'x\ny.shp' ./-dash.shp
told 'plan: and what is said of it' complained 'plan: x\ny.shp: the .shp: No such file or directory (os error 2)'

# ---- plan: files

mkdir -p upper mixed title alone lone blocked dangling looped pipe shut device proc folder.shp
copy upper/PLAN SHP SHX
copy mixed/plan shp SHX
copy title/Plan Shp Shx
cp "$data/good_3.shp" alone/plan.shp
cp "$data/good_3.shx" lone/plan.shx
copy blocked/plan shp SHX && mkdir blocked/plan.shx
copy dangling/plan shp SHX && ln -s nowhere dangling/plan.shx
copy looped/plan shp SHX && ln -s plan.shx looped/plan.shx
copy pipe/plan && rm pipe/plan.shp && mkfifo pipe/plan.shp
copy shut/plan && rm shut/plan.shx && mkfifo shut/plan.shx
copy device/plan && rm device/plan.shp && ln -s /dev/zero device/plan.shp
copy proc/plan && rm proc/plan.shp && ln -s /proc/version proc/plan.shp
copy linked && ln -s linked.shp link.shp && ln -s linked.shx link.shx
: >empty.shp && : >empty.shx
listing() { find . -printf '%P %s %t %l\0' | LC_ALL=C sort -z; }
listing >"$root/target/before"

# cannot WHAT NAME WHY: the one file cannot be read, with this said of it.
cannot() {
    told "plan: $1" says 2 'cannot read' check "$2"
    told "plan: $1, and why" complained "plan: $2: $3"
}
told 'plan: .SHX beside .SHP' says 0 "$good" check upper/PLAN.SHP
told 'plan: .SHX beside .shp' says 0 "$good" check mixed/plan.shp
told 'plan: .Shx beside .Shp' says 0 "$good" check title/Plan.Shp
told 'plan: through links' says 0 "$good" check link.shp
told 'plan: an empty file' says 1 'no rule=P1 record=0' check empty.shp
cannot 'no .shx' alone/plan.shp 'the .shx: there is none beside it'
cannot 'no .shp' lone/plan.shp 'the .shp: No such file or directory (os error 2)'
cannot 'an index is no plan' lone/plan.shx 'the .shx: there is none beside it'
cannot 'a folder' folder.shp 'the .shp: it is a folder'
cannot 'an empty name' '' 'the .shp: No such file or directory (os error 2)'
cannot 'a .shx that is a folder is not passed over' blocked/plan.shp 'the .shx: it is a folder'
cannot 'a .shx that leads nowhere is not passed over' dangling/plan.shp 'the .shx: No such file or directory (os error 2)'
told 'plan: a .shx that cannot be read is not passed over' says 2 'cannot read' check looped/plan.shp
cannot 'a pipe' pipe/plan.shp 'the .shp: it is no regular file'
cannot 'a pipe for an index' shut/plan.shp 'the .shx: it is no regular file'
cannot 'a device' device/plan.shp 'the .shp: it is no regular file'
cannot 'a file that has more bytes than it says' proc/plan.shp 'the .shp: it changed while it was read'
# A file of the kernel says that it has a page of bytes, and has fewer: as one that shrinks while it is read.
if [ -f /sys/devices/system/cpu/online ]; then
    mkdir -p "$root/target/sys" && cp linked.shx "$root/target/sys/plan.shx" && ln -sf /sys/devices/system/cpu/online "$root/target/sys/plan.shp"
    cannot 'a file that shrinks' "$root/target/sys/plan.shp" 'the .shp: it changed while it was read'
fi

# ---- plan: sizes

large=$root/target/large
rm -rf "$large"
mkdir -p "$large"
truncate -s 4294967295 "$large/over.shp" && cp linked.shx "$large/over.shx"
cp linked.shp "$large/long.shp" && truncate -s 4294967295 "$large/long.shx"
truncate -s 3000000000 "$large/much.shp" && cp linked.shx "$large/much.shx"
cp linked.shp "$large/last.shp" && cp linked.shx "$large/last.shx"
cd "$large"
told 'plan: over the bytes that a pair can have, and the next is judged' says 2 $'over.shp: cannot read\nlong.shp: cannot read\nlast.shp: '"$good" check over.shp long.shp last.shp
if [ "${#run[@]}" -eq 0 ]; then
    # less room than the file has bytes; an emulator would need more for itself
    short_of_memory() { (ulimit -v 1000000 && check "$@"); }
    told 'plan: too large for the memory, and the next is judged' says 2 $'much.shp: cannot read\nlast.shp: '"$good" short_of_memory much.shp last.shp
    told 'plan: and it is said' complained 'plan: much.shp: the .shp: its 3000000000 bytes are too many for the memory'
fi
rm -rf "$large"
cd "$cases"

# ---- what cannot be printed

told 'plan: a full disk' full check linked.shp
told 'plan: no standard output' closed check linked.shp
told 'plan: nothing is read of it, which is no trouble' says 0 '' to_nobody check linked.shp
told 'plan: a pipe that nobody reads' unread check linked.shp --help.shp
told 'plan: help that cannot be printed' full plan --help
told 'paircheck: a full disk' full pair linked.shp linked.shx
told 'paircheck: no standard output' closed pair linked.shp linked.shx
told 'paircheck: a pipe that nobody reads' unread pair linked.shp linked.shx

# ---- paircheck

told 'paircheck: a pair' says 0 "$good" pair linked.shp linked.shx
told 'paircheck: two entries exchanged' says 1 'no rule=P11 record=1' pair "$data/exchanged.shp" "$data/exchanged.shx"
told 'paircheck: no such file' says 2 'cannot read' pair linked.shp nothing.shx
told 'paircheck: a folder' says 2 'cannot read' pair folder.shp linked.shx
told 'paircheck: a pipe' says 2 'cannot read' pair pipe/plan.shp linked.shx
told 'paircheck: a device' says 2 'cannot read' pair linked.shp /dev/zero
told 'paircheck: one name' complains 2 'usage: paircheck SHP SHX' pair linked.shp
told 'paircheck: a name with a newline' says 0 "$good" pair "${odd##*/}.shp" "${odd##*/}.shx"
told 'paircheck: a name that is not UTF-8' says 0 "$good" pair $'G\xe4nge.shp' $'G\xe4nge.shx'
told 'paircheck: one such name, of a pair that is none' says 1 'no rule=P11 record=1' pair "$data/exchanged.shp" $'not\xe4.shx'
told 'paircheck: a name past the last character' says 1 'no rule=P11 record=1' pair "$data/exchanged.shp" $'past\xf4\x90\x80\x80.shx'

unchanged() { listing | cmp -s - "$root/target/before"; }
told 'nothing was written beside the files' unchanged
