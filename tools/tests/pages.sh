# Sourced by tools/test: that the pages say what is there.
cd "$root"
rules() { grep -o '^| P[0-9]* |' docs/RULES.md | tr -d '| '; }
told 'RULES: a line for each of P1 to P17, in order' says 0 "$(printf 'P%d\n' {1..17})" rules
told 'the C header leads there' grep -q 'docs/RULES.md' include/mbenaruul.h
told 'the documentation of Fault leads there' grep -q 'docs/RULES.md' rust/mbenaruul/src/error.rs
leads_there() { grep -q 'docs/RULES.md' <<<"$(plan check --help)"; }
told 'plan check --help leads there' leads_there

# Each crate stands behind those that it depends on, and README lists them in the same order.
in_layers() {
    awk -F: '
        { count = split($2, needed, " "); sub(/ staticlib$/, "", $1); listed[$1] = NR; names[NR] = $1; for (i = 1; i <= count; i++) needs[NR] = needs[NR] " " needed[i] }
        END {
            for (n = 1; n <= NR; n++) {
                count = split(needs[n], needed, " ")
                for (i = 1; i <= count; i++) if (listed[needed[i]] > n) { print names[n] " stands before " needed[i]; bad = 1 }
            }
            exit bad
        }' crates.txt
}
told 'crates.txt is in the order of the layers' in_layers
in_readme() { awk '/^\| crate \|/ { on = 1; next } on && /^\|/ { split($0, cell, "|"); print cell[2] } on && !/^\|/ { exit }' README.md | grep -o '`[a-z_]*`' | tr -d '`'; }
told 'README lists the crates in that order' says 0 "$(cut -d: -f1 crates.txt | sed 's/ staticlib$//')" in_readme
mit() { head -n 1 LICENSE | grep -qx 'MIT License' && grep -q LICENSE README.md && grep -q NOTICE README.md; }
told 'the licence of our own code is there, and README names it' mit

# README's first command, as it stands there, and what it says
block() { awk -v n="$1" '/^```/ { if (inside) { inside = 0 } else { inside = 1; seen++; next } } inside && seen == n' README.md; }
first_command() { eval "$(block 1)"; }
told 'README: its first command says what stands below it' says 1 "$(block 2)" first_command

# A page that cites document 01 leads to what it says.
leads_to_01() {
    local page
    for page in README.md docs/*.md docs/landings/*.md; do
        [ "$page" != docs/DOCUMENT-01.md ] && grep -qi 'document 01' "$page" || continue
        grep -q '(\(docs/\|\.\./\)\?DOCUMENT-01.md[)#]' "$page" || { echo "$page" && return 1; }
    done
}
told 'a page that cites document 01 leads to it' leads_to_01
# every link between pages
links() {
    local page link
    for page in README.md docs/*.md docs/landings/*.md; do
        while IFS= read -r link; do
            [ -e "$(dirname "$page")/${link%%#*}" ] || { echo "$page: $link" && return 1; }
        done < <(grep -o '](\([^)]*\))' "$page" | sed 's/^](//; s/)$//' | grep -v '^http' || true)
    done
}
told 'every link of a page leads somewhere' links
told 'no page speaks of the command that was before' says 1 '' grep -rlw plancheck README.md docs/[A-Z]*.md include rust tools/dist plan paircheck
