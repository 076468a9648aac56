#!/usr/bin/env bash
# Wrong definitions that a theorem must refuse. Each file of theorem-edits/ names a file of crates/rules/specs, a piece of it as
# it stands, a wrong one, and the proof file that must no longer hold. `rt must-fail` tries an edit on one crate alone; here the
# crate of that proof is checked, in a copy of what it stands on without the samples, so that the theorem itself is what refuses:
# the crates below it must still hold. All are checked together, as sources (`--lib`), so that one check does for an edit what a
# check of each crate in turn would do, and begins with what a check without an edit kept.
# With words, only the edits of these names are tried. With EDIT_LOGS set to a folder, each check's output is kept there.
set -u
cd "$(dirname "$0")/.." || exit 2
work=$(mktemp -d)
trap 'rm -rf "$work"' EXIT
export work

edits=(tests/theorem-edits/*.edit)
if [ $# -gt 0 ]; then edits=("${@/#/tests/theorem-edits/}") && edits=("${edits[@]/%/.edit}"); fi

field() { sed -n "s/^$2: //p" "$1"; }

# The crates of these names with all that they stand on, lowest first: a crate's line in crates.txt, whose lines come from the bottom up.
with_below() { # CRATE...
    tac crates.txt | awk -v names="$*" '
        BEGIN { n = split(names, name, " "); for (k = 1; k <= n; k++) wanted[name[k]] = 1 }
        { own = $1; sub(/:.*/, "", own) }
        own in wanted { print own; n = split(substr($0, index($0, ":") + 1), name, " "); for (k = 1; k <= n; k++) wanted[name[k]] = 1 }' | tac
}

# Checks a crate in a copy, with all that it stands on as sources.
check() { # COPY CRATE FLAGS...
    local copy=$1 crate=$2 below
    shift 2
    for below in $(with_below "$crate"); do
        [ "$below" = "$crate" ] || set -- "$@" --lib "$below=../$below/src/lib.rt"
    done
    (cd "$copy/crates/$crate" && rt check "$@" 2>&1)
}

# Tries one edit: says what went wrong, nothing where it was refused as it must be.
try() {
    local edit=$1 repo=$2 file old new place crate text log
    file=crates/rules/specs/$(field "$edit" file)
    old=$(field "$edit" old)
    new=$(field "$edit" new)
    place=$(field "$edit" refused)
    crate=$(basename "${place%/proofs/*}")
    text=$(cat "$work/clean/$file") || { echo "no file $file"; return; }
    case $text in *"$old"*"$old"*) echo "stands twice: $old"; return ;; *"$old"*) ;; *) echo "does not stand: $old"; return ;; esac
    cp -r "$work/clean" "$repo"
    printf '%s\n' "${text/"$old"/"$new"}" > "$repo/$file"
    mkdir "$repo/crates/$crate/out"
    cp -r "$work/kept" "$repo/crates/$crate/out/incremental"
    log=$(check "$repo" "$crate" --jobs 1) && { echo "not refused"; return; }
    if [ -n "${EDIT_LOGS:-}" ]; then printf '%s\n' "$log" > "$EDIT_LOGS/$(basename "$edit" .edit).log"; fi
    # an error's line begins with its file, as it stands from the folder of the crate that is checked
    if grep -q "^${file/#crates/..}:.*: error" <<< "$log"; then
        echo "the definition itself is refused"
    elif grep -q '^\.\./.*: error' <<< "$log" || ! grep -q "^${place/#"crates/$crate"/.}:.*: error" <<< "$log"; then
        echo "refused elsewhere: $(grep -m 1 '^\.\./.*: error' <<< "$log" || grep -m 1 ': error' <<< "$log" || tail -n 1 <<< "$log")" | cut -c 1-200
    fi
}

# Tries one edit in a copy of its own and prints a line about it.
told() {
    local name said
    name=$(basename "$1" .edit)
    said=$(try "$1" "$work/$name")
    rm -rf "${work:?}/$name"
    echo "theorem-edits: $name: ${said:-refused, as it must be ($(field "$1" refused))}"
}
export -f field with_below check try told

# The crates that edits name, with all that these stand on, none built for another: crates.txt gives each no library.
proving=$(sed -n 's|^refused: crates/\([a-z_]*\)/.*|\1|p' "${edits[@]}" | sort -u)
# shellcheck disable=SC2086 # one word a crate
crates=$(with_below $proving)
mkdir -p "$work/clean/crates" "$work/kept"
for crate in $crates; do
    echo "$crate:" >> "$work/clean/crates.txt"
    mkdir "$work/clean/crates/$crate"
    for part in src specs proofs; do
        if [ -d "crates/$crate/$part" ]; then cp -r "crates/$crate/$part" "$work/clean/crates/$crate"; fi
    done
done
for part in specs proofs; do
    rm "$work/clean/crates/rules/$part/Samples.antt"
    sed -i '/mod Samples/d' "$work/clean/crates/rules/$part/Lib.antt"
done

# What checks here kept of these crates, where they ran. Then each crate of a proof without an edit, from the bottom up: its check begins
# with what the one before it kept, and those of the edits with what the last one kept.
for crate in $crates; do
    if [ -d "crates/$crate/out/incremental" ]; then cp -r "crates/$crate/out/incremental/." "$work/kept"; fi
done
failed=0
for crate in $crates; do
    grep -qx "$crate" <<< "$proving" || continue
    mkdir "$work/clean/crates/$crate/out"
    mv "$work/kept" "$work/clean/crates/$crate/out/incremental"
    if ! check "$work/clean" "$crate" > "$work/log"; then
        echo "theorem-edits: $crate is not proved in the copy without an edit"
        { grep -m 3 ': error' "$work/log" || tail -n 5 "$work/log"; } | cut -c 1-200
        failed=1
    fi
    mv "$work/clean/crates/$crate/out/incremental" "$work/kept"
    rm -r "$work/clean/crates/$crate/out"
done
printf '%s\0' "${edits[@]}" | xargs -0 -P "$(nproc)" -n 1 bash -c 'told "$1"' told | tee "$work/told"
passed=$(grep -c ': refused, as it must be (' "$work/told")
failed=$((failed + ${#edits[@]} - passed))
echo "$passed passed, $failed failed"
[ "$failed" -eq 0 ]
