#!/usr/bin/env bash
# Tries, in a copy of the repository, the wrong bodies that the gate leaves out:
#
# - The prover must refuse each wrong body `wrong-bodies/*.edit` of a crate.
# - Each control `controls/*.edit` is the wrong body of its name with its meaning taken back. `rt check` must accept it:
#   so the wrong body is refused for what it means, not for how it is written.
# - Each wrong body `refused-by-tests/*.edit` must fail the test that its first line names. Its files are named below
#   `crates/`.
#
#   trials/edits.sh                all of them
#   trials/edits.sh 2/3            those of the second of three groups of crates, about as many in each
#   trials/edits.sh CRATE..        those of these crates
#   trials/edits.sh CRATE/NAME..   these alone: NAME.edit of wrong-bodies/ or refused-by-tests/, or
#                                  NAME.control for that of controls/
#
# `rt` proves each crate before its edits, and first the libraries below it, unless a checkout on this machine has
# built them. All of them take many hours; a group can be tried by itself. A crate's line comes once its edits are
# tried, followed by each edit that did not end as it must, or that no contract refused. `rt must-fail` doesn't try an
# edit again whose files are the same.
set -eu
shopt -s nullglob
top=$(readlink -f "$(dirname "$(readlink -f "$0")")/..")
. "$top/trials/needs.sh"
. "$top/trials/processes.sh"
needs git python3
needs_kit
make_room

(cd "$top" && git ls-files -z | tar --null -T - -cf -) | tar -xf - -C "$room"
cd "$room"
git init -q
rm -f crates/*/must-fail/*.edit

# The names of what is tried of a crate: controls end in `.control`.
names_in() {
    local file ending
    for file in crates/"$1"/{wrong-bodies,controls,refused-by-tests}/*.edit; do
        ending=
        [[ $file != */controls/* ]] || ending=.control
        file=${file##*/}
        echo "${file%.edit}$ending"
    done
}

# Applies an edit to the files below a folder, and prints their paths.
apply() {
    python3 - "$@" <<'PYTHON'
import pathlib
import sys

changed = []
for line in pathlib.Path(sys.argv[1]).read_text().split("\n"):
    kind, _, text = line.partition(":")
    text = text.removeprefix(" ")
    if kind == "file":
        changed.append(pathlib.Path(sys.argv[2], text))
    elif kind == "old":
        old = text
    elif kind == "new":
        whole = changed[-1].read_text()
        if whole.count(old) != 1:
            sys.exit(f"{sys.argv[1]}: in {changed[-1]} this is {whole.count(old)} times: {old}")
        changed[-1].write_text(whole.replace(old, text))
print(*changed, sep="\n")
PYTHON
}

# Takes an edit back.
restore() {
    local file
    while read -r file; do
        cp "$top/$file" "$file"
    done <changed
}

every=()
total=0
declare -A counts
for folder in crates/*; do
    name=${folder#crates/}
    count=$(names_in "$name" | wc -l)
    [ "$count" -gt 0 ] || continue
    every+=("$name")
    counts[$name]=$count
    total=$((total + count))
done

chosen=()
declare -A singles
case ${1-} in
'') chosen=("${every[@]}") ;;
[0-9]*/[0-9]*)
    before=0
    for name in "${every[@]}"; do
        if [ $((before * ${1#*/} / total + 1)) -eq "${1%/*}" ]; then
            chosen+=("$name")
        fi
        before=$((before + counts[$name]))
    done
    ;;
*)
    for word in "$@"; do
        name=${word%%/*}
        [[ " ${chosen[*]-} " == *" $name "* ]] || chosen+=("$name")
        [[ $word != */* ]] || singles[$name]+=" ${word#*/}"
    done
    ;;
esac
for name in "${chosen[@]}"; do
    if [ -z "${counts[$name]-}" ]; then
        echo "edits.sh: $name has nothing that the gate leaves out" >&2
        exit 2
    fi
    for single in ${singles[$name]-}; do
        if ! names_in "$name" | grep -qxF -- "$single"; then
            echo "edits.sh: $name has no $single outside the gate" >&2
            exit 2
        fi
    done
done

# Whether the prover refuses wrong bodies: those of a crate are tried together.
prover_refuses() {
    local each
    mkdir -p "crates/$name/must-fail"
    for each in "$@"; do
        mv "crates/$name/wrong-bodies/$each.edit" "crates/$name/must-fail"
    done
    rt must-fail "$name" >told 2>&1 || true
    found=$(grep -c ': refused, as it must be' told || true)
    if [ "$found" -lt $# ]; then
        grep -v ': refused, as it must be' told >>odd || true
    fi
    grep ': refused, as it must be (only' told >>odd || true
    went=$((went + found))
}

# Whether the prover accepts a control.
prover_accepts() {
    apply "crates/$name/controls/${1%.control}.edit" "crates/$name" >changed
    if (cd "crates/$name" && rt check) >told 2>&1; then
        went=$((went + 1))
    else
        { echo "$name/$1: not accepted" && grep error told; } >>odd || true
    fi
    restore
}

# Whether a wrong body is refused by its test.
test_refuses() {
    local edit=crates/$name/refused-by-tests/$1.edit
    mkdir -p crates/refused_by_tests/src
    grep -q '^refused_by_tests:' crates.txt || echo "refused_by_tests: $name" >>crates.txt
    cat >crates/refused_by_tests/src/lib.rt <<PROGRAM
//! A test of $name.
#![tactic(auto)]

#[cfg(test)]
mod tests {
    use std::test::*;

    #[test]
    fn test(rt: HostRuntime) -> Result<(), Fail> {
        $name::$(sed -n '1s/^test: //p' "$edit")(rt.alloc())
    }
}
PROGRAM
    apply "$edit" crates >changed
    (cd crates/refused_by_tests && rt try --test --seconds 600) >told 2>&1 || true
    if grep -q '^test .* FAILED$' told && ! grep -q no-answer told; then
        went=$((went + 1))
    else
        { echo "$name/$1: not refused" && tail -n 5 told; } >>odd
    fi
    restore
}

tried=0
ended=0
for name in "${chosen[@]}"; do
    begun=$SECONDS
    bodies=()
    went=0
    all=0
    : >odd
    for each in $(names_in "$name"); do
        [[ -z ${singles[$name]-} || " ${singles[$name]} " == *" $each "* ]] || continue
        all=$((all + 1))
        if [[ $each == *.control ]]; then
            prover_accepts "$each"
        elif [ -e "crates/$name/refused-by-tests/$each.edit" ]; then
            test_refuses "$each"
        else
            bodies+=("$each")
        fi
    done
    [ ${#bodies[@]} -eq 0 ] || prover_refuses "${bodies[@]}"
    echo "$name: $went of $all as they must be, $((SECONDS - begun)) s"
    cat odd
    tried=$((tried + all))
    ended=$((ended + went))
done
echo "$ended of $tried wrong bodies and controls outside the gate ended as they must, in ${#chosen[@]}" \
    "crates; there are $total, in ${#every[@]}"
[ "$ended" -eq "$tried" ]
