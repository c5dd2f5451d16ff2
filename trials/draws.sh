#!/usr/bin/env bash
# For each of 100 seeds the proved program `trial_office` sends 100 random requests to an office over tables and to the
# plain office, which must give the same answers, the same due lists and the same stock: over tables in memory, and over
# a file. In the file `kept.py` then finds contents, due days and counts of holds as the rows give them. For each seed
# `older.py` also puts a file after at most 50 requests into the tables of an older version, unless its rows need the
# newest; it is upgraded, and as many requests follow. An odd seed does that after 50 requests, an even one after as
# many as leave only rows that the oldest can have. Where there are 100 seeds or more, half of them must be upgraded.
# From each older version some must have holds, released ones too, and deposits. Requests about classes and under rules
# with days must come before and after.
# Arguments: the first seed and the last, 1 and 100 if left out. The program is that of TRIAL_OFFICE, or the
# repository's own.
set -eu
top=$(readlink -f "$(dirname "$(readlink -f "$0")")/..")
. "$top/trials/needs.sh"
. "$top/trials/cases.sh"
. "$top/trials/processes.sh"
needs python3
needs_trial_office
make_room
first=${1:-1}
last=${2:-100}
seeds=$((last - first + 1))
newest=$(PYTHONPATH=$top/trials python3 -c 'from shared.stores import VERSION; print(VERSION)')
mapfile -t older < <(seq 3 $((newest - 1)))

# What is counted of all seeds (`all`), and of the requests that follow an upgrade (`on`), as `trial_office` prints it.
counts=(accepted refused held released listed asked denied)
declare -A all on upgraded holds freed bags
for version in "${older[@]}" "$newest"; do
    upgraded[$version]=0
    holds[$version]=0
    freed[$version]=0
    bags[$version]=0
done
for name in "${counts[@]}"; do
    all[$name]=0
    on[$name]=0
done

# Adds each number that comes before one of these words: `add KIND LINE`.
add() {
    # shellcheck disable=SC2178 # it names an array
    local -n sums=$1
    local number=0 word
    for word in $2; do
        if [[ $word =~ ^[0-9]+$ ]]; then
            number=$word
        elif [ -n "${sums[$word]-}" ]; then
            # shellcheck disable=SC2004 # a word is the key
            sums[$word]=$((sums[$word] + number))
        fi
    done
}

for seed in $(seq "$first" "$last"); do
    said=$("$program" draw 100 "$seed" 2>&1) || fail "seed $seed: $said"
    again=$("$program" draw 100 "$seed" "$room/$seed.db" 2>&1) || fail "seed $seed over a file: $again"
    compare "seed $seed over a file, and in memory" "$said" "$again"
    add all "$said"
    half=$room/half-$seed.db
    # (after 50 requests there is mostly a hold on a class, which tables of version 3 can't have)
    for count in $(seq 50 -5 5); do
        rm -f "$half"*
        "$program" draw "$count" "$seed" "$half" >/dev/null
        read -r version placed released kept < <("$top/trials/older.py" "$half")
        if [ $((seed % 2)) -ne 0 ] || [ "$version" -eq 3 ]; then break; fi
    done
    said=$("$program" draw-on "$count" "$seed" "$half" 2>&1) || fail "seed $seed, upgraded from version $version: $said"
    upgraded[$version]=$((upgraded[$version] + 1))
    holds[$version]=$((holds[$version] + placed))
    freed[$version]=$((freed[$version] + released))
    bags[$version]=$((bags[$version] + kept))
    if [ "$version" -ne "$newest" ]; then
        add on "$said"
    fi
done

# What there was about classes and days: `about KIND`.
about() {
    # shellcheck disable=SC2178 # it names an array
    local -n sums=$1
    echo "${sums[held]} holds on a class, ${sums[released]} released, ${sums[listed]} lists of holds with one;" \
        "${sums[asked]} requests under rules with days, ${sums[denied]} denied by one"
}

echo "seeds $first to $last: the same answers, ${all[accepted]} accepted and ${all[refused]} refused: $(about all)"
echo "upgraded in the middle: $((seeds - upgraded[$newest])), and ${upgraded[$newest]} were left; then" \
    "${on[accepted]} accepted and ${on[refused]} refused: $(about on)"
for version in "${older[@]}"; do
    echo "${upgraded[$version]} from version $version: ${bags[$version]} deposits, ${holds[$version]} holds," \
        "${freed[$version]} of them released"
done

# Over 100 seeds the number is not below the least: `wants NUMBER LEAST WHAT`.
wants() {
    if [ "$seeds" -ge 100 ] && [ "$1" -lt "$2" ]; then
        fail "$1 $3, and at least $2 are wanted"
    fi
}
wants $((seeds - upgraded[$newest])) 50 "seeds were upgraded in the middle"
for version in "${older[@]}"; do
    wants "${upgraded[$version]}" 12 "seeds were upgraded from version $version"
    wants "${bags[$version]}" 30 "deposits were upgraded from version $version"
    wants "${holds[$version]}" 30 "holds were upgraded from version $version"
    wants "${freed[$version]}" 5 "released holds were upgraded from version $version"
done
wants "${all[held]}" 100 "holds on a class were placed"
wants "${all[released]}" 50 "holds on a class were released"
wants "${all[listed]}" 10 "lists of holds have one on a class"
wants "${all[asked]}" 1000 "requests came under rules with days"
wants "${all[denied]}" 20 "requests were denied by a rule with days"
wants "${on[held]}" 20 "holds on a class were placed after an upgrade"
wants "${on[released]}" 5 "holds on a class were released after an upgrade"
wants "${on[asked]}" 100 "requests came under rules with days after an upgrade"
python3 "$top/trials/kept.py" "$room"/*.db
