#!/usr/bin/env bash
# Compares the table of docs/POLICY.md under "A policy to begin with", row by row, with what `depot explain --day` says
# of `examples/office.toml`. A row that is changed, and a policy in which a rule is changed, are found. The caller of
# audits and the monitor may do what they have to, and nothing else. Then the policy is installed in an office, which is
# asked each row (`ask`): the same rows are denied, by the same rules.
# Argument: the program; if left out, that of DEPOT, or the repository's own.
set -eu
top=$(readlink -f "$(dirname "$(readlink -f "$0")")/..")
. "$top/trials/needs.sh"
. "$top/trials/cases.sh"
. "$top/trials/processes.sh"
. "$top/trials/offices.sh"
needs_program "$@"
make_room
page=$top/docs/POLICY.md
policy=$top/examples/office.toml

# shellcheck disable=SC2016 # the marks of the page
# The rows of the table of a page, a line each: the day, the question in the words of `explain`, a tab, and the verdict.
rows() {
    awk '/^## / { is_here = $0 == "## A policy to begin with" } is_here && / \| /' "$1" | sed -nE \
        -e 's/^`([^`]+)`, ([0-9-]{10}) \| `([a-z]+ (rule [0-9]+|default))` \| .+$/\2 \1\t\3/p' \
        -e 's/^`([^`]+)` \| `([a-z]+ (rule [0-9]+|default))` \| .+$/2026-07-01 \1\t\2/p'
}

# What `explain` says of a question by a policy.
explained() {
    local day=$2
    "$program" explain --day "$day" "$1" "${@:3}" 2>/dev/null || [ $? -eq 1 ]
}

# The first row of a page that a policy decides otherwise, if there is one.
other_row() {
    local asked verdict found
    while IFS=$'\t' read -r asked verdict; do
        # shellcheck disable=SC2086 # the words of the question
        found=$(explained "$2" $asked)
        if [ "$found" != "$verdict" ]; then
            echo "$asked: '$verdict' stands in the table, and explain says '$found'"
            return
        fi
    done < <(rows "$1")
}

# ---- the table, and the policy

count=$(rows "$page" | wc -l)
[ "$count" -ge 12 ] || fail "the table has 12 rows or more, and $count were found"
[ "$count" -eq \
    "$(awk '/^## / { is_here = $0 == "## A policy to begin with" } is_here && /^`[^|]* \| /' "$page" | wc -l)" ] ||
    fail "a row of the table can't be read"
found=$(other_row "$page" "$policy")
[ -z "$found" ] || fail "$found"
cases=$((cases + count))

# What a wrong table, and a wrong policy, are found by: each row that says the opposite, and each rule that has another
# effect or has lost its days, if the table has a row on it.
while IFS=$'\t' read -r asked verdict; do
    row=${asked#* }
    day=${asked%% *}
    case $verdict in
    allow*) wrong="deny${verdict#allow}" ;;
    *) wrong="allow${verdict#deny}" ;;
    esac
    awk -v row="\`$row\`" -v day="$day" -v was="\`$verdict\`" -v is="\`$wrong\`" '
        index($0, row) == 1 && (day == "2026-07-01" || index($0, day)) { sub(was, is) } { print }' "$page" >"$room/page"
    ! cmp -s "$page" "$room/page" || fail "the row of $asked wasn't changed"
    [ -n "$(other_row "$room/page" "$policy")" ] || fail "the row of $asked was changed, and nothing is found"
    cases=$((cases + 1))
done < <(rows "$page")
for rule in $(rows "$page" | sed -n 's/.*rule //p' | sort -nu); do
    awk -v rule="$rule" '
        /^\[\[rule\]\]/ { at++ }
        at == rule && /^effect/ { sub(/"allow"/, "\"x\"") || sub(/"deny"/, "\"allow\""); sub(/"x"/, "\"deny\"") }
        { print }' "$policy" >"$room/wrong.toml"
    [ -n "$(other_row "$page" "$room/wrong.toml")" ] || fail "rule $rule was changed, and nothing is found"
    cases=$((cases + 1))
done
grep -vE '^(first|last) = ' "$policy" >"$room/wrong.toml"
[ -n "$(other_row "$page" "$room/wrong.toml")" ] || fail "the rules lost their days, and nothing is found"
cases=$((cases + 1))

# ---- those who may do one thing

actions=(class collection deposit list record holds download audit hold release dispose)
for action in "${actions[@]}"; do
    for about in "maps y10" "personnel y10" "tax y10" "maps monitor"; do
        case $action in
        list | record | holds | audit) wanted=allow ;;
        *) wanted=deny ;;
        esac
        # shellcheck disable=SC2086 # a collection and a class
        found=$(explained "$policy" 2026-07-01 auditor "$action" $about)
        [ "${found%% *}" = "$wanted" ] || fail "auditor $action $about: $wanted is wanted, and explain says '$found'"
        # shellcheck disable=SC2086 # a collection and a class
        found=$(explained "$policy" 2026-07-01 monitor "$action" $about)
        wanted=deny
        [ "$action $about" != "class maps monitor" ] || wanted=allow
        [ "${found%% *}" = "$wanted" ] || fail "monitor $action $about: $wanted is wanted, and explain says '$found'"
        cases=$((cases + 2))
    done
done

# ---- the same of an office that has it

# A request, and the answer: the status and the body. Its arguments are the file, the day, the caller, the method, the
# target, and a file that is its body.
ask() {
    caller=$3 request "${@:4}" | "$program" ask "$1" "$2" | awk \
        'NR == 1 { printf "%s ", $2 } { last = $0 } END { print last }'
}

office=$room/office.db
found=$("$program" policy "$office" "$policy")
callers=$(awk '/^\[callers\]/ { on = 1; next } /^\[/ { on = 0 } on && / = /' "$policy" | wc -l)
wanted="installed $(grep -c '^\[\[rule\]\]' "$policy") rules $callers callers"
compare "the install of the policy" "$wanted" "$found"
echo '{"years":10}' >"$room/years"
collections=(tax maps personnel minutes)
for class in y10 monitor; do
    [[ $(ask "$office" 2026-07-01 anna PUT "/classes/$class" "$room/years") == 200\ * ]] ||
        fail "the class $class isn't defined"
done
for at in "${!collections[@]}"; do
    each=${collections[$at]}
    [[ $(ask "$office" 2026-07-01 anna PUT "/collections/$each") == 200\ * ]] ||
        fail "the collection $each isn't defined"
    [ "$(ask "$office" 2026-07-01 anna POST "/deposits?collection=$each&class=y10&accession=$each&closed=2024-02-29" \
        "$top/examples/bag-a.bagset")" = "201 {\"deposit\":$((at + 1))}" ] || fail "nothing is deposited in $each"
    printf '{"deposit":%s,"matter":"Case 7"}' "$((at + 1))" >"$room/hold"
    [[ $(ask "$office" 2026-07-01 anna POST /holds "$room/hold") == 201\ * ]] || fail "nothing is held in $each"
done

while IFS=$'\t' read -r asked verdict; do
    read -r day caller action collection class <<<"$asked"
    number=0
    for at in "${!collections[@]}"; do
        [ "${collections[$at]}" != "$collection" ] || number=$((at + 1))
    done
    words=()
    case $action in
    class) words=(PUT "/classes/$class" "$room/years") ;;
    collection) words=(PUT "/collections/$collection") ;;
    deposit)
        words=(POST "/deposits?collection=$collection&class=$class&accession=A-1&closed=2024-02-29"
            "$top/examples/bag-a.bagset")
        ;;
    record) words=(GET "/deposits/$number") ;;
    download) words=(GET "/deposits/$number/files/data/a") ;;
    holds | audit) words=(GET "/deposits/$number/$action") ;;
    release) words=(DELETE "/holds/$number") ;;
    dispose) words=(DELETE "/deposits/$number") ;;
    hold)
        printf '{"class":"%s","matter":"Case 8"}' "$class" >"$room/body"
        [ "$collection" = - ] || printf '{"collection":"%s","matter":"Case 8"}' "$collection" >"$room/body"
        words=(POST /holds "$room/body")
        ;;
    *) fail "no request is known that asks for $action" ;;
    esac
    cp "$office" "$room/one.db"
    answer=$(ask "$room/one.db" "$day" "$caller" "${words[@]}")
    rm -f "$room"/one.db*
    # Whoever is allowed has another answer, such as that of a hold that covers the deposit; it doesn't name the rule.
    case $answer in
    '403 {"error":"Denied","rule":"default"}') found="deny default" ;;
    '403 {"error":"Denied","rule":'*) found="deny rule $(grep -o '[0-9]*}$' <<<"$answer" | tr -d '}')" ;;
    20[01]\ * | 409\ *)
        found=allow
        verdict=${verdict%% *}
        ;;
    *) fail "$asked: the office answers $answer" ;;
    esac
    [ "$found" = "$verdict" ] || fail "$asked: '$verdict' stands in the table, and the office answers $answer"
    cases=$((cases + 1))
done < <(rows "$page")

echo "policies: $cases cases: $count rows of the table are what explain says and an office answers, and each that is" \
    "wrong is found"
