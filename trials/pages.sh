# Sourced by the scripts of this folder: the commands that docs/OPERATING.md gives, word for word. The script that
# sources this one sets `top`. PAGE is another page.
# shellcheck shell=bash

# The block of commands of this number in a section: `block SECTION NUMBER`. One whose mark is
# followed by a word has no commands.
block() {
    # shellcheck disable=SC2154 # the script that sources this one sets `top`
    local page=${PAGE:-$top/docs/OPERATING.md} found
    found=$(awk -v section="## $1" -v wanted="$2" '
        /^## / { is_here = $0 == section }
        is_here && /^```/ { is_code = !is_code; is_told = is_code && $0 == "```"; count += is_told; next }
        is_told && count == wanted' "$page")
    [ -n "$found" ] || { echo "$page has no block $2 of commands under '$1'" >&2; return 1; }
    echo "$found"
}

# Runs it in the present folder, as a person would who goes by the page: it ends well.
follow() {
    local commands
    commands=$(block "$1" "$2")
    eval "$commands" 2>noise || { echo "block $2 under '$1' ended with $?: $(cat noise)" >&2; exit 1; }
}
