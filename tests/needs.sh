# For the scripts here, which read it first: says in a sentence what is missing and ends the script with 2.

# need TOOL..: each of these commands must be there.
need() {
    local tool missing=0
    for tool in "$@"; do
        if ! command -v "$tool" >/dev/null; then
            echo "$0: there is no $tool here; README.md says under 'You need' what it is for." >&2
            missing=1
        fi
    done
    [ "$missing" -eq 0 ] || exit 2
}

# need_path PATH SENTENCE: this file or folder must be there.
need_path() {
    [ -e "$1" ] || { echo "$0: there is no $1: $2" >&2; exit 2; }
}
