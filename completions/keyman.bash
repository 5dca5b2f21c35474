# shellcheck shell=bash
# Completes the commands of `keyman` in bash: commands and options, files by their suffix, and error codes after `--explain`.

# Prints the path of the page that has the error codes. It is next to the launcher, or where a package installs it. A link may be in
# another folder than the launcher, so both folders are searched.
_keyman_codes_page() {
    local launcher=${1/#\~/$HOME} folder page
    launcher=$(type -P -- "$launcher") || return
    for folder in "${launcher%/*}" "$(dirname -- "$(realpath -- "$launcher")")"; do
        for page in "$folder/docs/CODES.md" "$folder/../share/curlewmetal/docs/CODES.md"; do
            [ -r "$page" ] || continue
            printf '%s\n' "$page"
            return
        done
    done
    return 1
}

# Prints the error codes.
_keyman_codes() {
    local page
    page=$(_keyman_codes_page "$1") && sed -n 's/^## \([A-Z][0-9]*\):.*/\1/p' "$page"
}

# Prints the suffixes of the file that a command expects as its nth argument. For a file that the command writes, `=` precedes them.
_keyman_suffixes() {
    case "$1 $2" in
        'compile 1' | 'test 1' | 'trace 1' | 'shadow 1' | 'layout 1' | '--check 1' | '--import 1') echo kmn ;;
        'verify 1' | 'decompile 1' | 'play 1' | 'host 1' | '--chart 1' | '--export 1') echo kmx ;;
        'play 2' | 'host 2' | 'trace 2' | 'test 3' | '--check 3') echo keys ;;
        '--chart 3' | '--check 2') echo keys keyman-touch-layout json ;;
        'compile 2' | 'test 2') echo '=' kmx ;;
        '--chart 2') echo '=' svg ;;
        'decompile 2' | '--import 2') echo kmn ;;
        '--export 2') echo kmx ;;
        'layout 2' | '--chart 4') echo keyman-touch-layout json ;;
        '--type 1') echo kmn kmx ;;
    esac
}

# Prints the folders and the files with one of the suffixes whose names begin with a text. After `=`, also prints a name for the file
# that the command writes: the name of its first file with the other suffix.
_keyman_files() {
    local begin=$1 first=$2 suffix
    shift 2
    compgen -d -- "$begin"
    for suffix; do
        if [ "$suffix" = = ]; then
            compgen -W "$(printf '%q' "${first%.*}.$2")" -- "$begin"
        else
            compgen -f -X "!*.$suffix" -- "$begin"
        fi
    done
}

_keyman() {
    local begin=${COMP_WORDS[COMP_CWORD]} command=${COMP_WORDS[1]-} first suffixes
    COMPREPLY=()
    if [ "$COMP_CWORD" -eq 1 ]; then
        mapfile -t COMPREPLY < <(compgen -W 'compile verify decompile play test trace shadow host layout load
            --type --check --import --chart --export --explain --prove --version --help' -- "$begin")
        return
    fi
    if [ "$command $COMP_CWORD" = '--explain 2' ]; then
        mapfile -t COMPREPLY < <(compgen -W "$(_keyman_codes "${COMP_WORDS[0]}")" -- "${begin^^}")
        return
    fi
    read -ra suffixes < <(_keyman_suffixes "$command" $((COMP_CWORD - 1)))
    [ "${#suffixes[@]}" -gt 0 ] || return
    # The arguments have the quotes and backslashes of the user. bash quotes the names again.
    begin=${begin//\\/} begin=${begin#[\"\']} first=${COMP_WORDS[2]//\\/}
    first=${first//[\"\']/}
    mapfile -t COMPREPLY < <(_keyman_files "$begin" "$first" "${suffixes[@]}" | sort -u)
    compopt -o filenames 2>/dev/null
}

complete -F _keyman keyman
