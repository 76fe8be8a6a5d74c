# bash completion for the programs of Marlinfold: the options that a program's --help has, and files,
# or folders where it takes one.

# The options, or with an option, what --help calls its value.
_marlinfold_options() {
    "$1" --help 2>/dev/null | awk -v option="${2-}" '/^  -/ {
        for (at = 1; at <= NF; at++) {
            word = $at
            more = sub(/,$/, "", word)
            if (option == "" && word != "--") print word
            if (word == option && !more && $(at + 1) ~ /^[A-Z]+$/) print $(at + 1)
            if (!more) next
        }
    }'
}

_marlinfold() {
    local word=${COMP_WORDS[COMP_CWORD]} before=${COMP_WORDS[COMP_CWORD - 1]} at value= files=-f

    COMPREPLY=()
    # --set=8U is three words here.
    if [[ $word == = ]]; then
        word=
    elif [[ $before == = ]]; then
        before=${COMP_WORDS[COMP_CWORD - 2]}
    fi
    for ((at = 1; at < COMP_CWORD; at++)); do
        [[ ${COMP_WORDS[at]} != -- ]] || before=-- # what follows is no option
    done
    [[ $before != -?* || $before == -- ]] || value=$(_marlinfold_options "$1" "$before")
    [[ -z $value || $value == FILE ]] || return 0
    if [[ $word == -* && $before != -- && -z $value ]]; then
        mapfile -t COMPREPLY < <(compgen -W "$(_marlinfold_options "$1")" -- "$word")
        return 0
    fi
    [[ $1 != *-catalogue || -n $value ]] || files=-d
    mapfile -t COMPREPLY < <(compgen "$files" -- "$word")
}

# For every program that is found, and the one that this file is named after; marlinfold-listing and
# marlinfold-figures have no options and take no file.
_marlinfold_programs() {
    local names

    mapfile -t names < <({ compgen -c marlinfold- && echo "${BASH_SOURCE[0]##*/}"; } |
        awk '/^marlinfold-[a-z]+$/ && !/-(listing|figures)$/ && !came[$0]++')
    [[ ${#names[@]} -eq 0 ]] || complete -o filenames -F _marlinfold "${names[@]}"
}
_marlinfold_programs
