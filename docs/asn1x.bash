# Completion of asn1x for bash: its commands, options and rules, files, and the names of the types of a module.
#
# `make install` puts this file where the package bash-completion finds it; `. docs/asn1x.bash` loads it by hand.

# The words of the line up to the cursor, into `words`. Bash cuts them at `=` and `@` too, and these are joined again.
_asn1x_words() {
    local line=${COMP_LINE:0:COMP_POINT} word
    words=()
    for word in "${COMP_WORDS[@]:0:COMP_CWORD+1}"; do
        if ((${#words[@]} == 0)) || [[ $line == [[:blank:]]* ]]; then
            line=${line#"${line%%[![:blank:]]*}"}
            words+=("$word")
        else
            words[-1]+=$word
        fi
        line=${line#"$word"}
    done
}

# The names that a module assigns, a line each.
_asn1x_types() {
    if [[ $1 == @builtin ]]; then
        printf '%s\n' BOOLEAN INTEGER NULL 'OCTET\ STRING'
    elif [[ -f $1 && -r $1 ]]; then
        grep -oE '\b[A-Z][A-Za-z0-9-]*[[:space:]]*::=' -- "$1" | sed 's/[[:space:]]*::=//' |
            grep -vxE 'DEFINITIONS|TAGS' | sort -u
    fi
}

# Replies with those of these lines that begin with $1.
_asn1x_reply() {
    local line
    while IFS= read -r line; do
        [[ $line == "$1"* ]] && COMPREPLY+=("$line")
    done
}

_asn1x() {
    local -a words places=()
    local word value= at
    _asn1x_words
    COMPREPLY=()
    word=${words[-1]}
    for at in "${words[@]:1:${#words[@]}-2}"; do
        if [[ -n $value ]]; then
            value=
        elif [[ $at == --from || $at == --to ]]; then
            value=$at
        elif [[ $at == - || $at != -* ]]; then
            places+=("$at")
        fi
    done
    if [[ $word == --*=* ]]; then
        value=${word%%=*} word=${word#*=}
    fi
    case $value in
    --from) _asn1x_reply "$word" < <(printf '%s\n' ber cer der) ;;
    --to) _asn1x_reply "$word" < <(printf '%s\n' cer der) ;;
    *) _asn1x_place ;;
    esac
}

# Completes a word that is no value of an option.
_asn1x_place() {
    local -a options=(--from --hex --help)
    [[ ${places[0]-} == convert ]] && options=(--from --to --hex --help)
    ((${#places[@]} == 0)) && options=(--help --version)
    if [[ $word == -* ]]; then
        _asn1x_reply "$word" < <(printf '%s\n' "${options[@]}")
        return
    fi
    case ${#places[@]} in
    0) _asn1x_reply "$word" < <(printf '%s\n' check show convert help) ;;
    1 | 3) _asn1x_files ;;
    2) _asn1x_reply "$word" < <(_asn1x_types "${places[1]}") ;;
    esac
}

# Completes the name of a file, and @builtin where a module stands.
_asn1x_files() {
    if [[ ${places[0]} == help ]]; then
        _asn1x_reply "$word" < <(printf '%s\n' check show convert)
        return
    fi
    ((${#places[@]} == 1)) && _asn1x_reply "$word" <<<'@builtin'
    [[ $word == @* ]] && return
    compopt -o filenames 2>/dev/null
    _asn1x_reply "$word" < <(compgen -f -- "$word")
}

complete -F _asn1x asn1x
