# Completion of the command wkt, for bash.
_wkt() {
    local word=${COMP_WORDS[COMP_CWORD]} before=${COMP_WORDS[COMP_CWORD - 1]} words='--places --dialect --quiet --help --version'
    COMPREPLY=()
    if [ "$COMP_CWORD" = 1 ]; then
        mapfile -t COMPREPLY < <(compgen -W 'check canon kind dups same help --help --version' -- "$word")
        return
    fi
    case $before in
        -p | --places)
            mapfile -t COMPREPLY < <(compgen -W "$(echo {0..36})" -- "$word")
            return
            ;;
        --dialect)
            mapfile -t COMPREPLY < <(compgen -W 'srid untagged exponents nan ewkt' -- "$word")
            return
            ;;
        --refused)
            mapfile -t COMPREPLY < <(compgen -W 'skip refused' -- "$word")
            return
            ;;
        --format)
            mapfile -t COMPREPLY < <(compgen -W 'text json tsv' -- "$word")
            return
            ;;
        --part)
            mapfile -t COMPREPLY < <(compgen -W '1/4 2/4 3/4 4/4' -- "$word")
            return
            ;;
        -n | --max) return ;;
    esac
    case ${COMP_WORDS[1]} in
        help | -*) return ;;
        same) ;;
        *) words+=' --whole --null --front --skip-blank --progress --no-progress' ;;
    esac
    case ${COMP_WORDS[1]} in
        check) words+=' --format --max --part' ;;
        canon | kind) words+=' --refused --part' ;;
    esac
    if [[ $word == -* ]]; then
        mapfile -t COMPREPLY < <(compgen -W "$words" -- "$word")
    elif [ "${COMP_WORDS[1]}" != same ]; then
        compopt -o filenames 2> /dev/null
        mapfile -t COMPREPLY < <(compgen -f -- "$word")
    fi
}
complete -F _wkt wkt
