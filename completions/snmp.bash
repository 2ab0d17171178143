# Completion for snmp in bash: commands, options, letters, and the files of --mib, --table and table:. Source it, or
# install it where bash-completion finds it (./snmp --install does). For the scripts that ./snmp --install --with-names
# writes:
#
#   complete -F _snmp snmptranslate snmpget snmpwalk snmpbulkwalk snmpd

# The options of a command.
_snmp_options() {
    local showing='--mib -O' asking='-v -c -r -t --max-size'
    case $1 in
        snmptranslate) echo "$showing -T" ;;
        snmpget) echo "$showing $asking" ;;
        snmpwalk | snmpbulkwalk) echo "$showing $asking -C --after" ;;
        snmpd) echo '--mib --table -c --listen --max-size --turns' ;;
    esac
    echo '-h --help -V --version'
}

# The letters of an option of a command.
_snmp_letters() {
    case $1:$2 in
        snmptranslate:-O) echo n f s S b ;;
        *:-O) echo n f s S q Q v e t b U x a ;;
        snmptranslate:-T) echo d ;;
        snmpwalk:-C) echo i p I ;;
        snmpbulkwalk:-C) echo i p r ;;
    esac
}

_snmp() {
    local words=() word command option='' prefix='' value count=0 i piece breaks=''
    # bash splits words at : and = unless they were removed from COMP_WORDBREAKS. Here they are joined again.
    for ((i = 0; i <= COMP_CWORD; i++)); do
        piece=${COMP_WORDS[i]}
        if ((i > 0)) && [[ $piece == [:=]* || ${words[-1]} == *[:=] ]]; then
            words[-1]+=$piece
        else
            words+=("$piece")
        fi
    done
    word=${words[-1]}
    unset 'words[-1]'
    COMPREPLY=()

    # The command is the first argument of snmp, or was called by its own name.
    [ ${#words[@]} -gt 0 ] || return
    command=${words[0]##*/}
    words=("${words[@]:1}")
    if [[ $command == snmp ]]; then
        if [ ${#words[@]} = 0 ]; then
            # shellcheck disable=SC2207  # no candidate has a blank
            COMPREPLY=($(compgen -W 'snmptranslate snmpget snmpwalk snmpbulkwalk snmpd
                -h --help -V --version' -- "$word"))
            return
        fi
        command=${words[0]}
        words=("${words[@]:1}")
    fi

    # Counts the arguments that aren't options, and finds out whether this word is the value of the option before it.
    for piece in "${words[@]}"; do
        if [ -n "$option" ]; then
            option=''
            continue
        fi
        case $piece in
            -[OTvcrtC] | --mib | --after | --max-size | --table | --listen | --turns) option=$piece ;;
            -*) ;;
            *) count=$((count + 1)) ;;
        esac
    done
    if [ -z "$option" ]; then
        case $word in
            --mib=* | --table=*) option=${word%%=*} prefix=$option= ;;
            -[OTvC]*) option=${word:0:2} prefix=$option ;;
            table:*) [ $count -gt 0 ] || option=table: prefix=table: ;;
        esac
    fi
    value=${word#"$prefix"}

    case $option in
        --mib | --table | table:)
            compopt -o filenames 2>/dev/null
            mapfile -t COMPREPLY < <(compgen -f -- "$value") ;;
        -O | -T | -C)
            compopt -o nospace 2>/dev/null
            for piece in $(_snmp_letters "$command" "$option"); do
                # No letter can follow the number of r.
                [[ $value == *"$piece"* || $value == *r* && $option == -C ]] || COMPREPLY+=("$value$piece")
            done ;;
        -v) mapfile -t COMPREPLY < <(compgen -W 2c -- "$value") ;;
        '')
            if [[ $word == -* ]]; then
                mapfile -t COMPREPLY < <(compgen -W "$(_snmp_options "$command")" -- "$word")
            elif [[ $command == snmp*@(get|walk) && $count == 0 ]]; then
                mapfile -t COMPREPLY < <(compgen -W 'table: udp:' -A hostname -- "$word")
                [[ ${COMPREPLY[*]} != *: ]] || compopt -o nospace 2>/dev/null
            fi ;;
    esac

    # bash replaces only what follows the last of its breaks in the word.
    [[ $COMP_WORDBREAKS != *:* ]] || breaks+=:
    [[ $COMP_WORDBREAKS != *=* ]] || breaks+='='
    [ -z "$breaks" ] || piece=${word##*["$breaks"]}
    [ -n "$breaks" ] || piece=$word
    COMPREPLY=("${COMPREPLY[@]/#/$prefix}")
    COMPREPLY=("${COMPREPLY[@]#"${word%"$piece"}"}")
}

complete -F _snmp snmp
