# Completes the words of millicent in bash, once it was read: `. scripts/millicent.bash`.
# Written by scripts/man.py from the tables of the program; not by hand.
_millicent() {
    local current=${COMP_WORDS[COMP_CWORD]} role=${COMP_WORDS[1]-} command=${COMP_WORDS[2]-}
    local at=1 first=3 roles='vendor broker wallet audit' commands= options= books= before=0
    if [ "$role" = help ]; then
        role=${COMP_WORDS[2]-} command= at=2 first=4
    fi
    case $role in
        vendor) commands='init goods price licence mint serve once play upgrade chain list status statement' ;;
        broker) commands='init account deposit withdraw balance licence stock serve upgrade chain list status settle' ;;
        wallet) commands='init take draw buy get retry list lines chain proxy renew' ;;
        audit) commands='report chain tree' ;;
    esac
    case "$role $command" in
        'vendor init') options='--keep --clear' books=1 ;;
        'vendor goods') options='--kind' books=1 ;;
        'vendor price') books=1 ;;
        'vendor licence') books=1 ;;
        'vendor mint') books=1 ;;
        'vendor serve') options='--door' books=1 ;;
        'vendor upgrade') books=1 ;;
        'vendor chain') books=1 ;;
        'vendor list') books=1 ;;
        'vendor status') books=1 ;;
        'vendor statement') books=1 ;;
        'broker init') options='--keep --clear' books=1 ;;
        'broker account') books=1 ;;
        'broker deposit') books=1 ;;
        'broker withdraw') books=1 ;;
        'broker balance') books=1 ;;
        'broker licence') books=1 ;;
        'broker stock') books=1 ;;
        'broker serve') options='--door' books=1 ;;
        'broker upgrade') books=1 ;;
        'broker chain') books=1 ;;
        'broker list') books=1 ;;
        'broker status') books=1 ;;
        'broker settle') books=1 ;;
        'wallet init') books=1 ;;
        'wallet take') books=1 ;;
        'wallet draw') books=1 ;;
        'wallet buy') books=1 ;;
        'wallet get') books=1 ;;
        'wallet retry') books=1 ;;
        'wallet list') books=1 ;;
        'wallet lines') books=1 ;;
        'wallet chain') books=1 ;;
        'wallet proxy') books=1 ;;
        'wallet renew') books=1 ;;
        'audit report') options='--json' books=9999 ;;
        'audit chain') books=9999 ;;
        'audit tree') books=9999 ;;
    esac
    COMPREPLY=()
    if [ "$COMP_CWORD" -eq "$at" ]; then
        [ "$at" -eq 2 ] || roles+=' help --help --version'
        mapfile -t COMPREPLY < <(compgen -W "$roles" -- "$current")
    elif [ "$COMP_CWORD" -eq $((at + 1)) ]; then
        [ "$at" -eq 2 ] || [ -z "$commands" ] || commands+=' help --help'
        mapfile -t COMPREPLY < <(compgen -W "$commands" -- "$current")
    elif [ "$at" -eq 1 ]; then
        _millicent_words
    fi
}

# What may come after the name of a command: an option, or a file where the next word is a book.
_millicent_words() {
    local place word skip=0
    for ((place = first; place < COMP_CWORD; place++)); do
        word=${COMP_WORDS[place]}
        case $word in
            =) skip=1 ;;
            --keep | --kind | --door) skip=1 ;;
            --*) skip=0 ;;
            *)
                [ "$skip" -eq 1 ] || before=$((before + 1))
                skip=0
                ;;
        esac
    done
    [ "$skip" -eq 0 ] || return 0
    [ "$COMP_CWORD" -ne "$first" ] || options+=' --help'
    case $current in
        -*) mapfile -t COMPREPLY < <(compgen -W "$options" -- "$current") ;;
        *)
            if [ "$before" -lt "${books:-0}" ]; then
                compopt -o filenames 2> /dev/null
                mapfile -t COMPREPLY < <(compgen -f -- "$current")
            fi
            ;;
    esac
}

complete -F _millicent millicent
