# completion for debplan, written by dev/manual from the help of the program
_debplan()
{
    local word=${COMP_WORDS[COMP_CWORD]} before=${COMP_WORDS[COMP_CWORD-1]} command=${COMP_WORDS[1]}
    COMPREPLY=()
    # bash takes the = between an option and its value as a word
    if [ "$word" = "=" ]; then
        word=
    elif [ "$before" = "=" ] && [ "$COMP_CWORD" -gt 2 ]; then
        before=${COMP_WORDS[COMP_CWORD-2]}
    fi
    if [ "$COMP_CWORD" -eq 1 ]; then
        COMPREPLY=($(compgen -W "compare candidate solve check-plan check-refutation apply installable batch help --help --version" -- "$word"))
        return
    fi
    case $before in
        --journal | --output | --preferences | --refutations | --request | --request-out | --sources | --status)
            COMPREPLY=($(compgen -f -- "$word"))
            return
            ;;
        --arch | --goal | --limit | --refutation-format | --shard | --target)
            return
            ;;
        --format)
            COMPREPLY=($(compgen -W "text json" -- "$word"))
            return
            ;;
    esac
    case $command in
        compare)
            COMPREPLY=($(compgen -W "--help lt le eq ne ge gt" -- "$word"))
            ;;
        candidate)
            COMPREPLY=($(compgen -W "--arch --status --sources --preferences --target --explain --format --help" -- "$word"))
            ;;
        solve)
            COMPREPLY=($(compgen -W "--arch --status --sources --preferences --target --request --goal --limit --keep-back --request-out --refutation-format --explain --format --help" -- "$word"))
            ;;
        check-plan)
            COMPREPLY=($(compgen -W "--arch --status --sources --preferences --target --request --goal --explain --format --help" -- "$word"))
            COMPREPLY+=($(compgen -f -- "$word"))
            ;;
        check-refutation)
            COMPREPLY=($(compgen -W "--arch --status --sources --preferences --target --request --goal --explain --format --help" -- "$word"))
            COMPREPLY+=($(compgen -f -- "$word"))
            ;;
        apply)
            COMPREPLY=($(compgen -W "--arch --status --sources --preferences --target --request --goal --journal --output --help" -- "$word"))
            COMPREPLY+=($(compgen -f -- "$word"))
            ;;
        installable)
            COMPREPLY=($(compgen -W "--arch --status --sources --preferences --target --all-versions --without-essential --shard --limit --refutations --explain --format --help" -- "$word"))
            ;;
        batch)
            COMPREPLY=($(compgen -W "--arch --status --sources --preferences --target --limit --help" -- "$word"))
            ;;
        help)
            COMPREPLY=($(compgen -W "compare candidate solve check-plan check-refutation apply installable batch" -- "$word"))
            ;;
    esac
}
complete -o filenames -F _debplan debplan
