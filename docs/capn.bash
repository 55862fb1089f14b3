# Completion of bash for capn, made from its help by release/completions.
_capn() {
    local at=$COMP_CWORD word=${COMP_WORDS[COMP_CWORD]} command=${COMP_WORDS[1]} words=
    # after a sign of redirection: a file, by -o default
    case "${COMP_WORDS[at - 1]}" in *'<'* | *'>'*) return ;; esac
    compopt +o default
    # --form=p is three words: the option, the sign and what is begun
    [[ $word == = ]] && word= && ((at++))
    [[ ${COMP_WORDS[at - 1]} == = ]] && ((at--))
    local before=${COMP_WORDS[at - 1]}
    if ((COMP_CWORD == 1)); then
        mapfile -t COMPREPLY < <(compgen -W 'show check explain annotate list limits canonical hash uniq filter cmp pick pack unpack make help --help --version' -- "$word")
        return
    fi
    case "$command $before" in
        'show --form') words='stream packed bare' ;;
        'show --message-words') words='' ;;
        'show --budget') words='' ;;
        'show --depth') words='' ;;
        'show --tariff') words='strict plain' ;;
        'show --at') words='' ;;
        'check --form') words='stream packed bare' ;;
        'check --message-words') words='' ;;
        'check --budget') words='' ;;
        'check --depth') words='' ;;
        'check --tariff') words='strict plain' ;;
        'explain --form') words='stream packed bare' ;;
        'explain --message-words') words='' ;;
        'explain --budget') words='' ;;
        'explain --depth') words='' ;;
        'explain --tariff') words='strict plain' ;;
        'explain --number') words='' ;;
        'annotate --form') words='stream packed bare' ;;
        'annotate --message-words') words='' ;;
        'annotate --budget') words='' ;;
        'annotate --depth') words='' ;;
        'annotate --tariff') words='strict plain' ;;
        'list --form') words='stream packed bare' ;;
        'list --message-words') words='' ;;
        'list --budget') words='' ;;
        'list --depth') words='' ;;
        'list --tariff') words='strict plain' ;;
        'limits --form') words='stream packed bare' ;;
        'limits --message-words') words='' ;;
        'limits --budget') words='' ;;
        'limits --depth') words='' ;;
        'limits --tariff') words='strict plain' ;;
        'canonical --form') words='stream packed bare' ;;
        'canonical --message-words') words='' ;;
        'canonical --budget') words='' ;;
        'canonical --depth') words='' ;;
        'canonical --tariff') words='strict plain' ;;
        'hash --form') words='stream packed bare' ;;
        'hash --message-words') words='' ;;
        'hash --budget') words='' ;;
        'hash --depth') words='' ;;
        'hash --tariff') words='strict plain' ;;
        'uniq --form') words='stream packed bare' ;;
        'uniq --message-words') words='' ;;
        'uniq --budget') words='' ;;
        'uniq --depth') words='' ;;
        'uniq --tariff') words='strict plain' ;;
        'filter --form') words='stream packed bare' ;;
        'filter --message-words') words='' ;;
        'filter --budget') words='' ;;
        'filter --depth') words='' ;;
        'filter --tariff') words='strict plain' ;;
        'cmp --form') words='stream packed' ;;
        'cmp --message-words') words='' ;;
        'cmp --budget') words='' ;;
        'cmp --depth') words='' ;;
        'cmp --tariff') words='strict plain' ;;
        'pick --form') words='stream packed' ;;
        'pick --message-words') words='' ;;
        'pick --from') words='' ;;
        'pick --to') words='' ;;
        'pick --only') words='' ;;
        'unpack --message-words') words='' ;;
        'make --form') words='stream packed bare' ;;
        'show '*) words='--form --message-words --budget --depth --tariff --at --text --json --offsets --ways --one --help' ;;
        'check '*) words='--form --message-words --budget --depth --tariff --one --help' ;;
        'explain '*) words='--form --message-words --budget --depth --tariff --number --keep-going --help' ;;
        'annotate '*) words='--form --message-words --budget --depth --tariff --summary --help' ;;
        'list '*) words='--form --message-words --budget --depth --tariff --keep-going --digest --help' ;;
        'limits '*) words='--form --message-words --budget --depth --tariff --keep-going --help' ;;
        'canonical '*) words='--form --message-words --budget --depth --tariff --framed --keep-going --help' ;;
        'hash '*) words='--form --message-words --budget --depth --tariff --one --help' ;;
        'uniq '*) words='--form --message-words --budget --depth --tariff --keep-going --count --help' ;;
        'filter '*) words='--form --message-words --budget --depth --tariff --keep-going --canonical --help' ;;
        'cmp '*) words='--form --message-words --budget --depth --tariff --help' ;;
        'pick '*) words='--form --message-words --from --to --only --help' ;;
        'pack '*) words='--streaming --help' ;;
        'unpack '*) words='--message-words --streaming --help' ;;
        'make '*) words='--form --text --help' ;;
        'help '*) words='show check explain annotate list limits canonical hash uniq filter cmp pick pack unpack make' ;;
    esac
    mapfile -t COMPREPLY < <(compgen -W "$words" -- "$word")
}
complete -o default -F _capn capn
