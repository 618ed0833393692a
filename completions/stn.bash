# Completions of stn for bash, written by completions/write.py from the help of the program. Source it from ~/.bashrc.
_stn() {
    local word=${COMP_WORDS[COMP_CWORD]} before=${COMP_WORDS[COMP_CWORD - 1]} options places values place=0 at
    COMPREPLY=()
    if ((COMP_CWORD == 1)); then
        mapfile -t COMPREPLY < <(compgen -W "run bare init loosen add amend withdraw done merge guard report next ready why repairs records steps bounds check rehearse draw explain shell serve send help --help --version" -- "$word")
        return
    fi
    if [[ ${COMP_WORDS[1]} == help ]]; then
        if ((COMP_CWORD == 2)); then mapfile -t COMPREPLY < <(compgen -W "run bare init loosen add amend withdraw done merge guard report next ready why repairs records steps bounds check rehearse draw explain shell serve send" -- "$word"); fi
        return
    fi
    case ${COMP_WORDS[1]} in
        run) options="--help" places="" values="" ;;
        bare) options="--help" places="1" values="" ;;
        init) options="--help" places="1 3 4" values="" ;;
        loosen) options="--early= --late= --robust --help" places="1 3 4" values="" ;;
        add) options="--lo= --hi= --help" places="1" values="" ;;
        amend) options="--lo= --hi= --help" places="1" values="" ;;
        withdraw) options="--help" places="1" values="" ;;
        done) options="--help" places="1" values="" ;;
        merge) options="--help" places="1 3" values="" ;;
        guard) options="--own= --help" places="1" values="" ;;
        report) options="--plan= --names --help" places="1" values="--plan" ;;
        next) options="--steps= --starts --plan= --names --help" places="1" values="--plan" ;;
        ready) options="--steps= --starts --plan= --names --help" places="1" values="--plan" ;;
        why) options="--plan= --names --help" places="1" values="--plan" ;;
        repairs) options="--plan= --names --help" places="1" values="--plan" ;;
        records) options="--plan= --names --help" places="1" values="--plan" ;;
        steps) options="--plan= --help" places="1" values="--plan" ;;
        bounds) options="--plan= --names --help" places="1" values="--plan" ;;
        check) options="--help" places="1" values="" ;;
        rehearse) options="--steps= --starts --plan= --names --help" places="1" values="--plan" ;;
        draw) options="--now= --arrows= --plan= --own= --help" places="1" values="--plan" ;;
        explain) options="--help" places="" values="" ;;
        shell) options="--help" places="1" values="" ;;
        serve) options="--seconds= --help" places="1" values="" ;;
        send) options="--seconds= --help" places="1" values="" ;;
        *) return ;;
    esac
    # `=` is a word of its own here, so a value comes two words after its option.
    if [[ $word == = ]]; then
        before=$word word=
        at=$((COMP_CWORD - 1))
    else
        at=$((COMP_CWORD - 2))
    fi
    if [[ $before == = ]]; then
        if [[ " $values " == *" ${COMP_WORDS[at]} "* ]]; then compopt -o filenames; mapfile -t COMPREPLY < <(compgen -f -- "$word"); fi
        return
    fi
    # Or one word after it, where a blank stands between.
    if [[ " $options " == *" $before= "* ]]; then
        if [[ " $values " == *" $before "* ]]; then compopt -o filenames; mapfile -t COMPREPLY < <(compgen -f -- "$word"); fi
        return
    fi
    if [[ $word == -* ]]; then
        mapfile -t COMPREPLY < <(compgen -W "$options" -- "$word")
        if [[ ${COMPREPLY[*]} == *= ]]; then compopt -o nospace; fi
        return
    fi
    for ((at = 2; at < COMP_CWORD; at++)); do
        if [[ ${COMP_WORDS[at]} != -* && ${COMP_WORDS[at]} != = && ${COMP_WORDS[at - 1]} != = && " $options " != *" ${COMP_WORDS[at - 1]}= "* ]]; then ((place++)); fi
    done
    if [[ " $places " == *" $((place + 1)) "* ]]; then compopt -o filenames; mapfile -t COMPREPLY < <(compgen -f -- "$word"); fi
}
complete -F _stn stn
