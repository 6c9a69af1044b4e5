# Completion of `sas` for bash: requests, flags and files.

_sas() {
    local word=${COMP_WORDS[COMP_CWORD]} request=${COMP_WORDS[1]} flags="-h --help" files=0 most=0 place
    local requests="plan plans trace mutex show check print steps help"
    COMPREPLY=()
    if ((COMP_CWORD == 1)); then
        mapfile -t COMPREPLY < <(compgen -W "$requests -h --help -V --version" -- "$word")
        return
    fi
    for ((place = 2; place < COMP_CWORD; place++)); do
        if [[ ${COMP_WORDS[place]} != -?* ]]; then ((files += 1)); fi
    done
    case $request in
    plan | trace) flags="--why $flags" most=2 ;;
    plans) flags="--why $flags" most=1000000 ;;
    mutex | show | check | print | steps) flags="--why $flags" most=1 ;;
    esac
    if [[ $request == help ]]; then
        mapfile -t COMPREPLY < <(compgen -W "$requests" -- "$word")
    elif [[ $word == -* ]]; then
        mapfile -t COMPREPLY < <(compgen -W "$flags" -- "$word")
    elif ((files < most)); then
        # any file; for a task, the files that end with .sas and the folders, if there are any
        compopt -o default
        if ((files == 0)) && [[ $request != steps ]]; then
            mapfile -t COMPREPLY < <(compgen -f -X '!*.sas' -- "$word"; compgen -d -- "$word")
            if ((${#COMPREPLY[@]})); then compopt -o filenames; fi
        fi
    fi
}

complete -F _sas sas
