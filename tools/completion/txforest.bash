# Completion of bash for txforest and its tools.

_txforest() {
    local word=${COMP_WORDS[COMP_CWORD]} at=$COMP_CWORD
    if ((at == 1)); then
        COMPREPLY=($(compgen -W "run trace watch views journal recover audit show gen large" -- "$word"))
        return
    fi
    case ${COMP_WORDS[1]}:$at in
    run:3 | trace:3 | watch:3 | views:3 | journal:3 | recover:3 | audit:3 | show:3) _txforest_paths -d ;;
    run:4 | trace:4 | watch:4 | views:4 | journal:4 | recover:5 | gen:3 | large:3) _txforest_paths -d ;;
    trace:5 | watch:5 | journal:6) COMPREPLY=($(compgen -W "none" -- "$word")) ;;
    run:* | trace:* | watch:* | views:* | journal:* | recover:* | audit:* | show:2) _txforest_paths -f ;;
    esac
}

_txforest_paths() {
    compopt -o filenames 2>/dev/null
    mapfile -t COMPREPLY < <(compgen "$1" -- "${COMP_WORDS[COMP_CWORD]}")
}

_txforest_tool() {
    local word=${COMP_WORDS[COMP_CWORD]} before=${COMP_WORDS[COMP_CWORD - 1]} options=--help
    case ${COMP_WORDS[0]##*/} in
    txforest-import) options="--help --leave-out --only --no-flags --as --wait" ;;
    txforest-export) options="--help --attributes --replace --merge --wait" ;;
    txforest-apply) options="--help --in-place --exchange --link --before --only --allow-stopped --wait --set --set-file --json --log --keep --settle --list-left-out" ;;
    txforest-do) options="--help --trace --whole --only --tries --optimistic --hold --wait --log --verbose --python" ;;
    txforest-explain) options="--help --scripts --report --walk" ;;
    txforest-report) options="--help --json" ;;
    txforest-schedules) options="--help --limit --seed --of" ;;
    txforest-picture) options="--help --html --names --output" ;;
    esac
    case $before in
    --before | --only | --set | --wait | --tries | --limit | --seed | --names) return ;;
    --in-place | --keep | --as) _txforest_paths -d && return ;;
    esac
    case $word in
    -*) COMPREPLY=($(compgen -W "$options" -- "$word")) ;;
    *) _txforest_paths -f ;;
    esac
}

complete -F _txforest txforest
complete -F _txforest_tool txforest-import txforest-export txforest-apply txforest-do txforest-explain txforest-schedules txforest-picture txforest-report
