# Completion of the commands kemtrua, kemtrua-hub and kemtrua-node for bash.

_kemtrua_options() {
    COMPREPLY=($(compgen -W "$1" -- "$2"))
}

_kemtrua() {
    local word=${COMP_WORDS[COMP_CWORD]} before=${COMP_WORDS[COMP_CWORD - 1]} command="" place
    local commands="add add-job add-trigger add-calendar add-zone check list nodes show history log last audit pause resume reset now delete threshold recover forget team compact backup restore ship receive clock from-quartz"
    local top="--hub --folder --program --within --certificate --key --authority --help --version"
    for ((place = 1; place < COMP_CWORD; place++)); do
        case ${COMP_WORDS[place]} in
            --hub | --folder | --program | --within | --certificate | --key | --authority) ((place++)) ;;
            -*) ;;
            *) command=${COMP_WORDS[place]}; break ;;
        esac
    done
    case $before in
        --folder) COMPREPLY=($(compgen -d -- "$word")); return ;;
        --program | --certificate | --key | --authority) COMPREPLY=($(compgen -f -- "$word")); return ;;
        --hub) _kemtrua_options "unix: tls:" "$word"; return ;;
    esac
    case $command in
        "") _kemtrua_options "$commands $top" "$word" ;;
        add | check)
            if [[ $word == -* ]]; then _kemtrua_options "--replace --help" "$word"; else COMPREPLY=($(compgen -f -- "$word")); fi ;;
        add-job) _kemtrua_options "--data --durable --exclusive --recover --replace --help" "$word" ;;
        add-trigger) _kemtrua_options "--cron --every --at --count --zone --start --end --calendar --priority --misfire --replace --help" "$word" ;;
        add-calendar) _kemtrua_options "weekly monthly annual holiday daily cron --inverted --base --zone --replace --help" "$word" ;;
        add-zone) [[ -r /usr/share/zoneinfo/tzdata.zi ]] && _kemtrua_options "$(awk '$1 == "Z" { print $2 }' /usr/share/zoneinfo/tzdata.zi)" "$word" ;;
        list) _kemtrua_options "all jobs triggers nodes running --raw --json --help" "$word" ;;
        history) [[ $before == --job || $before == --node || $before == --since || $before == --until || $before == --limit ]] ||
            _kemtrua_options "--job --node --since --until --failed --limit --all --vacuum --json --help" "$word" ;;
        log) _kemtrua_options "--follow --generation --raw --json --help" "$word" ;;
        last) _kemtrua_options "--json --help" "$word" ;;
        audit) _kemtrua_options "--since --by --limit --json --help" "$word" ;;
        nodes) _kemtrua_options "--json --help" "$word" ;;
        show) if [[ $before == show ]]; then _kemtrua_options "job trigger entry next" "$word"; else _kemtrua_options "--json --help" "$word"; fi ;;
        from-quartz)
            if [[ $word == -* ]]; then
                _kemtrua_options "--postgres --csv --scheduler --prefix --psql --zone --start --exclusive --into --overwrite --help" "$word"
            else
                COMPREPLY=($([[ $before == from-quartz ]] && compgen -W "xml tables" -- "$word") $(compgen -f -- "$word"))
            fi ;;
        pause | resume) [[ $before == "$command" ]] && _kemtrua_options "trigger group job-group" "$word" ;;
        backup | restore | receive) COMPREPLY=($(compgen -d -- "$word")) ;;
        clock) _kemtrua_options "accept --help" "$word" ;;
        delete) [[ $before == delete ]] && _kemtrua_options "job trigger calendar zone" "$word" ;;
    esac
}

_kemtrua_hub() {
    local word=${COMP_WORDS[COMP_CWORD]}
    if [[ $word == -* ]]; then
        _kemtrua_options "--listen --listen-nodes --nodes-group --make --program --operator --node --keep --certificate --key --authority --revoked --settings --check --etcd --team --name --etcd-certificate --etcd-key --etcd-authority --etcd-restored --log --help --version" "$word"
    else
        COMPREPLY=($(compgen -f -- "$word"))
    fi
}

_kemtrua_node() {
    local word=${COMP_WORDS[COMP_CWORD]}
    if [[ $word == -* ]]; then
        _kemtrua_options "--name --check --log --help --version" "$word"
    else
        COMPREPLY=($(compgen -f -X '!*.toml' -- "$word") $(compgen -d -- "$word"))
    fi
}

complete -o filenames -F _kemtrua kemtrua
complete -o filenames -F _kemtrua_hub kemtrua-hub
complete -o filenames -F _kemtrua_node kemtrua-node
