#compdef kemtrua kemtrua-hub kemtrua-node
# Completion of the commands kemtrua, kemtrua-hub and kemtrua-node for zsh.

local -a tls commands
tls=('--certificate[this side'\''s certificate]:file:_files' '--key[its key]:file:_files' '--authority[whose certificates are trusted]:file:_files')

_kemtrua_command() {
    case $words[1] in
        add) _arguments '--replace[in place of what is stored]' '*:file:_files' ;;
        check) _arguments '*:file:_files' ;;
        add-job) _arguments '--data[a text for what runs it]:text:' '--durable' '--exclusive' '--recover' '--replace' ':name:' ':class:' ;;
        add-trigger)
            _arguments '--cron[six or seven fields]:text:' '--every[again and again]:span:' '--at[once]:moment:' '--count[how many times more]:count:' \
                '--zone:zone:' '--start:moment:' '--end:moment:' '--calendar:name:' '--priority:number:' '--misfire:number:' '--replace' ':name:' ':job:' ;;
        add-calendar)
            _arguments '--inverted' '--base:name:' '--zone:zone:' '--replace' ':name:' ':kind:(weekly monthly annual holiday daily cron)' '*:value:' ;;
        add-zone) _arguments ':zone:_time_zone' ;;
        list) _arguments '--raw' '--json' ':what:(all jobs triggers nodes running)' ;;
        nodes | last) _arguments '--json' ;;
        history)
            _arguments '--job:job:' '--node:node:' '--since:moment:' '--until:moment:' '--failed' '--limit:number:' '--all' '--vacuum' '--json' ;;
        log) _arguments '--follow[as long as it runs]' '--generation:number:' '--raw' '--json' ':entry:' ;;
        audit) _arguments '--since:moment:' '--by:name:' '--limit:number:' '--json' ;;
        show) _arguments '--json' ':what:(job trigger entry next)' ':name:' ;;
        pause | resume) _arguments ':what:(trigger group job-group)' ':name:' ;;
        delete) _arguments ':what:(job trigger calendar zone)' ':name:' ;;
        backup | restore | receive) _arguments ':folder:_files -/' ;;
        clock) _arguments ':word:(accept)' ;;
        from-quartz)
            _arguments ':what:(xml tables)' '--postgres:url:' '--csv:folder:_files -/' '--start:moment:' '--zone:zone:_time_zone' '--into:folder:_files -/' '--overwrite' '*:file:_files' ;;
        reset | now | recover | forget) _arguments ':name:' ;;
        threshold) _arguments ':span:' ;;
    esac
}

case $service in
    kemtrua)
        commands=(add add-job add-trigger add-calendar add-zone check list nodes show history log last audit pause resume reset now delete threshold recover forget team compact backup restore ship receive clock from-quartz)
        _arguments -C $tls '--hub[where the hub listens]:address:(unix: tls:)' '--folder[a store that no hub holds]:folder:_files -/' \
            '--program[the program]:file:_files' '--within[how long an answer may take]:span:' '--help' '--version' \
            "1:command:($commands)" '*::word:_kemtrua_command' ;;
    kemtrua-hub)
        _arguments $tls '*--listen[an address]:address:(unix: tls:)' '*--listen-nodes[a socket for nodes alone]:address:(unix:)' \
            '--keep[old stores that are kept]:number:' '--nodes-group[who may open it]:group:_groups' '--make' '--program:file:_files' '*--operator[a certificate that operates]:name:' \
            '*--node[a certificate that is a node]:name:' '--revoked[a revocation list]:file:_files' '--settings[history, expectations, alerts]:file:_files -g "*.toml"' '--check' '--log:level:(debug info warning error)' \
            '--etcd[each etcd, with commas]:urls:' '--team[the name in etcd]:name:' '--name[the name of this hub]:name:' '--etcd-restored' \
            '--etcd-certificate:file:_files' '--etcd-key:file:_files' '--etcd-authority:file:_files' \
            '--help' '--version' ':folder:_files -/' ;;
    kemtrua-node) _arguments '--name:name:' '--check' '--log:level:(debug info warning error)' '--help' '--version' ':settings:_files -g "*.toml"' ;;
esac
