# Completion of the commands kemtrua, kemtrua-hub and kemtrua-node for fish.

set -l commands add add-job add-trigger add-calendar add-zone check list nodes show history log last audit pause resume reset now delete threshold recover forget team compact backup restore ship receive clock from-quartz

complete -c kemtrua -f
complete -c kemtrua -n "not __fish_seen_subcommand_from $commands" -a "$commands"
complete -c kemtrua -l hub -x -a "unix: tls:" -d "where the hub listens"
complete -c kemtrua -l folder -x -a "(__fish_complete_directories)" -d "a store that no hub holds"
complete -c kemtrua -l program -r -d "the program"
complete -c kemtrua -l within -x -d "how long an answer may take"
complete -c kemtrua -n "__fish_seen_subcommand_from add check" -F
complete -c kemtrua -n "__fish_seen_subcommand_from add add-job add-trigger add-calendar" -l replace
complete -c kemtrua -n "__fish_seen_subcommand_from add-job" -l data -x
complete -c kemtrua -n "__fish_seen_subcommand_from add-job" -l durable
complete -c kemtrua -n "__fish_seen_subcommand_from add-job" -l exclusive
complete -c kemtrua -n "__fish_seen_subcommand_from add-job" -l recover
for option in cron every at count start end calendar priority misfire
    complete -c kemtrua -n "__fish_seen_subcommand_from add-trigger" -l $option -x
end
complete -c kemtrua -n "__fish_seen_subcommand_from add-trigger add-calendar" -l zone -x
complete -c kemtrua -n "__fish_seen_subcommand_from add-calendar" -a "weekly monthly annual holiday daily cron"
complete -c kemtrua -n "__fish_seen_subcommand_from add-calendar" -l inverted
complete -c kemtrua -n "__fish_seen_subcommand_from add-calendar" -l base -x
complete -c kemtrua -n "__fish_seen_subcommand_from list" -a "all jobs triggers nodes running"
complete -c kemtrua -n "__fish_seen_subcommand_from list" -l raw
complete -c kemtrua -n "__fish_seen_subcommand_from list nodes show history log last audit" -l json
complete -c kemtrua -n "__fish_seen_subcommand_from show" -a "job trigger entry next"
for option in job node until
    complete -c kemtrua -n "__fish_seen_subcommand_from history" -l $option -x
end
for option in since limit
    complete -c kemtrua -n "__fish_seen_subcommand_from history audit" -l $option -x
end
for option in failed all vacuum
    complete -c kemtrua -n "__fish_seen_subcommand_from history" -l $option
end
complete -c kemtrua -n "__fish_seen_subcommand_from log" -l follow
complete -c kemtrua -n "__fish_seen_subcommand_from log" -l raw
complete -c kemtrua -n "__fish_seen_subcommand_from log" -l generation -x
complete -c kemtrua -n "__fish_seen_subcommand_from audit" -l by -x
complete -c kemtrua -n "__fish_seen_subcommand_from pause resume" -a "trigger group job-group"
complete -c kemtrua -n "__fish_seen_subcommand_from delete" -a "job trigger calendar zone"
complete -c kemtrua -n "__fish_seen_subcommand_from backup restore receive" -x -a "(__fish_complete_directories)"
complete -c kemtrua -n "__fish_seen_subcommand_from clock" -a accept
complete -c kemtrua -n "__fish_seen_subcommand_from from-quartz" -F -a "xml tables"
complete -c kemtrua -n "__fish_seen_subcommand_from from-quartz" -l postgres -x
complete -c kemtrua -n "__fish_seen_subcommand_from from-quartz" -l csv -x -a "(__fish_complete_directories)"
complete -c kemtrua -n "__fish_seen_subcommand_from from-quartz" -l into -x -a "(__fish_complete_directories)"

complete -c kemtrua-hub -l listen -x -a "unix: tls:"
complete -c kemtrua-hub -l listen-nodes -x -a "unix:"
complete -c kemtrua-hub -l nodes-group -x -a "(__fish_complete_groups)"
complete -c kemtrua-hub -l make
complete -c kemtrua-hub -l keep -x
complete -c kemtrua-hub -l settings -r
complete -c kemtrua-hub -l etcd -x
complete -c kemtrua-hub -l team -x
complete -c kemtrua-hub -l name -x
complete -c kemtrua-hub -l etcd-certificate -r
complete -c kemtrua-hub -l etcd-key -r
complete -c kemtrua-hub -l etcd-authority -r
complete -c kemtrua-hub -l etcd-restored
complete -c kemtrua-hub -l check
complete -c kemtrua-hub -l operator -x
complete -c kemtrua-hub -l node -x
complete -c kemtrua-hub -l program -r
complete -c kemtrua-hub -l revoked -r
complete -c kemtrua-node -l name -x
complete -c kemtrua-node -l check
for command in kemtrua kemtrua-hub
    for option in certificate key authority
        complete -c $command -l $option -r
    end
end
for command in kemtrua-hub kemtrua-node
    complete -c $command -l log -x -a "debug info warning error"
end
