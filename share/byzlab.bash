# Completion of the words of byzlab in bash:
#
#     source share/byzlab.bash
#
# It offers what `byzlab --help` and the help of each subcommand list (checks/docs compares them), and otherwise files. The
# words of the script ./byzlab are not offered for the program of a release, in which surveys are another program.

_byzlab() {
    local words=("${COMP_WORDS[@]}") at=$COMP_CWORD script="prove release install uninstall serve --try" offered program= start=
    local commands="check asm dis book table refute exhaust rule muster play audit explore tree draw page schedule survey help"
    program=$(type -P -- "${words[0]}") && LC_ALL=C read -r -n 4 start <"$program"
    if [ "$start" = $'\x7fELF' ]; then
        script= commands=${commands/ survey/}
    fi
    case ${words[0]##*/} in
    byzlab-survey | byzlab-serve) words=("${words[0]}" "${words[0]##*byzlab-}" "${words[@]:1}") at=$((at + 1)) ;;
    esac
    # (the same words follow --try, which belongs to the script, as does prove)
    if [ "$at" -gt 1 ] && [ "${words[1]}" = --try ]; then
        words=("${words[0]}" "${words[@]:2}") at=$((at - 1)) script=
    fi
    local word=${words[at]}
    case $at:${words[1]-}:$word in
    1:*) offered="$commands $script -h --help -V --version" ;;
    *:prove:-*) offered="-h --help" ;;
    *:release:-*) offered="--out -h --help" ;;
    *:serve:-*) offered="--port --host --name --workers --open -h --help" ;;
    *:install:-* | *:uninstall:-*) offered="--prefix -h --help" ;;
    2:help:*) offered=$commands ;;
    *:help:*) offered= ;;
    *:play:-*) offered="--table --explain --json --verdicts --schedule --seed --schedule-out --of --no-files -h --help" ;;
    *:check:-*) offered="--asm --elf --explain --trace --json --verdicts --context --entry -h --help" ;;
    *:asm:-*) offered="--raw --explain --partial -o -h --help" ;;
    *:dis:-*) offered="--elf --units --explain --partial --entry -h --help" ;;
    *:book:-*) offered="--explain --json --traitors -h --help" ;;
    *:table:-*) offered="--loyal --lie -h --help" ;;
    *:refute:-*) offered="--rule --story --scenario -h --help" ;;
    *:exhaust:-*) offered="--json --generals --bound --traitors --commander --rule --scenario -h --help" ;;
    *:rule:-*) offered="--asm --elf --json --entry --generals -h --help" ;;
    *:tree:-*) offered="--text --ascii --dot --svg --fold --of --traitors --depth --no-files -h --help" ;;
    *:draw:-*) offered="--schedule --chronicle --no-files -h --help" ;;
    *:page:-*) offered="--schedule --chronicle -o --no-files -h --help" ;;
    *:schedule:-*) offered="--accesses --no-files -h --help" ;;
    *:explore:-*) offered="--most --keep --no-files -h --help" ;;
    *:survey:-*) offered="--generals --bound --traitors --commander --orders --grid --seeds --rule --patience --signed --adversary --lines --details --table --csv --svg --shrink --break --campaign --keep --keep-all --sum -h --help" ;;
    *:muster:-*) offered="--explain --json --of --no-files -h --help" ;;
    *:audit:-*) offered="--explain --json --verdicts --of --no-files -h --help" ;;
    *) offered= ;;
    esac
    mapfile -t COMPREPLY < <(compgen -W "$offered" -- "$word")
}

complete -o default -F _byzlab byzlab ./byzlab byzlab-survey byzlab-serve
