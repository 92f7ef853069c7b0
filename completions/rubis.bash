# Completion of rubis for bash. Written by scripts/write_help.py; changes are lost.
_rubis() {
    local word=${COMP_WORDS[COMP_CWORD]} before=${COMP_WORDS[COMP_CWORD - 1]} command= at=0 words= how= next
    # `--sites=2` is three words to bash.
    if [[ $word == = ]]; then word=; elif [[ $before == = ]]; then before=${COMP_WORDS[COMP_CWORD - 2]}; fi
    for ((next = 1; next < COMP_CWORD; next++)); do
        case ${COMP_WORDS[next]} in
        --site | --sites | --shards | --workers | --batch | --keep | --to) [[ ${COMP_WORDS[++next]} != = ]] || ((next++)) ;;
        -*) ;;
        *) if [[ $command ]]; then ((at++)); else command=${COMP_WORDS[next]}; fi ;;
        esac
    done
    case $command,$before,$at in
    site,--site,*) words='0 1 2 3 4 5 6 7 8 9 10 11 12 13 14 15' ;;
    site,--sites,*) words='1 2 3 4 5 6 7 8 9 10 11 12 13 14 15 16' ;;
    site,--shards,*) words='1 2 4 8 16 32 64' ;;
    site,--workers,*) words='1 2 3 4 5 6 7 8 9 10 11 12 13 14 15 16' ;;
    site,--batch,*) words='1 2 4 8 16 32 64 128 256 512 1024 2048 4096 8192 16384 32768 65536' ;;
    site,--keep,*) words='1000000' ;;
    world,--sites,*) words='1 2 3 4 5 6 7 8 9 10 11 12 13 14 15 16' ;;
    world,--shards,*) words='1 2 4 8 16 32 64' ;;
    world,--workers,*) words='1 2 3 4 5 6 7 8 9 10 11 12 13 14 15 16' ;;
    world,--batch,*) words='1 2 4 8 16 32 64 128 256 512 1024 2048 4096 8192 16384 32768 65536' ;;
    world,--keep,*) words='1000000' ;;
    audit,--sites,*) words='1 2 3 4 5 6 7 8 9 10 11 12 13 14 15 16' ;;
    lack,--sites,*) words='1 2 3 4 5 6 7 8 9 10 11 12 13 14 15 16' ;;
    lack,--site,*) words='0 1 2 3 4 5 6 7 8 9 10 11 12 13 14 15' ;;
    lack,--keep,*) words='1000000' ;;
    check,--sites,*) words='1 2 3 4 5 6 7 8 9 10 11 12 13 14 15 16' ;;
    check,*,0) words='site world audit' ;;
    widen,--sites,*) words='1 2 3 4 5 6 7 8 9 10 11 12 13 14 15 16' ;;
    widen,--to,*) words='1 2 3 4 5 6 7 8 9 10 11 12 13 14 15 16' ;;
    keep,--site,*) words='0 1 2 3 4 5 6 7 8 9 10 11 12 13 14 15' ;;
    keep,--sites,*) words='1 2 3 4 5 6 7 8 9 10 11 12 13 14 15 16' ;;
    keep,--keep,*) words='1000000' ;;
    keep,--shards,*) words='1 2 4 8 16 32 64' ;;
    keep,--workers,*) words='1 2 3 4 5 6 7 8 9 10 11 12 13 14 15 16' ;;
    keep,--batch,*) words='1 2 4 8 16 32 64 128 256 512 1024 2048 4096 8192 16384 32768 65536' ;;
    keep,*,0) how=-d ;;
    help,*,0) words='site world audit lack check widen keep' ;;
    esac
    [[ $word != -* && $words$how ]] || case $command in
    '') words='site world audit lack check widen keep help --help --version' ;;
    site) words='--site --sites --shards --workers --batch --keep --help' ;;
    world) words='--sites --shards --workers --batch --keep --help' ;;
    audit) words='--sites --status --help' ;;
    lack) words='--sites --site --keep --waiting --help' ;;
    check) words='--sites --help' ;;
    widen) words='--sites --to --help' ;;
    keep) words='--site --sites --keep --shards --workers --batch --sync --shorten --upgrade --help' ;;
    help) words='--help' ;;
    esac
    mapfile -t COMPREPLY < <(compgen $how -W "$words" -- "$word")
}
complete -F _rubis rubis
