# Completion of shop for bash. Written by scripts/write_help.py; changes are lost.
_shop() {
    local word=${COMP_WORDS[COMP_CWORD]} before=${COMP_WORDS[COMP_CWORD - 1]} command= at=0 words= how= next
    # `--sites=2` is three words to bash.
    if [[ $word == = ]]; then word=; elif [[ $before == = ]]; then before=${COMP_WORDS[COMP_CWORD - 2]}; fi
    for ((next = 1; next < COMP_CWORD; next++)); do
        case ${COMP_WORDS[next]} in
        -C | --sites | --here | --standby | --after | --over | --keep | --batch | --shards | --workers | --timeout | -n | --lines | --key | --keys | --save | --with | --site | --listen | --certificate | --private-key | --idle | --view | --keys-file | --allow-origin | --access-log | --requests) [[ ${COMP_WORDS[++next]} != = ]] || ((next++)) ;;
        -*) ;;
        *) if [[ $command ]]; then ((at++)); else command=${COMP_WORDS[next]}; fi ;;
        esac
    done
    case $command,$before,$at in
    *,-C,*) how=-d ;;
    start,--over,*) words='files redis://' ;;
    start,*,0) how=-d ;;
    run,--over,*) words='files redis://' ;;
    run,*,0) how=-d ;;
    stop,*,0) how=-d ;;
    log,*,0) words='0 1 2 3 4 5 6 7 8 9 10 11 12 13 14 15' ;;
    wait,*,0) words='0 1 2 3 4 5 6 7 8 9 10 11 12 13 14 15' ;;
    ask,*,0) words='0 1 2 3 4 5 6 7 8 9 10 11 12 13 14 15' ;;
    pass,*,0) words='0 1 2 3 4 5 6 7 8 9 10 11 12 13 14 15' ;;
    pass,*,1) words='0 1 2 3 4 5 6 7 8 9 10 11 12 13 14 15' ;;
    list,*,0) words='0 1 2 3 4 5 6 7 8 9 10 11 12 13 14 15' ;;
    list,*,1) words='users items bids purchases comments categories misfits' ;;
    show,*,0) words='0 1 2 3 4 5 6 7 8 9 10 11 12 13 14 15' ;;
    show,*,1) words='user item bid purchase comment category' ;;
    tables,*,0) words='0 1 2 3 4 5 6 7 8 9 10 11 12 13 14 15' ;;
    audit,--save,*) how=-f ;;
    audit,--with,*) how=-f ;;
    view,--site,*) words='0 1 2 3 4 5 6 7 8 9 10 11 12 13 14 15' ;;
    view,*,0) how=-f ;;
    serve,-C,*) how=-d ;;
    serve,--certificate,*) how=-f ;;
    serve,--private-key,*) how=-f ;;
    serve,--view,*) how=-f ;;
    serve,--keys-file,*) how=-f ;;
    serve,--access-log,*) how=-f ;;
    rebuild,*,0) words='0 1 2 3 4 5 6 7 8 9 10 11 12 13 14 15' ;;
    backup,*,0) how=-f ;;
    restore,--site,*) words='0 1 2 3 4 5 6 7 8 9 10 11 12 13 14 15' ;;
    restore,*,0) how=-f ;;
    shorten,*,0) words='0 1 2 3 4 5 6 7 8 9 10 11 12 13 14 15' ;;
    carry,--site,*) words='0 1 2 3 4 5 6 7 8 9 10 11 12 13 14 15' ;;
    carry,*,0) how=-d ;;
    carry,*,1) how=-d ;;
    adopt,*,0) words='0 1 2 3 4 5 6 7 8 9 10 11 12 13 14 15' ;;
    esac
    [[ $word != -* && $words$how ]] || case $command in
    '') words='start run stop status log wait ask pass list show tables audit view serve rebuild backup restore shorten carry adopt --help -C --version' ;;
    start) words='--sites --here --standby --after --over --sync --no-sync --alone --upgrade --keep --batch --shards --workers --timeout --help' ;;
    run) words='--sites --here --standby --after --over --sync --no-sync --alone --upgrade --keep --batch --shards --workers --help' ;;
    stop) words='--help' ;;
    status) words='--json --timeout --help' ;;
    log) words='--follow --lines --raw --json --help' ;;
    wait) words='--timeout --help' ;;
    ask) words='--json --raw --no-wait --key --keys --retry --published --timeout --help' ;;
    pass) words='--timeout --help' ;;
    list) words='--json --timeout --help' ;;
    show) words='--json --timeout --help' ;;
    tables) words='--timeout --help' ;;
    audit) words='--save --with --json --timeout --help' ;;
    view) words='--site --once --help' ;;
    serve) words='--listen --certificate --private-key --idle --view --keys-file --allow-origin --access-log --requests --retry --help' ;;
    rebuild) words='--anyway --help' ;;
    backup) words='--timeout --help' ;;
    restore) words='--site --yes --help' ;;
    shorten) words='--help' ;;
    carry) words='--site --yes --help' ;;
    adopt) words='--help' ;;
    esac
    mapfile -t COMPREPLY < <(compgen $how -W "$words" -- "$word")
}
complete -F _shop shop
