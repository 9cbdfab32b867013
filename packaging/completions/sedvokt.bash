# Completes sedvokt in bash.

_sedvokt() {
    local word=${COMP_WORDS[COMP_CWORD]} before=${COMP_WORDS[COMP_CWORD - 1]} words at=1
    COMPREPLY=()
    # Where the command is: -v and -q may come before it.
    while ((at < COMP_CWORD)) && [[ ${COMP_WORDS[at]} == -* ]]; do
        at=$((at + 1))
    done
    if ((COMP_CWORD == at)); then
        words='stats verify get scan history manifest dump files compact clean job install blocks'
        words="$words help -v --verbose -q --quiet -h --help -V --version"
        mapfile -t COMPREPLY < <(compgen -W "$words" -- "$word")
        return
    fi
    case $before in
    --at | --from | --to | --prefix | --limit | --level | --memory | --workers | --ranges | \
        --snapshot | --snapshots | --block-size | --file-size | --part | --first-number)
        return
        ;;
    --out)
        mapfile -t COMPREPLY < <(compgen -d -- "$word")
        compopt -o filenames 2>/dev/null
        return
        ;;
    --table)
        mapfile -t COMPREPLY < <(compgen -f -- "$word")
        compopt -o filenames 2>/dev/null
        return
        ;;
    esac
    case ${COMP_WORDS[at]} in
    stats) words='--text --json --memory --fail-on-logs --no-lock' ;;
    verify) words='--table --json --all-faults --memory --fail-on-logs --no-lock' ;;
    get)
        words='--stdin --at --text --utf8 --raw --json --no-verify --memory --fail-on-logs --no-lock'
        ;;
    scan)
        words='--from --to --prefix --at --limit --keys --count --text --utf8 --json --no-verify'
        words="$words --memory --fail-on-logs --no-lock"
        ;;
    history) words='--text --utf8 --json --no-verify --memory --fail-on-logs --no-lock' ;;
    manifest) words='--text --json --fail-on-logs --no-lock' ;;
    dump) words='--text' ;;
    files) words='--json --no-lock' ;;
    compact)
        words='--level --all --whole --out --part --first-number --no-verify --fail-on-logs --memory'
        words="$words --workers --ranges --snapshot --snapshots --block-size --file-size --clean"
        words="$words --json"
        ;;
    clean) words='--dry-run' ;;
    job) words='--level --parts' ;;
    install) words='--snapshot --snapshots --no-verify --memory --clean' ;;
    blocks) words='--at' ;;
    help)
        words='stats verify get scan history manifest dump files compact clean job install blocks'
        ;;
    *) return ;;
    esac
    [[ ${COMP_WORDS[at]} == help ]] || words="$words -v --verbose -q --quiet -h --help"
    if [[ $word == -* || ${COMP_WORDS[at]} == help ]]; then
        mapfile -t COMPREPLY < <(compgen -W "$words" -- "$word")
        return
    fi
    case ${COMP_WORDS[at]} in
    manifest | stats | verify | get | scan | history | files | job | compact | install | clean)
        mapfile -t COMPREPLY < <(compgen -d -- "$word")
        ;;
    *) mapfile -t COMPREPLY < <(compgen -f -- "$word") ;;
    esac
    compopt -o filenames 2>/dev/null
}

complete -F _sedvokt sedvokt
