# Completion of `lineup` for bash. The script passes --source and --hints by itself.
_lineup() {
    local word="${COMP_WORDS[COMP_CWORD]}" before="${COMP_WORDS[COMP_CWORD-1]}" options
    local commands='compile lint serial check certify witness conform explain draw trace replay shrink campaign spec refute
        commands test findings help'
    COMPREPLY=()
    if [ "$COMP_CWORD" -eq 1 ]; then
        COMPREPLY=($(compgen -W "$commands --help --version --build --install" -- "$word"))
        return
    fi
    case "$before" in
        --bound) options='40 256' ;;                      # 0 to 256
        --serial) options='40 256' ;;                     # 1 to 256
        --workers) options="$(seq 16)" ;;
        --depth) options="$(seq 0 8)" ;;
        --local) options="$(seq 0 16)" ;;
        --nodes) options='8388608 16777216' ;;            # 1 to 4294967295
        --memory) options='1024 4096' ;;                  # 1 to 65535
        --rounds) options="$(seq 8)" ;;                   # 1 to 65535
        --threads | --calls) options="$(seq 8)" ;;
        --from | --upto) return ;;                        # numbers of matrices
        --install) compopt -o dirnames; return ;;
        *)
            case "${COMP_WORDS[1]}" in
                check) options='--bound --serial --workers --depth --spec --marks' ;;
                certify | test) options='--bound --serial --workers --depth --local --nodes --memory --rounds --forever' ;;
                findings) options='gcc junit sarif --check --lint --watch' ;;
                help) options="$commands" ;;
                serial | shrink) options='--bound --serial' ;;
                witness) options='--bound --serial --spec --marks' ;;
                conform) options='--show' ;;
                lint) options='--serial --marks' ;;
                explain) options='--serial --spec --marks' ;;
                draw) options='--serial --explain' ;;
                trace) options='--setup --brief' ;;
                campaign) options='--bound --serial --threads --calls --by-thread --from --upto --count --certify --all --spec --progress' ;;
                *) return ;;
            esac
            ;;
    esac
    COMPREPLY=($(compgen -W "$options" -- "$word"))
}
complete -o default -F _lineup lineup      # file names, also after < and >
