# Completion of `fitting` for bash. Made from the tool's help: see tests/manual.rs.
# To use it, copy it to ~/.local/share/bash-completion/completions/fitting
_fitting() {
    local word=${COMP_WORDS[COMP_CWORD]} before=${COMP_WORDS[COMP_CWORD - 1]} options=
    if ((COMP_CWORD == 1)); then
        mapfile -t COMPREPLY < <(compgen -W "check show make draw order compare same common combine difference report list import export pack versions unpack put drop table help --help --version" -- "$word")
        return
    fi
    case ${COMP_WORDS[1]} in
    check) options="--quiet --json" ;;
    show) options="" ;;
    make) options="-o" ;;
    draw) options="--over --by --kept-only -o" ;;
    order) options="--json -o" ;;
    compare) options="--json -o" ;;
    same) options="--json" ;;
    common) options="--plain -o" ;;
    combine) options="--plain -o" ;;
    difference) options="--why --json --by -o" ;;
    report) options="-o" ;;
    list) options="--features" ;;
    import) options="-o" ;;
    export) options="--nodes --links -o" ;;
    pack) options="-o" ;;
    versions) options="--table" ;;
    unpack) options="--table -o" ;;
    put) options="--table" ;;
    drop) options="--table" ;;
    table) options="--c --rust --fingerprint -o" ;;
    help)
        mapfile -t COMPREPLY < <(compgen -W "check show make draw order compare same common combine difference report list import export pack versions unpack put drop table text json" -- "$word")
        return
        ;;
    esac
    case $before in
    --features)
        COMPREPLY=(1 2)
        return
        ;;
    --by)
        COMPREPLY=()
        return
        ;;
    esac
    if [[ $word == -* ]]; then
        mapfile -t COMPREPLY < <(compgen -W "$options --help" -- "$word")
    else
        mapfile -t COMPREPLY < <(compgen -f -- "$word")
        compopt -o filenames 2>/dev/null
        # The table may be that of the house types.
        if ((COMP_CWORD == 2)) && [[ -n $word && house == "$word"* ]]; then
            COMPREPLY+=(house)
        fi
    fi
}
complete -F _fitting fitting
