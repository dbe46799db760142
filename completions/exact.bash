# bash completion of exact; made by completions/make
_exact() {
    local word=${COMP_WORDS[COMP_CWORD]} before=${COMP_WORDS[COMP_CWORD - 1]} test=${COMP_WORDS[1]} words=""
    if [ "$COMP_CWORD" -eq 1 ]; then
        mapfile -t COMPREPLY < <(compgen -W "--help signedrank sign rawsigned mcnemar ranksum ansari mood savage median raw kw jt umbrella friedman page cochran fisher linear strata zelen stratranksum kendall runs drill shift merge" -- "$word")
        return
    fi
    case $before in
    --tail) mapfile -t COMPREPLY < <(compgen -W "all less greater two" -- "$word"); return ;;
    --scores) mapfile -t COMPREPLY < <(compgen -W "wilcoxon ansari mood savage median raw" -- "$word"); return ;;
    --order) return ;;
    --peak) return ;;
    --row-scores) return ;;
    --column-scores) return ;;
    --columns) return ;;
    --separator) mapfile -t COMPREPLY < <(compgen -W "comma semicolon tab" -- "$word"); return ;;
    --number) return ;;
    --odds) return ;;
    --missing) mapfile -t COMPREPLY < <(compgen -W "refuse drop" -- "$word"); return ;;
    --miss) return ;;
    --stage) return ;;
    --parts) return ;;
    --part) return ;;
    esac
    case $test in
    signedrank) words="--tail --columns --separator --missing --distribution --plain --nodes --stage --parts --part" ;;
    sign) words="--tail --columns --separator --missing --distribution --plain --nodes --stage --parts --part" ;;
    rawsigned) words="--tail --columns --separator --missing --distribution --plain --nodes --stage --parts --part" ;;
    mcnemar) words="--tail --columns --separator --distribution --plain --nodes --stage --parts --part" ;;
    ranksum) words="--tail --order --columns --separator --missing --distribution --plain --nodes --stage --parts --part" ;;
    ansari) words="--tail --order --columns --separator --missing --distribution --plain --nodes --stage --parts --part" ;;
    mood) words="--tail --order --columns --separator --missing --distribution --plain --nodes --stage --parts --part" ;;
    savage) words="--tail --order --columns --separator --missing --distribution --plain --nodes --stage --parts --part" ;;
    median) words="--tail --order --columns --separator --missing --distribution --plain --nodes --stage --parts --part" ;;
    raw) words="--tail --order --columns --separator --missing --distribution --plain --nodes --stage --parts --part" ;;
    kw) words="--tail --scores --columns --separator --missing --distribution --plain --nodes --stage --parts --part" ;;
    jt) words="--tail --order --columns --separator --missing --distribution --plain --nodes --stage --parts --part" ;;
    umbrella) words="--tail --order --peak --columns --separator --missing --distribution --plain --nodes --stage --parts --part" ;;
    friedman) words="--tail --columns --separator --missing --distribution --plain --nodes --stage --parts --part" ;;
    page) words="--tail --columns --separator --missing --distribution --plain --nodes --stage --parts --part" ;;
    cochran) words="--tail --columns --separator --missing --distribution --plain --nodes --stage --parts --part" ;;
    fisher) words="--tail --columns --separator --odds --distribution --plain --nodes --stage --parts --part" ;;
    linear) words="--tail --row-scores --column-scores --columns --separator --distribution --plain --nodes --stage --parts --part" ;;
    strata) words="--tail --columns --separator --odds --distribution --plain --nodes --stage --parts --part" ;;
    zelen) words="--tail --columns --separator --distribution --plain --nodes --stage --parts --part" ;;
    stratranksum) words="--tail --order --columns --separator --missing --distribution --plain --nodes --stage --parts --part" ;;
    kendall) words="--tail --columns --separator --missing --distribution --plain --nodes --stage --parts --part" ;;
    runs) words="--tail --columns --separator --missing --distribution --plain --nodes --stage --parts --part" ;;
    drill) words="--number" ;;
    shift) words="--order --columns --separator --missing --miss" ;;
    merge) words="" ;;
    esac
    case $word in
    -*) mapfile -t COMPREPLY < <(compgen -W "$words" -- "$word") ;;
    *) mapfile -t COMPREPLY < <(compgen -f -- "$word") ;;
    esac
}
complete -o filenames -F _exact exact
