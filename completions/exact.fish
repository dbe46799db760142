# fish completion of exact; made by completions/make
complete -c exact -n __fish_is_first_token -f -a '--help'
complete -c exact -n __fish_is_first_token -f -a signedrank
complete -c exact -n __fish_is_first_token -f -a sign
complete -c exact -n __fish_is_first_token -f -a rawsigned
complete -c exact -n __fish_is_first_token -f -a mcnemar
complete -c exact -n __fish_is_first_token -f -a ranksum
complete -c exact -n __fish_is_first_token -f -a ansari
complete -c exact -n __fish_is_first_token -f -a mood
complete -c exact -n __fish_is_first_token -f -a savage
complete -c exact -n __fish_is_first_token -f -a median
complete -c exact -n __fish_is_first_token -f -a raw
complete -c exact -n __fish_is_first_token -f -a kw
complete -c exact -n __fish_is_first_token -f -a jt
complete -c exact -n __fish_is_first_token -f -a umbrella
complete -c exact -n __fish_is_first_token -f -a friedman
complete -c exact -n __fish_is_first_token -f -a page
complete -c exact -n __fish_is_first_token -f -a cochran
complete -c exact -n __fish_is_first_token -f -a fisher
complete -c exact -n __fish_is_first_token -f -a linear
complete -c exact -n __fish_is_first_token -f -a strata
complete -c exact -n __fish_is_first_token -f -a zelen
complete -c exact -n __fish_is_first_token -f -a stratranksum
complete -c exact -n __fish_is_first_token -f -a kendall
complete -c exact -n __fish_is_first_token -f -a runs
complete -c exact -n __fish_is_first_token -f -a drill
complete -c exact -n __fish_is_first_token -f -a shift
complete -c exact -n __fish_is_first_token -f -a merge
complete -c exact -n '__fish_seen_subcommand_from signedrank sign rawsigned mcnemar ranksum ansari mood savage median raw kw jt umbrella friedman page cochran fisher linear strata zelen stratranksum kendall runs' -l tail -x -a 'all less greater two'
complete -c exact -n '__fish_seen_subcommand_from kw' -l scores -x -a 'wilcoxon ansari mood savage median raw'
complete -c exact -n '__fish_seen_subcommand_from ranksum ansari mood savage median raw jt umbrella stratranksum shift' -l order -x
complete -c exact -n '__fish_seen_subcommand_from umbrella' -l peak -x
complete -c exact -n '__fish_seen_subcommand_from linear' -l row-scores -x
complete -c exact -n '__fish_seen_subcommand_from linear' -l column-scores -x
complete -c exact -n '__fish_seen_subcommand_from signedrank sign rawsigned mcnemar ranksum ansari mood savage median raw kw jt umbrella friedman page cochran fisher linear strata zelen stratranksum kendall runs shift' -l columns -x
complete -c exact -n '__fish_seen_subcommand_from signedrank sign rawsigned mcnemar ranksum ansari mood savage median raw kw jt umbrella friedman page cochran fisher linear strata zelen stratranksum kendall runs shift' -l separator -x -a 'comma semicolon tab'
complete -c exact -n '__fish_seen_subcommand_from drill' -l number -x
complete -c exact -n '__fish_seen_subcommand_from fisher strata' -l odds -x
complete -c exact -n '__fish_seen_subcommand_from signedrank sign rawsigned ranksum ansari mood savage median raw kw jt umbrella friedman page cochran stratranksum kendall runs shift' -l missing -x -a 'refuse drop'
complete -c exact -n '__fish_seen_subcommand_from shift' -l miss -x
complete -c exact -n '__fish_seen_subcommand_from signedrank sign rawsigned mcnemar ranksum ansari mood savage median raw kw jt umbrella friedman page cochran fisher linear strata zelen stratranksum kendall runs' -l distribution
complete -c exact -n '__fish_seen_subcommand_from signedrank sign rawsigned mcnemar ranksum ansari mood savage median raw kw jt umbrella friedman page cochran fisher linear strata zelen stratranksum kendall runs' -l plain
complete -c exact -n '__fish_seen_subcommand_from signedrank sign rawsigned mcnemar ranksum ansari mood savage median raw kw jt umbrella friedman page cochran fisher linear strata zelen stratranksum kendall runs' -l nodes
complete -c exact -n '__fish_seen_subcommand_from signedrank sign rawsigned mcnemar ranksum ansari mood savage median raw kw jt umbrella friedman page cochran fisher linear strata zelen stratranksum kendall runs' -l stage -x
complete -c exact -n '__fish_seen_subcommand_from signedrank sign rawsigned mcnemar ranksum ansari mood savage median raw kw jt umbrella friedman page cochran fisher linear strata zelen stratranksum kendall runs' -l parts -x
complete -c exact -n '__fish_seen_subcommand_from signedrank sign rawsigned mcnemar ranksum ansari mood savage median raw kw jt umbrella friedman page cochran fisher linear strata zelen stratranksum kendall runs' -l part -x
