# Completion of cudf_check for fish.

# The lists that continue the word --criteria=LIST: its last aim is each of those whose counts aren't in it yet.
function __cudf_check_lists
    set -l list (string replace -- --criteria= '' (commandline -ct))
    set -l front (string match -r -- '^.*,' $list)
    for name in removed new changed notuptodate unsat_recommends touched
        if not string match -qr -- "(^|,)[-+]$name," $list
            printf '%s\n' "$front-$name" "$front+$name"
        end
    end
end

complete -c cudf_check -n __fish_use_subcommand -f -a lint -d 'Check that a file is a valid problem'
complete -c cudf_check -n __fish_use_subcommand -f -a check -d 'Check a solution, and print each rule that it violates'
complete -c cudf_check -n __fish_use_subcommand -f -a score -d 'Count what a solution changes and lacks'
complete -c cudf_check -n __fish_use_subcommand -f -a rank -d 'Rank several solutions by a list of criteria'
complete -c cudf_check -n __fish_use_subcommand -f -a cnf -d 'Print the rules of a problem as a CNF'
complete -c cudf_check -n __fish_use_subcommand -f -a refute -d 'Check a proof that a problem has no solution, or no better one'
complete -c cudf_check -n __fish_use_subcommand -f -a help -d 'Print help'
complete -c cudf_check -n __fish_use_subcommand -s V -l version -d 'Print the version'
complete -c cudf_check -n 'not __fish_seen_subcommand_from help' -s h -l help -d 'Print help'
complete -c cudf_check -n '__fish_seen_subcommand_from help' -f
complete -c cudf_check -n '__fish_seen_subcommand_from help; and test (count (commandline -opc)) -eq 2' -a 'lint check score rank cnf refute help'
complete -c cudf_check -n '__fish_seen_subcommand_from lint check score rank cnf refute' -l strict -d 'Also reject four things that the standard forbids'
complete -c cudf_check -n '__fish_seen_subcommand_from lint check refute' -l explain -d 'Add the cause to each line'
complete -c cudf_check -n '__fish_seen_subcommand_from lint check score rank' -s H -l with-filename -d 'Begin lines with FILE:LINE:'
complete -c cudf_check -n '__fish_seen_subcommand_from check' -x -l after -d 'Print only the violations with greater keys'
complete -c cudf_check -n '__fish_seen_subcommand_from check' -x -l limit -d 'Print at most so many violations'
complete -c cudf_check -n '__fish_seen_subcommand_from cnf refute' -l better-than -r -d 'Only solutions better than this one'
# no option that requires a value: fish would offer it without the =
complete -c cudf_check -n '__fish_seen_subcommand_from score rank cnf refute' -f -l criteria -a '(__cudf_check_lists)' -d 'The counts, in their order'
