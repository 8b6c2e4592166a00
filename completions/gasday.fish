# Completions of gasday for fish: put this file into a folder of $fish_complete_path.
# Made by tests/make_tables.py of the program's command line: change that, and not this file.

# Whether the command is this one, and no word stands behind it yet.
function __gasday_behind
    set -l words (commandline -opc)
    test (count $words) -eq 2; and contains -- $words[2] $argv
end

# Whether the command is this one, and so many words stand up to here, with the program's name.
function __gasday_at
    set -l words (commandline -opc)
    test (count $words) -eq $argv[2]; and test $words[2] = $argv[1]
end

complete -c gasday -f
complete -c gasday -n '__fish_use_subcommand' -a check -d 'Tells whether a schedule is allowed or best, or that none can be'
complete -c gasday -n '__fish_use_subcommand' -a solve -d 'Tells a best schedule with prices that show it best, or a cut where no schedule is allowed'
complete -c gasday -n '__fish_use_subcommand' -a calendar -d 'Tells the moments of a gas day\'s five cycles, and its hours'
complete -c gasday -n '__fish_use_subcommand' -a day -d 'Makes the calls of a whole gas day, and tells what each gives'
complete -c gasday -n '__fish_use_subcommand' -a office -d 'Runs an office of several gas days, with sessions and desks in threads, and reconciles all receipts'
complete -c gasday -n '__fish_use_subcommand' -a audit -d 'Checks each posting of an archive against its own question, or makes all calls of a book\'s file again'
complete -c gasday -n '__fish_use_subcommand' -a text -d 'Prints the text of a gas day that a book\'s file keeps'
complete -c gasday -n '__fish_use_subcommand' -a question -d 'Prints the frozen question of a round of a gas day, with what came of it'
complete -c gasday -n '__fish_use_subcommand' -a carry -d 'Prints the carry rows of the next gas day'
complete -c gasday -n '__fish_use_subcommand' -a migrate -d 'Brings an archive of version 1 to version 2'
complete -c gasday -n '__fish_use_subcommand' -a help -d 'Print help of a command'
complete -c gasday -n '__gasday_behind help' -a 'check solve calendar day office audit text question carry migrate'
complete -c gasday -n '__gasday_at check 2' -a allowed -d 'each line\'s quantity lies between its floor and its ceiling, each load is within its capacity, and each pool is in balance'
complete -c gasday -n '__gasday_at check 2' -a best -d 'prices show that no allowed schedule is better'
complete -c gasday -n '__gasday_at check 2' -a cut -d 'a set of places, points and pools shows that no schedule is allowed'
complete -c gasday -n '__gasday_at question 3' -a 1 -d 'Timely'
complete -c gasday -n '__gasday_at question 3' -a 2 -d 'Evening'
complete -c gasday -n '__gasday_at question 3' -a 3 -d 'Intraday 1'
complete -c gasday -n '__gasday_at question 3' -a 4 -d 'Intraday 2'
complete -c gasday -n '__gasday_at question 3' -a 5 -d 'Intraday 3'
complete -c gasday -n '__fish_seen_subcommand_from day' -l archive -r -F -d 'keep in FILE what is published'
complete -c gasday -n '__fish_seen_subcommand_from day' -l book -r -F -d 'serve rows as they come, on the book that FILE keeps'
complete -c gasday -n '__fish_seen_subcommand_from day office' -l strict -d 'end with 1 where a call was refused or too late, or a cycle declared impossible'
complete -c gasday -n '__fish_seen_subcommand_from day audit text question carry migrate' -l wait -x -d 'wait so long for FILE where another process has it'
complete -c gasday -n '__fish_seen_subcommand_from audit' -l all -d 'tell of each posting of an archive, whether it is sound'
complete -c gasday -n '__gasday_behind audit text question carry migrate' -F
complete -c gasday -n '__fish_seen_subcommand_from check solve calendar day office' -F
complete -c gasday -n '__fish_use_subcommand' -l help -d 'Print help'
complete -c gasday -n '__fish_use_subcommand' -l version -d 'Print the version'
complete -c gasday -n '__gasday_behind check solve calendar day office audit text question carry migrate' -l help -d 'Print help'
