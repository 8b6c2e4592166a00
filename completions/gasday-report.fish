# Completions of gasday-report for fish: put this file into a folder of $fish_complete_path.
# Made by tests/tool_pages.py of what gasday-report --help tells: change that, and not this file.

complete -c gasday-report -s h -l help -d 'show this help message and exit'
complete -c gasday-report -l version -d 'print the version'
complete -c gasday-report -l events -r -F -d 'a text for gasday day'
complete -c gasday-report -l replies -r -F -d 'what gasday day printed for it'
complete -c gasday-report -l book -r -F -d 'the file of a book, made by gasday day --book, in place of both'
complete -c gasday-report -l archive -r -F -d 'an archive with the postings of the gas day; or with --posting'
complete -c gasday-report -l posting -x -d 'one posting of the archive, without its day'
complete -c gasday-report -l notices -x -a '(__fish_complete_directories)' -d 'writes for each cycle a notice to each shipper and each operator, and a public page'
complete -c gasday-report -l gasday -r -F -d 'else the built one, else the one on the PATH'
complete -c gasday-report -l certificate-alone -d 'checks an answer with certificate.py alone, and says so; no program is asked'
complete -c gasday-report -l format -x -a 'text json csv html' -d 'else text'
complete -c gasday-report -l arithmetic -d 'text: shows prices and tenths too'
complete -c gasday-report -l table -x -a 'lines elements sharing calls cycle-lines cycle-elements cycle-sharing' -d 'of csv; else lines, or calls of a day alone'
complete -c gasday-report -l local -x -d 'shows moments by this zone\'s clock, else UTC'
