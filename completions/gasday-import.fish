# Completions of gasday-import for fish: put this file into a folder of $fish_complete_path.
# Made by tests/tool_pages.py of what gasday-import --help tells: change that, and not this file.

complete -c gasday-import -s h -l help -d 'show this help message and exit'
complete -c gasday-import -l version -d 'print the version'
complete -c gasday-import -l strict -d 'refuse in place of repairing, and where there is a doubt'
complete -c gasday-import -l each -d 'print each repair with its line'
complete -c gasday-import -l by-time -d 'merge the calls of all files by their moments, each file\'s own in its order'
complete -c gasday-import -l names -r -F -d 'a table of names for what is none; new ones are added to it'
complete -c gasday-import -l sheet -x -d 'only this sheet of workbooks; may be given several times'
complete -c gasday-import -l gasday -r -F -d 'asked for the lines of confirmations by names; else the built one, else the one on the PATH'
complete -c gasday-import -l output -r -F -d 'write to FILE in place of standard output'
