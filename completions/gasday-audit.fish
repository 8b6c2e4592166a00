# Completions of gasday-audit for fish: put this file into a folder of $fish_complete_path.
# Made by tests/tool_pages.py of what gasday-audit --help tells: change that, and not this file.

complete -c gasday-audit -l help -d 'show this help and exit'
