# Completion of kbfeed-collect for fish.
complete -c kbfeed-collect -f
complete -c kbfeed-collect -s h -l help -d 'Prints help'
complete -c kbfeed-collect -r -F -l config -d 'The sources'
complete -c kbfeed-collect -x -l only -d 'Visits the source of this package alone'
complete -c kbfeed-collect -x -l accept -d 'Publishes its list whatever bounds it passes'
complete -c kbfeed-collect -x -l withdraw -d 'Publishes a list without rows for a package that has no source'
complete -c kbfeed-collect -x -l rollback -d 'Publishes the release before the newest under the next free day'
complete -c kbfeed-collect -x -l to -d 'The day of the release to go back to'
complete -c kbfeed-collect -l pin -d 'Publishes nothing of the source until it is unpinned'
complete -c kbfeed-collect -x -l unpin -d 'Publishes the lists of the source again'
complete -c kbfeed-collect -l dry-run -d 'Publishes nothing, and prints what would be published'
complete -c kbfeed-collect -l check -d 'Reads the configuration, keys and maps, and prints ok'
complete -c kbfeed-collect -l json -d 'Prints a JSON object in place of the table'
