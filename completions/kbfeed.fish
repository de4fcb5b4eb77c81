# Completion of kbfeed for fish.

# The command of the line, and how many words are behind it before the cursor, as fetch/1.
function __kbfeed_place
    set -l words
    set -l has_options yes
    set -l is_value no
    for word in (commandline -opc)[2..]
        if test $is_value = yes
            set is_value no
        else if test $has_options = no
            set -a words $word
        else
            switch $word
                case --
                    set has_options no
                case --name --count --timeout --idle --max-age --metrics --log-queries --piece --fetch-timeout --clients --from --token \
                        --site --sites --wanted --max-removed --max-changed --db --scholar
                    set is_value yes
                case '-?*'
                case '*'
                    set -a words $word
            end
        end
    end
    echo "$words[1]/"(count $words[2..])
end

function __kbfeed_at
    for place in $argv
        string match -q -- $place (__kbfeed_place); and return
    end
    return 1
end

complete -c kbfeed -f
set -l is_command '__kbfeed_at /0 help/0'
complete -c kbfeed -n $is_command -a replay -d 'Replays a script of published files and nodes'
complete -c kbfeed -n $is_command -a check -d 'Checks holdings lists'
complete -c kbfeed -n $is_command -a diff -d 'Prints what a new holdings list changes'
complete -c kbfeed -n $is_command -a answer -d 'Answers a query from a holdings list'
complete -c kbfeed -n $is_command -a openurl -d 'Prints how an OpenURL query is understood'
complete -c kbfeed -n $is_command -a serve -d 'Serves a folder of releases over HTTP'
complete -c kbfeed -n $is_command -a node -d 'Answers readers over HTTP from the database of a node'
complete -c kbfeed -n $is_command -a fetch -d 'Fetches a release into the database of a node'
complete -c kbfeed -n $is_command -a ask -d 'Answers a query from the database of a node'
complete -c kbfeed -n $is_command -a export -d 'Prints the holdings of a node for Google Scholar'
complete -c kbfeed -n $is_command -a status -d 'Prints the releases that a node has recorded'
complete -c kbfeed -n $is_command -a why -d 'Prints why a release of a node is broken'
complete -c kbfeed -n $is_command -a help -d 'Prints the help of a command'

set -l has_options 'not __kbfeed_at "help/*"'
complete -c kbfeed -n $has_options -s h -l help -d 'Prints help'
complete -c kbfeed -n $has_options -s v -l verbose -d 'Prints what a fault is about, and its cause'
complete -c kbfeed -n '__kbfeed_at /0' -s V -l version -d 'Prints version'

set -l check '__kbfeed_at "check/*"'
complete -c kbfeed -n $check -F
complete -c kbfeed -n $check -x -l name -d 'The release name of standard input'
complete -c kbfeed -n $check -l strict -d 'Exits with 1 if a record is skipped'
complete -c kbfeed -n $check -l summary -d 'Prints one line for each file'
complete -c kbfeed -n $check -l explain -d 'Prints the line, the title and the reason of each skipped record'
complete -c kbfeed -n $check -l json -d 'Prints a JSON object for each file'
complete -c kbfeed -n $check -l all -d 'Lists all skipped records in JSON, and not only the first 10,000'

set -l diff '__kbfeed_at "diff/*"'
complete -c kbfeed -n $diff -r -F -l db -d 'The database of a node, whose active release is the old list'
complete -c kbfeed -n $diff -l summary -d 'Prints the counts alone'
complete -c kbfeed -n $diff -l json -d 'Prints a JSON object'
complete -c kbfeed -n $diff -x -l max-removed -d 'The most rows that may be removed, in percent of the old list'
complete -c kbfeed -n $diff -x -l max-changed -d 'The most rows that may be changed, in percent of the old list'

complete -c kbfeed -n '__kbfeed_at diff/0 diff/1 answer/0 node/0 fetch/0 ask/0 status/0 why/0' -F
complete -c kbfeed -n '__kbfeed_at "openurl/*"' -l json -d 'Prints a JSON object'
complete -c kbfeed -n '__kbfeed_at serve/0' -a '(__fish_complete_directories)'
complete -c kbfeed -n '__kbfeed_at "serve/*"' -x -l count -d 'How many connections to serve'
complete -c kbfeed -n '__kbfeed_at "node/*"' -l check -d 'Opens all that the node needs, prints ok, and ends'
complete -c kbfeed -n '__kbfeed_at "node/*"' -x -l from -d 'The server to fetch releases from'
complete -c kbfeed -n '__kbfeed_at "node/*"' -r -F -l token -d 'The file with the token for a fetch or a reload'
complete -c kbfeed -n '__kbfeed_at "node/*"' -r -F -l site -d 'The site file of the library'
complete -c kbfeed -n '__kbfeed_at "node/*"' -x -l sites -a '(__fish_complete_directories)' -d 'The folder with the site file of each library'
complete -c kbfeed -n '__kbfeed_at "node/*"' -r -F -l wanted -d 'The file with the packages that readers wait for'
complete -c kbfeed -n '__kbfeed_at "node/*"' -x -l fetch-timeout -d 'Seconds that a fetch may take'
complete -c kbfeed -n '__kbfeed_at "node/*"' -l any-type -d 'Fetch lists of any Content-Type'
complete -c kbfeed -n '__kbfeed_at "node/*"' -x -l max-shrink -d 'The most rows that a new list may lack, in percent of the active one'
complete -c kbfeed -n '__kbfeed_at "node/*"' -x -l clients -d 'The most connections at a time'
complete -c kbfeed -n '__kbfeed_at "node/*" "fetch/*"' -x -l piece -d 'The most bytes in one request'
complete -c kbfeed -n '__kbfeed_at "node/*"' -x -l idle -d 'Seconds that a connection may wait between two requests'
complete -c kbfeed -n '__kbfeed_at "node/*"' -x -l max-age -d 'Seconds that a cache may use an answer without asking again'
complete -c kbfeed -n '__kbfeed_at "node/*"' -x -l metrics -a 'local any' -d 'Which clients may get the metrics and the health'
complete -c kbfeed -n '__kbfeed_at "node/*"' -l metrics-packages -d 'Has the metrics name each package, even of more than 256'
complete -c kbfeed -n '__kbfeed_at "node/*"' -l forwarded -d 'Logs the address in X-Forwarded-For of a client on this machine'
complete -c kbfeed -n '__kbfeed_at "node/*"' -x -l log-queries -a 'yes no' -d 'Whether the log has the queries of readers'
complete -c kbfeed -n '__kbfeed_at "export/*"' -r -F -l scholar -d 'The database of the node, for library links of Google Scholar'
complete -c kbfeed -n '__kbfeed_at "serve/*" "node/*" "fetch/*"' -x -l timeout -d 'Seconds that a connection may take'
