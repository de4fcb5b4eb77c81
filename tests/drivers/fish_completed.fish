# fish_completed.fish FILE: prints each line of standard input with everything that fish offers at its end, by the
# completions of FILE.
source $argv[1]
while read -l line
    set -l begun (string match -r '[^ ]*$' -- $line)
    set -l offered (complete -C $line | string replace -r '\t.*' '' | sort)
    test (count $offered) -gt 0; or set offered $begun
    echo (string trim -r -- (string replace -r '[^ ]*$' '' -- $line)"$offered")
end
