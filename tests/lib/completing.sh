# For sessions of completions. Each defines `offered LINE..`, which prints each line with everything that its shell
# offers at its end. `all_offers` prints the offered commands, and the options of each, as program_options.py does.
all_offers() {
  # shellcheck disable=SC2046 # the words apart
  set -- $(offered 'kbfeed ')
  shift
  printf 'kbfeed %s\n' "$@" > offers
  for command in "$@"; do shift; set -- "$@" "kbfeed $command -"; done
  offered 'kbfeed -' "$@" | awk '{
    line = $1
    for (i = 2; i <= NF; i++) if ($i ~ /^-./) print line, $i; else line = line " " $i
  }' >> offers
  sort offers
}

# `compared` prints after - what the program has and the shell does not offer, and after + what else it offers.
compared() {
  python3 "$TESTS/drivers/program_options.py" help offers > has
  all_offers | diff has - | sed -n 's/^</-/p; s/^>/+/p'
}
