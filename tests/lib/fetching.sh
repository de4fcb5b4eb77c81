# For sessions that fetch. `ended` ends a server that they started; it also ends after ten minutes.

# Waits until a file has a line, or a number of lines, for half a minute at most.
filled() {
  touch "$1"
  for turn in $(seq 600); do [ "$(wc -l < "$1")" -ge "${2:-1}" ] && return; sleep 0.05; done
  echo "$1 stays short"; return 1
}

ended() { kill "$1"; wait "$1" 2> /dev/null; true; }

# `odd` starts odd_server.py over the folder lists, and sets ADDR and ODD; its requests are in the file asked.
# `mode METHOD KIND` sets how it replies from then on.
odd() {
  mode plain; : > port; : > asked
  timeout 600 python3 "$TESTS/drivers/odd_server.py" lists mode asked > port & ODD=$!
  filled port && ADDR=$(cat port)
}

mode() { echo "$*" > mode.new; mv mode.new mode; }

# `same DB FILE QUERY` compares the answer of a node with that of the file, and prints how many rows match.
same() {
  package=$(basename "$2" | sed 's/_[0-9-]*\.txt$//')
  kbfeed answer "$2" "$3" > of_file
  kbfeed ask "$1" "$package" "$3" | cmp - of_file && head -n 1 of_file
}

# Ports that may be free. `begun PROCESS FILE` waits until the process has written the file, or has ended.
free_ports() { seq $((20000 + $$ % 20000)) $((20020 + $$ % 20000)); }

begun() {
  for turn in $(seq 600); do
    [ -s "$2" ] && return
    kill -0 "$1" 2> /dev/null || return 1
    sleep 0.05
  done
  return 1
}

# A release of about 3 MiB: `big_release` makes lists/$J, and the file replayed with the answer of a node of `kbfeed
# replay` that got it in slices. `big_fetched` fetches it from ADDR, and compares the answer of the node.
BIG='rft.issn=00000345&rft.date=1901'

big_release() {
  mkdir lists
  python3 "$TESTS/drivers/many_rows.py" 54000 6000 > lists/$J
  size=$(wc -c < lists/$J)
  {
    printf '%s\n' 'nodes 1' "publish-file $J lists/$J" "offer 1 $J"
    for first in $(seq 0 1048576 $((size - 1))); do
      rest=$((size - first))
      echo "deliver 1 $J $first $((rest < 1048576 ? rest : 1048576))"
    done
    echo "ask 1 Acme_Global_All $BIG"
  } | kbfeed replay | sed '1,/^activated$/d' > replayed
}

big_fetched() {
  kbfeed fetch node.db $ADDR $J > lines; status=$?
  head -n 2 lines; tail -n 1 lines
  kbfeed ask node.db Acme_Global_All "$BIG" | cmp - replayed && same node.db lists/$J "$BIG"
  return $status
}
