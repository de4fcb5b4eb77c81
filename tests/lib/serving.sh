# A server for a session: `serving WORD..` starts `kbfeed serve WORD..` on a free port, waits until it listens, and sets
# ADDR and SERVER; its lines are in the file log. `served` waits until it ends, and prints them.
serving() {
  folder=$1; shift
  for PORT in $(seq $((20000 + $$ % 20000)) $((20020 + $$ % 20000))); do
    ADDR=127.0.0.1:$PORT
    : > log
    kbfeed serve "$folder" "$ADDR" "$@" > log 2> faults & SERVER=$!
    until [ -s log ] || ! kill -0 $SERVER 2> /dev/null; do sleep 0.05; done
    [ -s log ] && return
    wait $SERVER
  done
  cat faults
  return 1
}

served() { wait $SERVER; status=$?; cat log faults; return $status; }

# Sends the bytes of standard input, ends its side, and prints the reply without its carriage returns.
sent() { python3 "$TESTS/drivers/raw_client.py" "$ADDR" | tr -d '\r'; }

# A node for a session, over the database node.db: `answering WORD..` starts `kbfeed node node.db WORD..` on a free
# port, waits until it listens, and sets ADDR and NODE; its log is in the file access. `ended` kills it.
answering() {
  for PORT in $(seq $((20000 + $$ % 20000)) $((20020 + $$ % 20000))); do
    ADDR=127.0.0.1:$PORT
    : > access
    kbfeed node node.db "$ADDR" "$@" > access 2> faults & NODE=$!
    until [ -s access ] || ! kill -0 $NODE 2> /dev/null; do sleep 0.05; done
    [ -s access ] && return
    wait $NODE
  done
  cat faults
  return 1
}

# Waits until a node with an active release answers readers: the check of large lists takes it a while.
ready() { until curl -sSf "http://$ADDR/health/ready" > ready 2>&1; do sleep 0.05; done; }

# Waits until the log of a node has N requests: a client has its reply before the line is written.
logged() { until [ "$(wc -l < access)" -gt "$1" ]; do sleep 0.05; done; }

ended() { kill -9 $NODE; wait $NODE 2> /dev/null; true; }
