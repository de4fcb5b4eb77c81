# Proxies with the samples for a session, beside fetching.sh. `nodes` starts two servers in the place of nodes, and sets
# ONE and TWO to their ports and NODES to the processes. `haproxied` and `varnished` start a proxy in front of them, and
# set FRONT and PROXY.
nodes() {
  NODES=
  for name in one two; do
    python3 "$TESTS/drivers/slow_node.py" > $name.port 2> faults & NODES="$NODES $!"
    filled $name.port
  done
  ONE=$(cat one.port) TWO=$(cat two.port)
}

haproxied() {
  for PORT in $(free_ports); do
    FRONT=127.0.0.1:$PORT
    sed "/:8083/d; s/:8081/:$ONE/; s/:8082/:$TWO/; s/:8080/:$PORT/; s/abns@/&$PORT-/" \
      "$TESTS/../samples/fleet/haproxy.cfg" > haproxy.cfg
    timeout 600 haproxy -f haproxy.cfg > faults 2>&1 & PROXY=$!
    answers && return
  done
  cat faults
  return 1
}

varnished() {
  sed "/three/d; s/\"8081\"/\"$ONE\"/; s/\"8082\"/\"$TWO\"/" "$TESTS/../samples/fleet/varnish.vcl" > front.vcl
  for PORT in $(free_ports); do
    FRONT=127.0.0.1:$PORT
    timeout 600 varnishd -F -n "$PWD/varnish" -a "$FRONT" -f "$PWD/front.vcl" -s malloc,16m > faults 2>&1 & PROXY=$!
    answers && return
  done
  cat faults
  return 1
}

# Waits until the proxy answers, or ends.
answers() {
  for turn in $(seq 300); do
    curl -sS -o body "http://$FRONT/" 2> /dev/null && return
    kill -0 $PROXY 2> /dev/null || return
    sleep 0.1
  done
  return 1
}
