# nginx with the sample configuration for a session, beside fetching.sh: `fronted SCRIPT` starts it with
# samples/fleet/nginx.conf as the sed script edits it, and waits until it listens. FRONT is the address for readers, WAY
# the one that leads to a knowledge base, SHELF the one of the folder lists, and NGINX the process. Its files are in the
# folder nginx. Nothing is at the address of lists.example if the script does not edit it.
fronted() {
  mkdir -p nginx
  for PORT in $(free_ports); do
    FRONT=127.0.0.1:$PORT WAY=127.0.0.1:$((PORT + 1000)) SHELF=127.0.0.1:$((PORT + 2000))
    nginx_conf | sed "$1
      s|1\(]*\):8080|1\1:$PORT|; s|1\(]*\):8090|1\1:$((PORT + 1000))|
      s|1\(]*\):8091|1\1:$((PORT + 2000))|; s|/var/lib/kbfeed-lists|$PWD/lists|
      s|/var/cache/nginx|$PWD/nginx|; s|/var/log/nginx|$PWD/nginx|; s|lists.example/|127.0.0.1:9/|" > nginx/conf
    rm -f nginx/pid
    timeout 600 nginx -p nginx -c conf -e errors -g 'daemon off;' 2> faults & NGINX=$!
    begun $NGINX nginx/pid && return
  done
  cat faults
  return 1
}

nginx_conf() {
  echo 'pid pid; master_process off; events {} http { access_log off;'
  for kind in client_body proxy fastcgi uwsgi scgi; do echo "${kind}_temp_path $kind;"; done
  if has_ipv6; then unwanted='^$'; else unwanted='\[::1]'; fi
  grep -v "$unwanted" "$TESTS/../samples/fleet/nginx.conf"
  echo '}'
}

has_ipv6() { grep -q '^00000000000000000000000000000001 ' /proc/net/if_inet6 2> /dev/null; }
