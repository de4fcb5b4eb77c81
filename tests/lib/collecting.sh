# Vendors for sessions of kbfeed-collect, beside fetching.sh, whose `ended` ends them. `certified NAME [NAMES]` makes a
# certificate, by default for 127.0.0.1 and localhost. `vendors NAME` starts vendors.py with a certificate over the
# folder vendor, and sets FIRST, OTHER, PLAIN and VENDORS. Each request is in first.log, other.log or plain.log.
certified() {
  name=$1; shift
  openssl req -x509 -newkey rsa:2048 -nodes -subj "/CN=$name" -keyout "$name.key" -out "$name.pem" \
    -addext "${1:-subjectAltName=IP:127.0.0.1,DNS:localhost}" -days 2 2> /dev/null
}

vendors() {
  : > vendors
  timeout 600 python3 "$TESTS/drivers/vendors.py" vendor "$1" > vendors & VENDORS=$!
  filled vendors && read -r FIRST OTHER PLAIN < vendors
}

begin_vendors() {
  mkdir -p vendor keys; echo S3cret/key+of=this > vendor/key; cp vendor/key keys/acme
  certified vendor; export SSL_CERT_FILE="$PWD/vendor.pem"
  vendors vendor; sources
}

# `sources` begins the configuration, and `source PACKAGE URL [LINE..]` adds a source.
sources() { echo "folder = \"$PWD/lists\"" > sources.toml; }

source() {
  printf '\n[[source]]\npackage = "%s"\nurl = "%s"\n' "$1" "$2" >> sources.toml
  shift 2
  for line in "$@"; do echo "$line" >> sources.toml; done
}

# `on DAY WORD..` runs kbfeed-collect as on a day of 2026. Ports and the folder of the session are not printed.
on() {
  day=2026-$1; shift
  /usr/bin/python3 "$TESTS/drivers/collect_on.py" "$day" --config sources.toml "$@" > said 2>&1; at=$?
  sed -E "s|$PWD/||g; s/(127.0.0.1|localhost):[0-9]+/\1:PORT/g; s/ +$//" said
  return $at
}
