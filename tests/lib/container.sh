# Runs what `make install` installs under systemd, in a container over this system's programs. For sessions.
#
# `installed` installs the program and the units below PREFIX=/opt into root, and makes the folders etc, which is
# /etc/kbfeed in the container, state (/var/lib/kbfeed) and units. `systemd` boots the container and runs its standard
# input there as a unit, with the session's folder as /session, and prints what that prints.

installed() {
  unset MAKEFLAGS MAKELEVEL MFLAGS
  cp "$(command -v kbfeed)" own
  make --no-print-directory -C "$TESTS/.." PROGRAM="$PWD/own" DESTDIR="$PWD/root" PREFIX=/opt install > log
  mkdir -p state/one units/kbfeed-node@.service.d etc/keys
  chmod 755 etc state
  chmod 700 etc/keys
  cp root/opt/lib/systemd/system/* units
  printf '0123456789abcdef\n' > etc/token
  : > etc/wanted
  cat > units/inside.service << 'END'
[Unit]
Requires=dbus.socket
After=dbus.socket
SuccessAction=exit-force
FailureAction=exit-force
[Service]
Type=oneshot
Environment=PATH=/opt/bin:/usr/bin:/usr/sbin
StandardOutput=file:/session/said
StandardError=file:/session/said
ExecStart=/bin/sh /session/inside
END
}

systemd() {
  cat > inside
  : > said
  timeout 60 systemd-nspawn --quiet --register=no --keep-unit --volatile=yes -D / --private-network --machine=kbfeed$$ \
    --bind="$PWD:/session" --bind="$PWD/state:/var/lib/kbfeed" --bind-ro="$PWD/etc:/etc/kbfeed" \
    --bind-ro=/etc/alternatives --bind-ro=/etc/pam.d --bind-ro=/etc/security --bind-ro="$PWD/root/opt:/opt" \
    --bind-ro="$PWD/units:/etc/systemd/system" \
    --bind-ro="$TESTS/../samples/fleet/sysusers.conf:/etc/sysusers.d/kbfeed.conf" \
    --boot systemd.unit=inside.service systemd.firstboot=no > boot 2>&1 < /dev/null || tail -n 4 boot
  cat said
}
