#!/bin/sh
# Installs the package that stands beside it, as an administrator does.
set -eu
cd "$(dirname "$0")"

if [ "$(id -u)" != 0 ]; then
    echo "install.sh: this needs root" >&2
    exit 1
fi
echo "I am $(id -un) of $(id -gn)."

# Tells the mode, the owner and the group of each.
tell() {
    stat -c "%a %U %G %n" "$@"
}

mkdir -p /usr/lib/greet /var/log
install -o root -g root -m 755 greet /usr/bin/greet
tar -x -f words.tar -C /usr/lib/greet
ln -sf /usr/lib/greet/english /usr/lib/greet/words
chown -R root:root /usr/lib/greet
chmod 600 /usr/lib/greet/secret
echo "installed by $(id -un)" > /var/log/greet
tell /usr/bin/greet /usr/lib/greet /usr/lib/greet/* /var/log/greet

# What only root may read is read, and what it installed runs.
wc -c < /usr/lib/greet/secret
greet world
