#!/usr/bin/env bash
# Installs a package in a Debian system that has nothing of this repository, runs the program there and takes it away
# again, and then does the same with the tar file: try_package.sh DEB [TAR], as root, with debootstrap and Debian's
# packages within reach.
set -eu
deb=$(realpath "$1")
tar=$([ $# -lt 2 ] || realpath "$2")
root=$(mktemp -d)
trap 'rm -rf --one-file-system "$root"' EXIT
debootstrap --variant=minbase stable "$root" > "$root.log" || { cat "$root.log"; exit 1; }
rm "$root.log"
inside() { env -i PATH=/usr/sbin:/usr/bin:/sbin:/bin chroot "$root" "$@"; }
# The rules that README shows, by a program and over the receipts beside it.
mines() {
    inside "$1" rules --min 20% --conf 2/3 --form single --header "$2/examples/receipts.csv" > "$root/report"
    printf '7,7/10,7/8,1,bread,milk\n3,1/1,5/4,1,tea,milk\n5,5/7,25/28,1,butter,milk\n' | cmp - "$root/report"
}
cp "$deb" "$root/basket.deb"
inside dpkg --install /basket.deb
inside basket --version
printf '1 2 5\n2 4\n2 3\n' | inside basket items --min 2 | tee "$root/report"
[ "$(cat "$root/report")" = "2 (3)" ]
inside grep -q '<script type="application/octet-stream" id="module">' /usr/share/basket/basket.html
# A system may be set up to leave out documents, except for the copyright file.
inside grep -q '^Format: .*copyright-format/1.0/$' /usr/share/doc/basket/copyright
inside dpkg --purge basket
if inside sh -c 'command -v basket || find /usr/share -name "*basket*" | grep .'; then
    echo "something was left" >&2
    exit 1
fi
echo "installed, run and taken away"
[ -n "$tar" ] || exit 0
tar -xzf "$tar" -C "$root" --transform 's,^[^/]*,unpacked,'
mines /unpacked/bin/basket /unpacked/share/doc/basket
echo "unpacked and run"
