#!/usr/bin/env bash
# fleet_made.sh makes the files that fleet.sh serves. It runs in the Debian of fleet.sh, in the folder /www,
# which has the libraries. It makes four signed versions of a registry, in the form that each way needs. The
# folder `other` gets the last version, signed with another key. /try/sign has the commands that make and
# sign the sum of `image`.
set -eu
cd /www
sectors=8192

# lines WORD FILE..: prints lines with the bytes of these files.
lines() {
    local file
    for file in "${@:2}"; do
        printf '%s %s\n' "$1" "$(od -An -v -tx1 "$file" | tr -d ' \n')"
    done
}

# update FILE..: replaces libraries by these files, and binds the program.
update() {
    lines replace "$@"
    lines 'bind 0x10000' program
    echo commit
}

# keys NAME: makes keys of gpg and of RAUC.
keys() {
    export GNUPGHOME=/www/$1
    mkdir -m 700 "$GNUPGHOME"
    gpg -q --batch --pinentry-mode loopback --passphrase '' --quick-gen-key "$1" ed25519 sign never
    gpg -q --export "$1" > "$1.gpg"
    openssl req -x509 -newkey rsa:2048 -nodes -subj "/CN=$1" -days 3650 -keyout "$1.key" -out "$1.cert"
} 2> /dev/null

# as NAME FOLDER: signs the files of FOLDER with the key NAME: the sum, a bundle of RAUC, casync's
# index.
as() {
    export GNUPGHOME=/www/$1
    (
        cd "$2"
        . /try/sign
        mkdir bundled
        cp image bundled/image.img
        printf '%s\n' '[update]' compatible=device '[bundle]' format=verity '[image.registry]' \
            filename=image.img > bundled/manifest.raucm
        rauc bundle --cert="/www/$1.cert" --key="/www/$1.key" bundled bundle
        rm -r bundled
        ln -s "$(realpath --relative-to=. /www/default.castr)" default.castr
        casync make --store=default.castr image.caibx image
    ) > log 2>&1 || { cat log >&2; exit 1; }
}

# list NAME FOLDER LINES SUM: makes the list for the registry of that sum.
list() {
    local name
    export GNUPGHOME=/www/$1
    name=$(cut -c 1-64 "$4")
    mkdir -p "$2"
    cp "$3" "$2/$name"
    cat "$4" "$3" | gpg -q --batch --detach-sign > "$2/$name.sig"
}

# repository NAME FOLDER NUMBER..: makes a repository of OSTree, with these versions.
repository() {
    local number key
    export GNUPGHOME=/www/$1
    key=$(gpg --list-keys --with-colons | sed -n 's/^fpr:*\([^:]*\):/\1/p' | head -n 1)
    ostree --repo="$2" init --mode=archive
    for number in "${@:3}"; do
        mkdir -p tree
        cp $number/image tree/disk
        ostree --repo="$2" commit --branch=v$number --gpg-sign="$key" --tree=dir=tree
    done
} > log 2>&1

keys right
keys wrong
mkdir default.castr 1 2 3 4 other other/4 lost
lines install libraries/{1..100} > all
rlibreg format 1/image $sectors > log
rlibreg script 1/image < all > log
as right 1
for number in 2 3 4; do
    update libraries/${number}00 > lines-$number
    cp $((number - 1))/image $number/image
    rlibreg-tool update $number/image < lines-$number > log
    as right $number
    list right lists lines-$number $((number - 1))/sum
done
update libraries/{20,30,40} > lines-1
list right lists lines-1 4/sum
cp 4/image other/4/image
as wrong other/4
list wrong other/lists lines-4 3/sum
{ echo remove libl7.so && cat lines-4; } > lines-lost
list right lost/lists lines-lost 3/sum
repository right ostree 1 2 3 4
for number in 3 1; do ostree --repo=ostree static-delta generate --min-fallback-size=64 \
    --from=v$number --to=v4; done > log
ostree --repo=ostree summary -u
repository wrong other/ostree 4
for name in right wrong; do GNUPGHOME=/www/$name gpgconf --kill all; done
cp right.gpg /etc/rlibreg/keys.gpg
cp right.cert /etc/rauc/keys.pem
for number in 1 2 3 4; do cp $number/sum /try/sum-$number; done
cp 1/image /try/image-1
cp 3/image /try/image-3
