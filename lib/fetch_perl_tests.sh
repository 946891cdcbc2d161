#!/bin/sh
# Fetches perl's own tests of IPC::SysV into out/perl-tests, from the source package of Debian 12, whose signature apt-get verifies. It leaves the
# settings and the lists of the machine's apt as they are.
set -eu

top=$(CDPATH='' cd -- "$(dirname -- "$0")/.." && pwd)
folder=$top/out/perl-source
tests=$top/out/perl-tests
keys=/usr/share/keyrings/debian-archive-keyring.gpg
part=cpan/IPC-SysV/t

# apt WORD..: apt-get with a state of its own, as whoever runs this.
apt() {
    apt-get -q -o Dir::Etc::SourceList="$folder/sources" -o Dir::Etc::SourceParts=- -o Dir::State="$folder/state" \
        -o Dir::State::Lists="$folder/lists" -o Dir::Cache="$folder/cache" -o Dir::State::status=/dev/null \
        -o APT::Sandbox::User= -o Debug::NoLocking=true "$@"
}

if [ -d "$tests" ]; then
    exit 0
fi
command -v apt-get >/dev/null || { echo 'fetch_perl_tests: there is no apt-get' >&2 && exit 1; }
rm -rf "$folder"
mkdir -p "$folder/state" "$folder/lists/partial" "$folder/cache/archives/partial"
printf 'deb-src [signed-by=%s] http://deb.debian.org/debian bookworm main\n' "$keys" >"$folder/sources"
(apt update && cd "$folder" && apt source --download-only perl) >"$folder/log" 2>&1 || {
    tail -n 5 "$folder/log" >&2
    exit 1
}
tar -x -f "$folder"/perl_*.orig.tar.xz -C "$folder" --wildcards "*/$part"
mv "$folder"/perl-*/"$part" "$tests"
rm -rf "$folder"
