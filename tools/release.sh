#!/usr/bin/env bash
# Makes the release, for users who have neither the toolchain nor the source tree: target/release/wherryoar-VERSION-x86_64.tar.gz
# with its checksum beside it. Whatever this machine is, what is in it is for x86-64. Made twice of one commit it is the same,
# byte for byte: order, owner and times are fixed, the times to the commit's.
set -eu
cd "$(dirname "$0")/.."
. tools/machine.sh
need install coreutils && need gzip gzip || exit 2
folder=target/release
stage=$folder/stage

# Library, header and pkg-config file, by the installer.
rm -rf "$folder"
mkdir -p "$stage"
tools/install.sh "$stage"
[ -x target/bin/report ] || build_report
name=wherryoar-$(sed -n 's/^Version: //p' "$stage/lib/pkgconfig/wherryoar.pc")-x86_64

# The command: a script, its modules, and a C program that runs on every x86-64 machine since it needs no library there.
mkdir -p "$stage/bin" "$stage/libexec/wherryoar"
install -m 755 command/wherryoar "$stage/bin/wherryoar"
install -m 644 command/*.py "$stage/libexec/wherryoar"
$CC_ARCHIVE -static -std=c99 -O2 -s -Iinclude -o "$stage/libexec/wherryoar/draw" command/draw.c target/staticlib/libdoor.a
install -m 755 target/bin/report "$stage/bin/wherryoar-report"

# What is read: documents, and examples with what they print; show.out is what 'wherryoar show' prints of left_edge.txt. The
# script left_edge.py calls one of the source tree, and stays there.
mkdir -p "$stage/docs" "$stage/examples"
install -m 644 README.md "$stage"
install -m 644 docs/*.md "$stage/docs"
install -m 644 examples/*.[ch] examples/{draw,lanes,ten_bit,show}.out examples/{lanes,ten_bit,left_edge}.txt "$stage/examples"
cat >"$stage/LICENCE-NOT-CHOSEN.txt" <<END
The owner of Wherryoar has not yet chosen a licence. Until that is done this archive grants no right to use, copy, change or
pass on what is in it, beyond what the owner has agreed with you.
END

(cd "$stage" && find . -type f -printf '%P\0' | LC_ALL=C sort -z | xargs -0 sha256sum >"../SHA256SUMS")
mv "$folder/SHA256SUMS" "$stage"
tar --create --directory "$stage" --transform "s,^\.,$name," --sort=name --format=gnu --owner=0 --group=0 --numeric-owner \
    --mode=u=rwX,go=rX --mtime="@$(git log -1 --format=%ct)" . | gzip -9 -n >"$folder/$name.tar.gz"
(cd "$folder" && sha256sum "$name.tar.gz" >"$name.tar.gz.sha256")
rm -rf "$stage"
echo "$folder/$name.tar.gz"
