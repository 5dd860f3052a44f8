#!/usr/bin/env bash
# Fetches the sources of nalgebra, arrayvec and what they need out of Debian's packages into
# vendor/ beside this script, which cargo takes as a directory source (.cargo/config.toml).
#
#   fetch-nalgebra.sh [trixie | sid]      nalgebra 0.33.2 (trixie, the default) or 0.35.0 (sid)
#
# Nothing is installed. The mirror is the one of this machine's apt configuration. Every package
# is checked against the SHA-256 below, which were read from indices that bore Debian's
# signatures. Where a package is gone from the pool (sid moves) the suite's present index decides
# instead, its signature checked where there is a keyring, with a warning.
set -euo pipefail
here=$(cd "$(dirname "$0")" && pwd)
suite=${1:-trixie}

pins='
trixie nalgebra pool/main/r/rust-nalgebra/librust-nalgebra-dev_0.33.2-4_amd64.deb f46e914bb5717ec8bdac50396fed24253b533616a79b0e53c99ed189262e888c
trixie simba pool/main/r/rust-simba/librust-simba-dev_0.9.0-3_amd64.deb ac16f1452543dac29330327e3b2e572f5fff5cf255e1654a89b3fbc74d470523
trixie approx pool/main/r/rust-approx/librust-approx-dev_0.5.1-1_amd64.deb be79460d8e252d238cfd9bb39457c8818ed024f76a9ce9e6399e06de212e94e6
trixie num-complex pool/main/r/rust-num-complex/librust-num-complex-dev_0.4.6-3_amd64.deb f4548cf1981b03a00963d6c64fdd25cb70c4e82847b913225320ede35633548d
trixie num-rational pool/main/r/rust-num-rational/librust-num-rational-dev_0.4.2-1_amd64.deb 030249d92772b0ddfc070a505eed9f6170c95015df88f09341520e478b19552b
trixie num-traits pool/main/r/rust-num-traits/librust-num-traits-dev_0.2.19-2_amd64.deb e591ccaf03084b900a277924e145606e289fcb2c2dffd69fc9c414d0c89cde0c
trixie num-integer pool/main/r/rust-num-integer/librust-num-integer-dev_0.1.46-1+b2_amd64.deb 706f9165b0c472e68ae6361eb9e8f20d76580115181ecf637d632b138a4c3924
trixie num-bigint pool/main/r/rust-num-bigint/librust-num-bigint-dev_0.4.6-1_amd64.deb 5d841e0004767dcd03dd288b69aa053ff42c549fa0e38f2bfd15293b5e8f0a49
trixie typenum pool/main/r/rust-typenum/librust-typenum-dev_1.17.0-3_amd64.deb 4353bd9da5389f693f7c9b20ee81b378858c60e8440280d47ad6fda2b478e472
trixie matrixmultiply pool/main/r/rust-matrixmultiply/librust-matrixmultiply-dev_0.3.9-1_amd64.deb fe70351b77e34b85bcac6eb210aaa19e782d5335c2d07d50d9c0147f2dc3bbf2
trixie rawpointer pool/main/r/rust-rawpointer/librust-rawpointer-dev_0.2.1-1+b2_amd64.deb 29c717868d45e4445b064eae831fc7c5da6545c5ec8d5e8c528d93a5e605ea64
trixie paste pool/main/r/rust-paste/librust-paste-dev_1.0.15-1_amd64.deb 32ac7d779ad351ddfbda6e0578b7caaa549a8d18d962223c32977eaf43925291
trixie autocfg pool/main/r/rust-autocfg/librust-autocfg-dev_1.1.0-1+b2_amd64.deb 4030a14590a15e9b89282510ba79172625e925fc40021aac94fa6e1292ed6deb
trixie arrayvec pool/main/r/rust-arrayvec/librust-arrayvec-dev_0.7.6-1_amd64.deb 53b25bb8e9db5710ee7ff1397185709ed7e53872590d8ed5a33b12ad5a5022f4
trixie safe-arch pool/main/r/rust-safe-arch/librust-safe-arch-dev_0.7.4-2.1_all.deb dec89e1b38f13bd4af914aa15765057e989e01782bcfc400ad0a6209e03ddfd1
trixie wide pool/main/r/rust-wide/librust-wide-dev_0.7.32-3_all.deb bed724aa30ff1cb979fade4228270d76fa105c014ac695fdbc12e9dc3ef11030
trixie bytemuck pool/main/r/rust-bytemuck/librust-bytemuck-dev_1.21.0-1_amd64.deb 40885fc83cecfed569f5db0b6ae21c03d66ab9f186174d8f5c6b54fdc0ee0136
sid nalgebra pool/main/r/rust-nalgebra/librust-nalgebra-dev_0.35.0-2_amd64.deb c75253ae288950dc135ab1787f77b33f6002077b04d56d965545c4477bfc77c0
sid simba pool/main/r/rust-simba/librust-simba-dev_0.10.2-1_amd64.deb b90d73f3a6f64485086931c9d7602c8b89e5541ddd5ef4926872e26b4086eba7
sid approx pool/main/r/rust-approx/librust-approx-dev_0.5.1-2_amd64.deb daf844161afb71557b3cf26303ef24f275bcf74b16813a9935319b3022440302
sid num-complex pool/main/r/rust-num-complex/librust-num-complex-dev_0.4.6-3+b1_amd64.deb c8e4a46378ebcbc3989576e5edfb3405b7d2bd0bccc454c4b45fae1d6ec5cdc5
sid num-rational pool/main/r/rust-num-rational/librust-num-rational-dev_0.4.2-1+b1_amd64.deb 9f0e9d5fc04cf4fce49d116dec9fbaea297d382b07131dc19bfa445a49f731f2
sid num-traits pool/main/r/rust-num-traits/librust-num-traits-dev_0.2.19-2+b1_amd64.deb 66751f38bdbdf29cce59eba666e83f9e2a009be3da6401cff9abe03c1ce6f6b4
sid num-integer pool/main/r/rust-num-integer/librust-num-integer-dev_0.1.47-1_amd64.deb 0a5231b46618598dd217124549a98610edb82c8f84a8edcf6d10b02d53fb1630
sid num-bigint-0.4 pool/main/r/rust-num-bigint-0.4/librust-num-bigint-0.4-dev_0.4.8-1_amd64.deb a2d7207547fb4421bdb48d1fbe24c8414d1ca45596a20fd620679d84d6d21093
sid typenum pool/main/r/rust-typenum/librust-typenum-dev_1.20.1-1_amd64.deb 7f56eaadb86baa5357e93cbc9c96c000c2887cb611f6b33085b42151d1ef5f01
sid matrixmultiply pool/main/r/rust-matrixmultiply/librust-matrixmultiply-dev_0.3.11-1_amd64.deb 34feb3389aa3209e5939e890113b2b7474519d3f49e15875d38f67e8823699ff
sid rawpointer pool/main/r/rust-rawpointer/librust-rawpointer-dev_0.2.1-1+b2_amd64.deb 29c717868d45e4445b064eae831fc7c5da6545c5ec8d5e8c528d93a5e605ea64
sid paste pool/main/r/rust-paste/librust-paste-dev_1.0.15-1+b1_amd64.deb 5c0e23864c1ca5f4b1b262fe17d9dac74c6ba9411eb236b0d6222d2a6641c078
sid autocfg pool/main/r/rust-autocfg/librust-autocfg-dev_1.5.1-1_amd64.deb a3c9f0123b7b7ae61ef872df016f34d38d107bc3bde7f76471f0fece6eb0e98f
sid arrayvec pool/main/r/rust-arrayvec/librust-arrayvec-dev_0.7.8-1_amd64.deb bcf6332d3ee23862c6185ba88d2b5a0151114fce846875da4ead096481a72305
sid safe-arch pool/main/r/rust-safe-arch/librust-safe-arch-dev_1.2.0+ds-1_all.deb 89c478e38ff302f7796c4a29d9b37d1fe3f3c3e9b9be31c0cec0593727d7e9be
sid wide pool/main/r/rust-wide/librust-wide-dev_1.7.1+ds-1_all.deb e97179266f3acff33a7094e5ca587e1e8e37752c4439d207e6a068b2d0bc7a6c
sid bytemuck pool/main/r/rust-bytemuck/librust-bytemuck-dev_1.25.2-1_amd64.deb ede635cc28625ef24bf4ee650a5847489c8cad7a6f715b467ac564800ada9b1d
'
uri=$("$here/mirror.sh")
work=$(mktemp -d)
trap 'rm -rf "$work"' EXIT
get() { curl -sSf --retry 3 -o "$2" "$uri/$1" 2>"$work/err"; }

index() { # SUITE: fetch and check the index once
  [ -f "$work/$1.index" ] && return
  get "dists/$1/InRelease" "$work/$1.rel"
  local ring=/usr/share/keyrings/debian-archive-keyring.gpg
  if command -v gpgv >/dev/null && [ -f $ring ]; then
    gpgv -q --keyring $ring "$work/$1.rel" 2>/dev/null || { echo "bad signature on $1" >&2; exit 1; }
  else echo "warning: $1: signature not checked (no gpgv or keyring)" >&2; fi
  get "dists/$1/main/binary-amd64/Packages.xz" "$work/$1.xz"
  grep -q "$(sha256sum <"$work/$1.xz" | cut -c1-64) .* main/binary-amd64/Packages.xz" "$work/$1.rel" ||
    { echo "index of $1 does not match its InRelease" >&2; exit 1; }
  xz -dc "$work/$1.xz" >"$work/$1.index"
}

found=0
while read -r s name file sum; do
  [ "$s" = "$suite" ] || continue
  found=1
  if ! get "$file" "$work/p.deb"; then
    index "$suite"
    read -r file sum < <(awk -v p="librust-$name-dev" 'BEGIN { RS = ""; FS = "\n" }
      $1 == "Package: " p { for (i = 2; i <= NF; i++) { split($i, a, ": ")
        if (a[1] == "Filename") f = a[2]; if (a[1] == "SHA256") h = a[2] } print f, h; exit }' \
      "$work/$suite.index") || true
    [ -n "${sum:-}" ] || { echo "$suite: no package for $name" >&2; exit 1; }
    echo "warning: pinned $name is gone, taking ${file##*/}" >&2
    get "$file" "$work/p.deb" || { echo "cannot fetch ${file##*/}" >&2; exit 1; }
  fi
  echo "$sum  $work/p.deb" | sha256sum -c --quiet || { echo "$name: wrong sum" >&2; exit 1; }
  dpkg -x "$work/p.deb" "$work/unpacked"
done <<<"$pins"
[ $found = 1 ] || { echo "unknown suite $suite" >&2; exit 1; }
rm -rf "$here/vendor"
cp -r "$work/unpacked/usr/share/cargo/registry" "$here/vendor"
rm -f "$here/Cargo.lock" # the other suite has other versions
echo "$suite: $(ls "$here/vendor" | tr '\n' ' ')"
