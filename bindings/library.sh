#!/bin/sh
# Proves the functions of include/micro_price.h and writes them as one archive, target/staticlib/libmicro_price.a. If the archive is
# there and neither it, nor the crates, nor the toolchain has changed since, it does nothing. It needs rt and ar. The parts are
# compiled apart, for which crates/abi_batch says why, and for every x86-64 processor.
set -eu
cd "$(dirname "$0")/.."
archive=target/staticlib/libmicro_price.a
stamp=target/staticlib/libmicro_price.sum

# A sum of the toolchain, of this script, of the crates without their edits and without what rt keeps beside them, and of the archive.
sum() {
    {
        rt version
        find crates.txt bindings/library.sh "$archive" crates \( -name must-fail -o -name out \) -prune -o -type f -exec sha256sum {} + |
            LC_ALL=C sort
    } | sha256sum
}

if [ -f "$archive" ] && [ -f "$stamp" ] && [ "$(sum)" = "$(cat "$stamp")" ]; then
    echo "$archive is up to date"
    exit
fi

rm -f "$archive" "$stamp"
mkdir -p target/staticlib
for part in abi_counting_c abi_image_c abi_fit_c abi_models_c abi_batch_c; do
    (cd "crates/$part" && rt lib --cpu x86-64)
done
ar -M <<MRI
create $archive
addlib crates/abi_counting_c/out/libabi_counting_c.a
addlib crates/abi_image_c/out/libabi_image_c.a
addlib crates/abi_fit_c/out/libabi_fit_c.a
addlib crates/abi_models_c/out/libabi_models_c.a
addlib crates/abi_batch_c/out/libabi_batch_c.a
save
end
MRI
sum >"$stamp"
echo "$archive is written"
