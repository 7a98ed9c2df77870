#!/usr/bin/env bash
# Makes the images of this folder from their sources with clang, lld and LLVM's binary tools (Debian's packages clang,
# lld and llvm). build.sh [FOLDER]: the linked files with their symbols are left in FOLDER, where one is given.
set -euo pipefail
objects=${1-}
if [ -z "$objects" ]; then
    objects=$(mktemp -d)
    trap 'rm -rf "$objects"' EXIT
fi
objects=$(cd "$objects" && pwd)
cd "$(dirname "${BASH_SOURCE[0]}")"

target=(--target=riscv64 -march=rv64imc -mabi=lp64)
code=(-Os -fpie -ffreestanding -fno-builtin -fshort-wchar -fno-asynchronous-unwind-tables
    -fno-jump-tables -fno-optimize-sibling-calls -Wall -Wextra)

# image NAME SUBSYSTEM [SOURCE]: NAME.efi of NAME.c, the headers and a further source
image() {
    clang "${target[@]}" "${code[@]}" -c "$1.c" -o "$objects/$1.o"
    clang "${target[@]}" -DSUBSYSTEM="$2" -c header.S -o "$objects/header.o"
    local inputs=("$objects/header.o" "$objects/$1.o")
    if [ $# -gt 2 ]; then
        clang "${target[@]}" -c "$3" -o "$objects/further.o"
        inputs+=("$objects/further.o")
    fi
    ld.lld -T image.ld --no-relax -o "$objects/$1.elf" "${inputs[@]}"
    llvm-objcopy -O binary "$objects/$1.elf" "$1.efi"
}

image hello 10
image fault 10
image driver 12 reloc.S
