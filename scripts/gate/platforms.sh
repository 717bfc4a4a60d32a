#!/bin/sh
# Runs the tests of the crate `pokhvizi` on other machines, as qemu emulates them, and in a wasm machine:
#
#     sh scripts/gate/platforms.sh [TARGET..]
#
#     i686-unknown-linux-gnu           32 bits
#     aarch64-unknown-linux-gnu
#     riscv64gc-unknown-linux-gnu
#     s390x-unknown-linux-gnu          the high byte first
#     wasm32-wasip1                    32 bits: the lists of crates/vectors alone, by node
#     wasm32-unknown-unknown           compiled, not run
#
# A target needs rustc's library for it, a linker and an emulator: Debian's rustc with libstd-rust-dev:ARCH (dpkg
# --add-architecture ARCH) and gcc-MACHINE-linux-gnu with libc6-dev-ARCH-cross, qemu-user; libstd-rust-dev-wasm32, wasi-libc, lld
# and nodejs. rustc and cargo are those in the path, or those that RUSTC and CARGO name. Each target that lacks something is
# named; the last line counts. The status is 1 if a test fails, or if nothing ran.
#
# Run by check_programs.sh with the word `all`, and by hand in a Debian tree that has these packages.
set -u
[ $# = 0 ] || { echo "usage: sh scripts/gate/platforms.sh" >&2; exit 2; }
cd "$(dirname "$0")/../.." || exit 2
work=$(mktemp -d) || exit 2
trap 'rm -rf "$work"' EXIT
export CARGO_TARGET_DIR="$work/target" CARGO_NET_OFFLINE=true
unset RUSTFLAGS POKHVIZI_DIR
rustc=${RUSTC:-rustc} cargo=${CARGO:-cargo}
ran=0 wrong=0 skipped=0
# Debian's linker has a name of its own.
! command -v wasm-ld > /dev/null || export CARGO_TARGET_WASM32_WASIP1_LINKER=wasm-ld CARGO_TARGET_WASM32_UNKNOWN_UNKNOWN_LINKER=wasm-ld
[ $# -gt 0 ] || set -- i686-unknown-linux-gnu aarch64-unknown-linux-gnu riscv64gc-unknown-linux-gnu s390x-unknown-linux-gnu \
    wasm32-wasip1 wasm32-unknown-unknown

has() {
    command -v "$1" > /dev/null || lacks="$lacks $1"
}

# Runs the tests of a machine: all that `cargo test` runs, without features, with `alloc` and with all.
run_tests() {
    name=$(echo "$target" | tr 'a-z-' 'A-Z_')
    # Linked with all that they need, they run wherever the emulator does.
    export "CARGO_TARGET_${name}_LINKER=$machine-linux-gnu-gcc" "CARGO_TARGET_${name}_RUNNER=$runner" \
        "CARGO_TARGET_${name}_RUSTFLAGS=-C target-feature=+crt-static"
    for features in --no-default-features '--no-default-features --features alloc' ''; do
        "$cargo" test --target "$target" --tests $features 2>&1 || return 1
    done
}

# Runs the lists of crates/vectors in node's wasm machine.
run_wasi() {
    "$cargo" build -q --target "$target" --example lines || return 1
    cat > "$work/run.mjs" << 'JS'
import { openSync, readFileSync } from "node:fs";
import { WASI } from "node:wasi";
const [program, input, output] = process.argv.slice(2);
const wasi = new WASI({ version: "preview1", stdin: openSync(input, "r"), stdout: openSync(output, "w") });
const { instance } = await WebAssembly.instantiate(readFileSync(program), wasi.getImportObject());
process.exit(wasi.start(instance));
JS
    lists=0
    for tokens in crates/vectors/data/*/*.tokens; do
        events=${tokens%.tokens}.events nodes=${tokens%.tokens}.nodes
        [ -e "$events" ] && [ -e "$nodes" ] || continue
        lists=$((lists + 1))
        cat "$tokens" >> "$work/lists" && echo -- >> "$work/lists"
        cat "$events" "$nodes" >> "$work/wanted"
    done
    node --no-warnings "$work/run.mjs" "$work/target/$target/debug/examples/lines.wasm" "$work/lists" "$work/output" || return 1
    grep -v '^== ' "$work/output" | cmp - "$work/wanted" || return 1
    echo "test result: ok. $lists passed"
}

for target; do
    machine=${target%%-*} lacks=''
    case $target in
    wasm32-wasip1) has node ;;
    wasm32-unknown-unknown) ;;
    *)
        case $machine in
        i686) runner=qemu-i386 ;;
        riscv64gc) machine=riscv64 runner=qemu-riscv64 ;;
        *) runner=qemu-$machine ;;
        esac
        has "$machine-linux-gnu-gcc"
        has "$runner"
        ;;
    esac
    libraries=$("$rustc" --print target-libdir --target "$target" 2> /dev/null)
    [ -n "$libraries" ] && ls "$libraries"/libcore-*.rlib > /dev/null 2>&1 || lacks="$lacks rustc's library"
    if [ -n "$lacks" ]; then
        echo "skipped: $target, which lacks$lacks"
        skipped=$((skipped + 1))
        continue
    fi
    case $target in
    wasm32-wasip1) run_wasi ;;
    wasm32-unknown-unknown) "$cargo" build -q --target "$target" ;;
    *) run_tests ;;
    esac > "$work/said" 2>&1 || { cat "$work/said"; echo "wrong: $target"; wrong=$((wrong + 1)); continue; }
    ran=$((ran + 1))
    [ "$target" != wasm32-unknown-unknown ] || { echo "$target: compiled"; continue; }
    echo "$target: $(sed -n 's/^test result: ok. \([0-9]*\) passed.*/\1/p' "$work/said" | awk '{ n += $1 } END { print n + 0 }') passed"
done
echo "$("$rustc" --version): $ran of $# targets, $wrong wrong, $skipped skipped"
[ $wrong -eq 0 ] && [ $ran -gt 0 ]
