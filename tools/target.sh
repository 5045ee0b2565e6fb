# Sourced by scripts that compile and run programs for `target` (see tools/common.sh, which they source before): x86_64 or aarch64. For this machine's own
# processor it takes the compilers that are there; for the other one it installs Debian's cross compilers, and an emulator that runs the programs (times
# measured there say nothing). It is made for scripts, not for a shell that is used on: it changes the compiler and cargo's settings. It sets
#   CC CXX   the compilers for C and C++
#   RUN      the words before a program: none, or the emulator
#   CARGO    the cargo, and with it cargo's settings for the target; `cargo_ready` has them installed
#   built    the folder below cargo's target/ that the release build writes to
case $target in
x86_64) debian=amd64 ;;
aarch64) debian=arm64 ;;
*) stop "there is no archive for $target: --target is x86_64 or aarch64" ;;
esac
export LINTELRYE_TARGET="$target"

# Says where the emulator finds the target's C and C++ libraries: those of Debian's packages for the target where they are installed, as they are with Rust's
# library, otherwise the cross compiler's. With the latter a program that starts a thread does not end (qemu 7.2, libc6-arm64-cross 2.36 on x86-64).
emulated_libraries() {
    if [ -e "/lib/$target-linux-gnu/libc.so.6" ] && [ -e "/usr/lib/$target-linux-gnu/libstdc++.so.6" ]; then
        unset QEMU_LD_PREFIX
    else
        export QEMU_LD_PREFIX="/usr/$target-linux-gnu"
    fi
}

if [ "$target" = "$(uname -m)" ]; then
    CC=${CC:-cc}
    CXX=${CXX:-c++}
    CARGO=${CARGO:-cargo}
    RUN=
    built=release
    cc_package=gcc
    cxx_package=g++
else
    CC=$target-linux-gnu-gcc
    CXX=$target-linux-gnu-g++
    CARGO=/usr/bin/cargo
    RUN=qemu-$target
    built=$target-unknown-linux-gnu/release
    gnu=$(echo "$target" | tr _ -)
    cc_package="gcc-$gnu-linux-gnu libc6-dev-$debian-cross"
    cxx_package=g++-$gnu-linux-gnu
    need "$RUN" qemu-user
    emulated_libraries
    upper=$(echo "$target" | tr a-z A-Z)
    export RUSTC=/usr/bin/rustc RUSTDOC=/usr/bin/rustdoc CARGO_BUILD_TARGET="$target-unknown-linux-gnu"
    export "CARGO_TARGET_${upper}_UNKNOWN_LINUX_GNU_LINKER=$CC" "CARGO_TARGET_${upper}_UNKNOWN_LINUX_GNU_RUNNER=$RUN"
fi
command -v "$CC" >/dev/null || install "the C compiler $CC" $cc_package

# Installs cargo and the standard library for the target where they are missing.
cargo_ready() {
    if [ -z "$RUN" ]; then
        command -v "$CARGO" >/dev/null || install "cargo" cargo rustc
    elif [ ! -x "$CARGO" ] || [ ! -d "/usr/lib/rustlib/$target-unknown-linux-gnu" ]; then
        install "cargo, and Rust's library for $target" rustc cargo "libstd-rust-dev:$debian"
        emulated_libraries
    fi
}
