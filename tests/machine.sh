# shellcheck shell=bash disable=SC2034 # the scripts that read it in use what it sets
#
# For the scripts that make or run x86-64 programs: the archives and programs that `rt` writes are for x86-64 alone. On another kind of machine
# programs are compiled across, by Debian's cross compilers and its Rust, and run under an emulator on Debian's x86-64 libraries.
#
# What a command needs besides the kit is printed one to a line, as COMMAND-OR-FILE:PACKAGE: by needs_to_run for a program, by needs_to_test for
# all tests.
machine=$(uname -m)

# What stands in the names of Debian's packages of Rust: in Debian 12 those without it are too old for the crates.
web() { if apt-cache show rustc-web >/dev/null 2>&1; then echo -web; fi; }
needs_of_rust() {
    printf '%s\n' "/usr/bin/cargo:cargo$(web)" "/usr/bin/rustc:rustc$(web)" "/usr/bin/cargo-fmt:rustfmt$(web)" "/usr/bin/cargo-clippy:rust$(web)-clippy"
}

if [ "$machine" = x86_64 ]; then
    # What stands before the names of the C compilers and of nm.
    cross=''
    # The folder below cargo's target folder that has debug/ and release/, with its slash.
    cargo_folder=''
    # rustdoc's words for a test.
    rustdoc_words=()
    # Runs an x86-64 program.
    run() { "$@"; }
    # Proves a program of crates/ and makes crates/NAME/out/NAME. `rt run` also runs it, here without words, and what it prints is dropped.
    make_program() { (cd "crates/$1" && rt run </dev/null >/dev/null); }
    # Whether a Rust is on the PATH, with all that the tests want of it. Debian's serves where none is.
    has_rust() { rustdoc --version && cargo fmt --version && cargo clippy --version; } >/dev/null 2>&1
    has_rust || PATH=/usr/bin:$PATH
    needs_to_run() { :; }
    needs_to_test() {
        printf '%s\n' git:git python3:python3 shellcheck:shellcheck gcc:gcc g++:g++ nm:binutils valgrind:valgrind
        has_rust || needs_of_rust
    }
else
    cross=x86_64-linux-gnu-
    cargo_folder=x86_64-unknown-linux-gnu/
    rustdoc_words=(--target x86_64-unknown-linux-gnu -C "linker=${cross}gcc" --test-runtool qemu-x86_64)
    run() { qemu-x86_64 "$@"; }
    # The same: `rt run` makes the program and cannot run it.
    make_program() {
        rm -f "crates/$1/out/$1"
        (cd "crates/$1" && rt run </dev/null >/dev/null)
        [ -x "crates/$1/out/$1" ]
    }
    needs_to_run() { printf '%s\n' qemu-x86_64:qemu-user /lib64/ld-linux-x86-64.so.2:libc6:amd64; }
    needs_to_test() {
        needs_to_run
        printf '%s\n' git:git python3:python3 shellcheck:shellcheck "${cross}gcc:gcc-x86-64-linux-gnu" "${cross}g++:g++-x86-64-linux-gnu" \
            "${cross}nm:binutils-x86-64-linux-gnu" /usr/lib/x86_64-linux-gnu/libstdc++.so.6:libstdc++6:amd64
        needs_of_rust
        echo "/usr/lib/rustlib/x86_64-unknown-linux-gnu/lib:libstd-rust$(web)-dev:amd64"
    }
    # Another Rust that stands before Debian's need not have the library for x86-64.
    PATH=/usr/bin:$PATH
    export PATH CARGO_BUILD_TARGET=x86_64-unknown-linux-gnu
    export CARGO_TARGET_X86_64_UNKNOWN_LINUX_GNU_LINKER=${cross}gcc CARGO_TARGET_X86_64_UNKNOWN_LINUX_GNU_RUNNER=qemu-x86_64
fi
