# For the scripts that build a program in C over the static library; they source it from the repository's root. The library is x86-64:
# on another processor a cross compiler and an emulator stand in.

archive=crates/scarpgoblet/out/libscarpgoblet.a

need() { # need COMMAND PACKAGE..: installs the packages where the command is missing
    command=$1
    shift
    command -v "$command" >/dev/null 2>&1 || { apt-get update -qq && apt-get install -y -qq "$@"; } >/dev/null
}

library() { # builds the archive where it is missing or older than what it is proved and built of
    if [ ! -f "$archive" ] || [ -n "$(find crates.txt crates/*/src crates/*/specs crates/*/proofs -newer "$archive")" ]; then
        tools/prove scarpgoblet
    fi
}

build_host() { # build_host NAME: builds tests/host/NAME.c as target/host/NAME; `emulator` is then what runs it, or nothing
    library
    if [ "$(uname -m)" = x86_64 ]; then
        need gcc gcc libc6-dev
        compiler=gcc emulator=
    else
        need x86_64-linux-gnu-gcc gcc-x86-64-linux-gnu libc6-dev-amd64-cross
        need qemu-x86_64 qemu-user
        compiler="x86_64-linux-gnu-gcc -static" emulator=qemu-x86_64
    fi
    mkdir -p target/host
    $compiler -std=c11 -Wall -Wextra -Werror -O2 -Iinclude "tests/host/$1.c" "$archive" -o "target/host/$1"
}
