# Where the toolchain is, and how a program is built with it and run. Read by scripts with '.'; c_program is called in the project's folder.
kit=$(dirname "$(rt doc)")
machine=$(uname -m)
tools=$kit/toolchain
clang=$tools/bin/clang

# A crate that `rt` is asked for works in its own folder, and keeps what it builds in the folder's out/. Two checks in one folder would meet, so
# a second one waits for the first. Called in the project's folder.
checking() { # CRATE RT'S WORDS...
    mkdir -p target
    crate=$1
    shift
    (exec 9>target/checking && flock 9 && cd "crates/$crate" && rt "$@" 9>&-)
}

# Proves and builds a program, crates/NAME/out/NAME, where that is not done, and runs it once on these words and no input.
prove() { # PROGRAM WORDS...
    mkdir -p target
    program=$1
    shift
    checking "$program" run -- "$@" >/dev/null 2>target/proving </dev/null
}

# The toolchain has no C headers; those that need no C library (stddef.h, stdint.h) come with any compiler.
headers() { gcc -print-file-name=include; }

# A C program that calls the proved library.
c_program() { # SOURCE PROGRAM
    "$clang" --target=x86_64-unknown-linux-gnu -O2 -ffreestanding -isystem "$(headers)" -Wall -Wextra -Werror -Iinclude -c "$1" -o "$2.o"
    "$kit/bin/rattle-link" --target x86_64-unknown-linux-gnu --toolchain "$tools" -o "$2" "$2.o" target/staticlib/libtrim_c.a 2>"$2.linked"
}

# Runs a program by the toolchain's own loader and C library.
run_program() { # PROGRAM WORDS...
    "$tools/lib/ld-linux-x86-64.so.2" --library-path "$tools/lib" "$@"
}

# A script that does the same.
runner() { # SCRIPT PROGRAM
    cat >"$1" <<SCRIPT
#!/bin/sh
exec "$tools/lib/ld-linux-x86-64.so.2" --library-path "$tools/lib" "$2"
SCRIPT
    chmod +x "$1"
}
