# Sourced by the scripts: how C is compiled and run beside the archive, which is x86-64 whatever this machine is.
# Sets CC_ARCHIVE, CXX_ARCHIVE, NM, OBJDUMP, RUN (for what they make) and RUN_PROGRAM (for the report program), and installs what is missing (Debian packages).
need() { # need COMMAND PACKAGE
    command -v "$1" >/dev/null 2>&1 && return 0
    echo "installing $2 for $1"
    if [ -z "${apt_updated:-}" ]; then
        apt-get update -qq || return 1
        apt_updated=1
    fi
    DEBIAN_FRONTEND=noninteractive apt-get install -y -qq "$2" >/dev/null || return 1
}

need rt rattle-toolchain 2>/dev/null || { echo "the Rattle toolchain (rt) is not on the PATH" >&2; exit 2; }
case $(uname -m) in
x86_64)
    need gcc gcc && need g++ g++ || exit 2
    CC_ARCHIVE="gcc" CXX_ARCHIVE="g++" NM="nm" OBJDUMP="objdump" RUN="" RUN_PROGRAM=""
    ;;
*)
    need x86_64-linux-gnu-gcc gcc-x86-64-linux-gnu && need x86_64-linux-gnu-g++ g++-x86-64-linux-gnu || exit 2
    need qemu-x86_64 qemu-user || exit 2
    CC_ARCHIVE="x86_64-linux-gnu-gcc -static" CXX_ARCHIVE="x86_64-linux-gnu-g++ -static"
    NM="x86_64-linux-gnu-nm" OBJDUMP="x86_64-linux-gnu-objdump"
    RUN="qemu-x86_64 -cpu qemu64" # a C library that finds more than the plain x86-64 uses it, which is slow to emulate
    RUN_PROGRAM="$RUN -L /usr/x86_64-linux-gnu"
    ;;
esac

. tools/build.sh

# Whether every source and proof is in the layout; tells of those that are not.
laid_out() {
    find crates -name out -prune -o \( -name '*.rt' -o -name '*.antt' \) -print0 | xargs -0 rattle fmt --check
}
