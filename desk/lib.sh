# What the desk's scripts share: where things stand, what is installed, and how Rust is compiled and run for each side.
# The crate's side is built for this machine. The port's archive is for x86-64 alone: elsewhere its programs are cross-compiled with
# Debian's rustc-web and run under the toolchain's emulator.
# Sourced first of all by each script, so that --help answers before anything is done.
unset CDPATH
script=$(readlink -f -- "$0")
desk=$(dirname "$script")
home=$(dirname "$desk")
made=$desk/out
crate=${STRANDROOST_CRATE:-$home/../shared/docs/src/src/internal}
registry=${STRANDROOST_REGISTRY:-/usr/share/cargo/registry}
# Scripts go to other folders before they look.
case $crate in /*) ;; *) crate=$PWD/$crate ;; esac
case $registry in /*) ;; *) registry=$PWD/$registry ;; esac
modules="category codepage column language macros streamname stringpool table value"
# Debian's own: another python3 that stands earlier on the path does not have Debian's packages.
python=/usr/bin/python3

say() { echo "desk: $*" >&2; }
fail() { say "$*"; exit 2; }
native() { [ "$(uname -m)" = x86_64 ]; }

# usage: the head of the script
usage() { sed -n '2,$ { /^#/!q; s/^# \{0,1\}//; p; }' "$script"; }

for word in "$@"; do
    case $word in
    -h | --help) usage; exit 0 ;;
    --) break ;;
    esac
done

# takes_none ARG..: for a script that takes no arguments
takes_none() { [ $# -eq 0 ] || fail "$(basename "$script") takes no arguments, and was given '$1' (--help says what it does)"; }

# writes: for a script that writes to desk/out
writes() { mkdir -p "$made" 2> /dev/null && [ -w "$made" ] || fail "$made cannot be written: the desk builds there"; }

# things PART..: what each part needs, a line each, as THING=PACKAGE: a program, a file or a source in the registry, and Debian's
# package that has it.
#   rust       a Rust compiler and what links its programs
#   c, c++     a compiler for the port's side
#   crate      the three packages that the crate leans on
#   container  the library that takes a package's container apart
#   samples    the tools that make the sample packages
things() {
    for part in "$@"; do
        case $part in
        rust) echo rustc=rustc-web && echo cc=gcc && echo /usr/include/stdio.h=libc6-dev ;;
        c)
            if native; then echo cc=gcc && echo /usr/include/stdio.h=libc6-dev; else
                echo x86_64-linux-gnu-gcc=gcc-x86-64-linux-gnu
                echo /usr/x86_64-linux-gnu/include/stdio.h=libc6-dev-amd64-cross
            fi
            ;;
        c++) if native; then echo c++=g++; else echo x86_64-linux-gnu-g++=g++-x86-64-linux-gnu; fi ;;
        crate) for name in byteorder-1 encoding_rs-0.8 uuid-1; do echo "registry:$name=librust-$(echo "${name%-*}" | tr _ -)-dev"; done ;;
        container) echo $python=python3 && echo /usr/lib/python3/dist-packages/olefile=python3-olefile ;;
        samples) echo wixl=wixl && echo msibuild=msitools ;;
        *) fail "no part $part" ;;
        esac
    done
}

# there THING: a program on the path, a file, or a source in the registry
there() {
    case $1 in
    registry:*) set -- "$registry/${1#registry:}".* && [ -e "$1" ] ;;
    */*) [ -e "$1" ] ;;
    *) command -v "$1" > /dev/null ;;
    esac
}

# absent PART..: the packages of things that are not there
absent() {
    things "$@" | while IFS= read -r pair; do there "${pair%=*}" || echo "${pair##*=}"; done | sort -u | tr '\n' ' '
}

# have PART..: installs by name what the parts miss, which takes root. Names what is not available, once, and is then false.
asked=
have() {
    wanted=
    for package in $(absent "$@"); do
        case " $asked " in *" $package "*) ;; *) wanted="$wanted $package" ;; esac
    done
    asked="$asked$wanted"
    if [ -n "$wanted" ] && [ "$(id -u)" != 0 ]; then
        say "not installed:$wanted. Installing takes root: apt-get update && apt-get install$wanted"
    elif [ -n "$wanted" ]; then
        writes
        say "installing$wanted"
        apt-get -qq update > "$made/apt.log" 2>&1 || say "apt-get update failed: $(tail -n 1 "$made/apt.log")"
        for package in $wanted; do
            DEBIAN_FRONTEND=noninteractive apt-get -qq install -y --no-install-recommends "$package" >> "$made/apt.log" 2>&1 ||
                say "NOT AVAILABLE: $package (apt-get install $package failed)"
        done
    fi
    [ -z "$(absent "$@")" ]
}

# need PART..: have them, or end here
need() { have "$@" || fail "nothing was run without $(absent "$@")"; }

# build PART..: what is not there, or older than what it is made from; only then what builds it is needed
build() {
    if "$desk/build" --fresh "$@"; then return; fi
    parts=
    for part in "$@"; do
        case $part in
        crate) parts="$parts rust crate" ;;
        tools) parts="$parts rust" ;;
        port | package) parts="$parts rust c" ;;
        esac
    done
    need $parts
    "$desk/build" --stale "$@" >&2 || fail "nothing was run: building $* failed"
}

# The toolchain's loader, C library and emulator, found from rt itself.
toolchain() {
    command -v rt > /dev/null || fail "the Rattle toolchain (rt) is not on the path: it has the emulator that runs x86-64 programs here"
    kit=$(dirname "$(dirname "$(readlink -f "$(command -v rt)")")")
    echo "${RATTLE_TOOLCHAIN:-$kit/on/$(uname -m)/toolchain}"
}

# run_x86 PROGRAM ARG..: in place of this shell, or under the emulator
run_x86() {
    if native; then exec "$@"; fi
    t=$(toolchain) || exit 2
    exec "$t/bin/qemu-x86_64" "$t/lib/ld-linux-x86-64.so.2" --library-path "$t/lib" "$@"
}

optimized="-C opt-level=3 -C debug-assertions=off -C overflow-checks=off -C codegen-units=${CODEGEN_UNITS:-16}"

# rustc_here ARG..: for this machine
rustc_here() { rustc $optimized "$@"; }

# rustc_x86 ARG..: for x86-64
rustc_x86() { if native; then rustc_here "$@"; else rustc_cross $optimized "$@"; fi; }

# rustc_cross ARG..: Debian's compiler, as unpack_x86 put it beside the builds
rustc_cross() {
    LD_LIBRARY_PATH=$made/x86/usr/lib/$(uname -m)-linux-gnu "$made/x86/usr/bin/rustc" --target x86_64-unknown-linux-gnu \
        --sysroot "$made/x86/usr" -C linker=x86_64-linux-gnu-gcc -C link-arg="$made/startup.o" "$@"
}

# unpack_x86: on a machine that is not x86-64, Debian's Rust compiler for this machine and its library for x86-64, of one and the
# same version by lists fetched now, unpacked beside the builds; nothing of it is installed. They are kept only once a program that
# they made has run.
unpack_x86() {
    if native || [ -e "$made/x86/works" ]; then return; fi
    rm -rf "$made/x86"
    work=$(mktemp -d)
    (fetch_x86 && try_x86) > "$work/log" 2>&1 || {
        why=$(grep -v '^ *$' "$work/log" | tail -n 1)
        rm -rf "$made/x86" "$work"
        fail "no Rust compiler for x86-64: Debian's rustc-web was fetched anew, does not work, and was removed (${why:-it said nothing})"
    }
    mv "$work/version" "$made/x86/works"
    say "a Rust compiler for x86-64 (Debian's rustc-web $(cat "$made/x86/works")) is unpacked in desk/out"
    rm -rf "$work"
}

# fetch_x86: with lists of its own for both machines, so that root is not needed and what apt-get knows here stays as it is
fetch_x86() {
    mkdir -p "$work/lists/partial" "$work/cache/archives/partial" "$work/state" "$made/x86"
    : > "$work/state/status"
    cat > "$work/apt.conf" <<CONF
APT::Architecture "$(dpkg --print-architecture)";
APT::Architectures { "$(dpkg --print-architecture)"; "amd64"; };
APT::Sandbox::User "";
Dir::State "$work/state";
Dir::State::lists "$work/lists";
Dir::State::status "$work/state/status";
Dir::Cache "$work/cache";
CONF
    export APT_CONFIG="$work/apt.conf"
    apt-get -qq update || { echo "apt-get update failed" && return 1; }
    versions() { apt-cache madison "$1" | awk '{ print $3 }'; }
    versions libstd-rust-web-dev:amd64 > "$work/theirs"
    version=$(versions rustc-web | grep -Fxf "$work/theirs" | head -n 1)
    [ -n "$version" ] || { echo "no version of rustc-web is there for both machines" && return 1; }
    std=$(apt-cache show "libstd-rust-web-dev=$version" | sed -n 's/^Depends: .*\(libstd-rust-web-[0-9.]*\) .*/\1/p' | head -n 1)
    llvm=$(apt-cache show "$std=$version" | sed -n 's/^Depends: .*\(libllvm[0-9.]*\).*/\1/p' | head -n 1)
    (cd "$work" && apt-get -qq download "rustc-web=$version" "$std=$version" $llvm "libstd-rust-web-dev:amd64=$version") || return 1
    for package in "$work"/*.deb; do dpkg -x "$package" "$made/x86" || return 1; done
    echo "$version" > "$work/version"
}

# try_x86: whether compiler and library make a program, and it runs. The emulator breaks where the C library reads the memory map
# for a thread's stack, as Rust does on its way to `main`; Rust goes on without it where the call is refused.
try_x86() {
    unset APT_CONFIG
    echo 'int pthread_getattr_np(void *thread, void *attributes) { return 38; }' |
        x86_64-linux-gnu-gcc -O2 -x c -c - -o "$made/startup.o" || return 1
    echo 'fn main() { print!("it runs") }' > "$work/empty.rs"
    rustc_cross "$work/empty.rs" -o "$work/empty" || return 1
    [ "$( (run_x86 "$work/empty") )" = "it runs" ]
}

# rust_libraries COMPILER DIR: the three packages that the crate leans on
rust_libraries() {
    compiler=$1
    libs=$2
    mkdir -p "$libs"
    library() {
        name=$1
        shift
        "$compiler" --cap-lints allow --crate-type rlib --crate-name "$name" -L "$libs" -o "$libs/lib$name.rlib" "$@"
    }
    library cfg_if "$registry"/cfg-if-1.*/src/lib.rs --edition 2018
    library byteorder "$registry"/byteorder-1.*/src/lib.rs --edition 2018 --cfg 'feature="std"'
    library encoding_rs "$registry"/encoding_rs-0.8.*/src/lib.rs --edition 2018 --cfg 'feature="alloc"' --extern cfg_if="$libs/libcfg_if.rlib"
    library uuid "$registry"/uuid-1.*/src/lib.rs --edition 2018 --cfg 'feature="std"'
}

# stage: the crate's unchanged modules beside the desk's own sources, for one compilation (the crate's table calls are its own)
stage() {
    rm -rf "$made/stage"
    mkdir -p "$made/stage/internal"
    for module in $modules; do
        cp "$crate/$module.rs" "$made/stage/internal/" 2>/dev/null || fail "the crate's source is not at $crate (STRANDROOST_CRATE names it)"
    done
    cp "$desk"/src/*.rs "$made/stage/"
}
