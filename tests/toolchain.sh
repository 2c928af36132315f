# The compilers, and how a program for x86-64 is built and run here; read by
# tests/run and bench/run, which stand at the top of the project.
#
# On x86-64: plain gcc. On another machine: Debian's cross compiler, linked
# statically, and qemu-x86_64 of Debian's qemu-user (tests/x86).

fail() {
    echo "FAILED: $*" >&2
    exit 1
}

case $(uname -m) in
x86_64) CC=gcc CXX=g++ SIZE=size LINK= ;;
*) CC=x86_64-linux-gnu-gcc CXX=x86_64-linux-gnu-g++ SIZE=x86_64-linux-gnu-size LINK=-static ;;
esac
RUN=tests/x86

WARNINGS="-Wall -Wextra -Werror -pedantic"

# Each gw_ name of the header turned into its ref_ name.
RENAME=$(sed -n 's/^uint32_t gw_\([a-z0-9_]*\)(.*/-Dgw_\1=ref_\1/p' include/goltwarden.h)

# compile SOURCE OBJECT [WORDS...]
compile() {
    source=$1 object=$2
    shift 2
    $CC -std=c11 -O2 $WARNINGS -Iinclude -Itests -I"$OUT" "$@" -c "$source" -o "$OUT/$object" ||
        fail "$source doesn't compile"
}

# link PROGRAM OBJECTS...: with the library.
link() {
    program=$1
    shift
    (cd "$OUT" && $CC $LINK -o "$program" "$@" "$LIBRARY") || fail "$program doesn't link"
}

# The library's archive: proved and built by rt; or the one that LIBRARY names;
# or, with LIBRARY=self, the reference in its place, to try the tests themselves.
find_library() {
    case ${LIBRARY:-} in
    self)
        compile tests/reference.c self.o -O3
        LIBRARY=$OUT/self.o
        ;;
    '')
        tests/needs rt || exit 1
        (cd crates/goltwarden && rt lib) >"$OUT/staticlib.log" 2>&1 ||
            fail "the library isn't proved or built: $(tail -n 3 "$OUT/staticlib.log")"
        LIBRARY=$PWD/crates/goltwarden/out/libgoltwarden.a
        ;;
    *)
        LIBRARY=$(realpath "$LIBRARY")
        ;;
    esac
}

# The IBAN registry's examples, for the C files that take them in.
write_examples() {
    sed -n 's/^\([A-Z][A-Z0-9]*\)$/EXAMPLE("\1")/p' tests/iban-registry.txt >"$OUT/examples.inc"
}

# The comparison (tests/compare.c) without the two sides that it asks: its objects, in
# COMPARE.
compile_compare() {
    write_examples
    COMPARE=
    for part in compare cases dates encode hots lent pans reached shapes tables; do
        compile tests/$part.c $part.o
        COMPARE="$COMPARE $part.o"
    done
}
