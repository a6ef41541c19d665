# Shared by the scripts: the library, and the compilers of C and C++ that there are.

here=$(cd "$(dirname "${BASH_SOURCE[0]}")" && pwd)
. "$here/../../oracle/common.sh"
archive=${SILLURWY_LIB_DIR:-$root/target/staticlib}/libhost.a
built=$root/target/c
mkdir -p "$built"
# The functions that the header declares, without their prefix.
functions=$(grep -o 'sillurwy_[a-z0-9_]*(' "$root/include/sillurwy.h" | sed 's/sillurwy_//; s/(//')
: "${functions:?the header declares no function}"

say() {
    echo "c: $*" >&2
}

both_warnings="-Wall -Wextra -Wpedantic -Werror -Wconversion -Wsign-conversion -Wfloat-conversion
    -Wdouble-promotion -Wshadow -Wundef -Wcast-qual -Wcast-align"
c_warnings="$both_warnings -Wstrict-prototypes -Wmissing-prototypes -Wold-style-definition"
cpp_warnings="$both_warnings -Wold-style-cast"

# True if a compiler, with these words, makes a program that runs. The language is c or c++.
makes_programs() {
    local language=$1
    shift
    echo '#include <stdint.h>
#include <stdlib.h>
int main(void) { void *p = malloc(1); free(p); return 0; }' >"$built/try.src"
    command -v "$1" >/dev/null &&
        "$@" -x "$language" "$built/try.src" -o "$built/try" >/dev/null 2>&1 && "$built/try"
}

# Prints those of the compilers that work, each once: language, then names.
working() {
    local language=$1 name file seen=" "
    shift
    for name in "$@"; do
        file=$(readlink -f "$(command -v "$name" || true)" || true)
        case $seen in *" $file "*) continue ;; esac
        if [ -n "$file" ] && makes_programs "$language" "$name"; then
            seen="$seen$file "
            echo "$name"
        fi
    done
}

# The C compilers: CC, or those of the usual names. There must be one.
c_compilers() {
    local names=${CC:-cc gcc clang} found
    found=$(working c $names)
    if [ -z "$found" ]; then
        say "no C compiler makes a program that runs; tried: $names. CC names another"
        return 1
    fi
    echo "$found"
}

# The C++ compilers: CXX, or those of the usual names. There may be none.
cpp_compilers() {
    working c++ ${CXX:-c++ g++ clang++}
}

# Prints the words that turn on the sanitizers of a compiler, nothing if it has not got them.
sanitizers() {
    local words="-fsanitize=address,undefined -fno-sanitize-recover=all"
    if makes_programs c "$1" $words; then
        echo "$words"
    fi
}
