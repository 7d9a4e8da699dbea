# The tests of bindings/test, one function each. `top`, `out` and `work` are set there.

# Compiles a C file of bindings/c or of its tests; further words are for the compiler.
compiled() {
    local name=$1 file=$top/bindings/c/$1.c
    [ -f "$file" ] || file=$top/bindings/c/tests/$1.c
    shift
    "${CC:-cc}" -std=gnu11 -O2 -Wall -Wextra -Werror "-I$top/bindings/c" -o "$work/$name" "$file" \
        "$out/libgomzelat.a" "$@"
}

of_c() {
    local name=$1
    shift
    compiled "$name" && "$work/$name" "$@"
}

example_of_c() {
    of_c example | tee "$work/said" && grep -q 'as it was sent: yes' "$work/said"
}

refused_memory() {
    compiled refused_memory -Wl,--wrap=malloc,--wrap=calloc,--wrap=realloc,--wrap=free && "$work/refused_memory"
}

measuring_compiles() {
    compiled speed && compiled costs -pthread -Wl,--wrap=malloc,--wrap=realloc,--wrap=free
}

# A million calls; and each answer that the header names for a function came of it.
random_calls() {
    of_c random_calls 1000000 1 "$(nproc)" >"$work/said" || { cat "$work/said" && return 1; }
    awk '
        /^ *GOMZELAT_[A-Z_0-9]* = [0-9]/ { gsub(/,/, ""); number[$1] = $3 }
        /Refused:/ { told = ""; reads = 1 }
        reads { told = told " " $0 }
        /\*\// { reads = 0 }
        /^uint32_t gomzelat_[a-z0-9_]*\(/ {
            match($0, /gomzelat_[a-z0-9_]*/)
            name = substr($0, RSTART, RLENGTH)
            if (name == "gomzelat_version") next
            sub(/.*Refused:/, "", told)
            print name, 0
            for (rest = told; match(rest, /(BAD|SHORT)_[A-Z]+/); rest = substr(rest, RSTART + RLENGTH))
                print name, number["GOMZELAT_" substr(rest, RSTART, RLENGTH)]
        }
    ' "$top/bindings/c/gomzelat.h" | sort >"$work/wanted"
    sed -n 's/^answers of //p' "$work/said" | awk -F '[: ]+' '{ for (i = 2; i <= NF; i++) print $1, $i }' | sort \
        >"$work/came"
    diff "$work/wanted" "$work/came"
}

threads_under_helgrind() {
    compiled concurrent -pthread && "$work/concurrent" &&
        valgrind -q --tool=helgrind --error-exitcode=1 "$work/concurrent"
}

# Each program that stands in the page, indented, from a line with #include on, compiles and ends with 0.
programs_of_the_page() {
    local file count=0
    mkdir -p "$work/page"
    awk -v "folder=$work/page" '
        /^    #include/ && !inside { inside = 1; file = folder "/" ++n ".c" }
        inside && !/^    / && !/^$/ { inside = 0 }
        inside { print substr($0, 5) >file }
    ' "$top/docs/LIBRARY_C.md"
    for file in "$work"/page/*.c; do
        "${CC:-cc}" -std=c11 -O2 -Wall -Wextra -Werror -fopenmp -pthread "-I$top/bindings/c" -o "${file%.c}" "$file" \
            "$out/libgomzelat.a" && "${file%.c}" || return 1
        count=$((count + 1))
    done
    [ "$count" = 3 ]
}

header_in_cxx() {
    cat >"$work/h.cc" <<'END_OF_CXX'
#include "gomzelat.h"
int main() {
    struct gomzelat_plan plan;
    return gomzelat_plan(1, &plan);
}
END_OF_CXX
    "${CXX:-c++}" -Wall -Wextra -Werror -pedantic "-I$top/bindings/c" -o "$work/h" "$work/h.cc" \
        "$out/libgomzelat.a" && "$work/h"
}

# No name but those of the header is global in the archive and in what is loaded, and those of the header all are; and
# a program may have names of its own that the toolchain has too.
only_calls_are_global() {
    local names
    grep -o '\bgomzelat_[a-z0-9_]*(' "$top/bindings/c/gomzelat.h" | tr -d '(' | grep -v '^gomzelat_text$' | sort -u \
        >"$work/declared"
    nm -g --defined-only "$out/libgomzelat.a" | awk 'NF == 3 { print $3 }' | sort -u >"$work/static"
    nm -D --defined-only "$out/libgomzelat.so" | awk 'NF == 3 { print $3 }' | sort -u >"$work/loaded"
    diff "$work/declared" "$work/static" && diff "$work/declared" "$work/loaded" || return 1
    names=$(nm --defined-only "$out/libgomzelat.a" | awk '$2 == "t" && $3 ~ /^[a-z_][a-z_0-9]*$/ { print $3 }' |
        sort -u | head -n 20)
    {
        echo '#include "gomzelat.h"'
        for name in $names; do echo "int $name(void); int $name(void) { return 1; }"; done
        echo 'int main(void) { uint8_t out[1]; return (int)gomzelat_trial_payload(1, 0, out, 1); }'
    } >"$work/clash.c"
    "${CC:-cc}" -fno-builtin "-I$top/bindings/c" -o "$work/clash" "$work/clash.c" "$out/libgomzelat.a" && "$work/clash"
}

installed() {
    [ -d "$work/installed" ] || "$top/bindings/install" "$work/installed"
}

by_pkg_config() {
    installed || return 1
    # shellcheck disable=SC2046
    PKG_CONFIG_PATH=$work/installed/lib/pkgconfig "${CC:-cc}" -o "$work/installed_example" "$top/bindings/c/example.c" \
        $(PKG_CONFIG_PATH=$work/installed/lib/pkgconfig pkg-config --cflags --libs gomzelat) &&
        readelf -d "$work/installed_example" | grep -q 'NEEDED.*\[libgomzelat.so.[0-9]*\]' &&
        LD_LIBRARY_PATH=$work/installed/lib "$work/installed_example"
}

by_cmake() {
    installed || return 1
    mkdir -p "$work/cmake"
    cat >"$work/cmake/CMakeLists.txt" <<END_OF_CMAKE
cmake_minimum_required(VERSION 3.13)
project(example C)
find_package(gomzelat 2 REQUIRED CONFIG)
add_executable(example $top/bindings/c/example.c)
target_link_libraries(example gomzelat::gomzelat)
add_executable(example_static $top/bindings/c/example.c)
target_link_libraries(example_static gomzelat::static)
END_OF_CMAKE
    cmake -S "$work/cmake" -B "$work/cmake/out" "-DCMAKE_PREFIX_PATH=$work/installed" &&
        cmake --build "$work/cmake/out" && "$work/cmake/out/example" && "$work/cmake/out/example_static"
}

# What bindings/pack leaves, unpacked elsewhere: the program runs, and the library is found and called.
packed() {
    local folder
    "$top/bindings/pack" "$work/packed" >"$work/said" && mkdir -p "$work/unpacked" &&
        tar -xzf "$(tail -n 1 "$work/said")" -C "$work/unpacked" || return 1
    folder=$(echo "$work"/unpacked/*)
    (cd "$folder" && sha256sum --quiet -c SHA256SUMS) && grep -q GOMZELAT_WASM "$folder/page/gomzelat_wasm.js" &&
        [ -f "$folder/lib/glibc-hwcaps/x86-64-v3/libgomzelat.so.2" ] &&
        unzip -l "$folder"/python/*.whl | grep -q libgomzelat.so &&
        printf '\x00\x01' | "$folder/bin/turbo-x86-64-v3" codeword g=8 qm=2 rv=1 | od -An -tx1 | grep -q '^ 24$' &&
        printf '\x00\x01' | "$folder/bin/turbo" codeword g=8 qm=2 rv=1 | od -An -tx1 | grep -q '^ 24$' || return 1
    # shellcheck disable=SC2046
    "${CC:-cc}" -o "$work/packed_example" "$folder/share/doc/gomzelat/bindings/c/example.c" \
        $(PKG_CONFIG_PATH=$folder/lib/pkgconfig pkg-config --cflags --libs gomzelat) &&
        LD_LIBRARY_PATH=$folder/lib "$work/packed_example" &&
        (cd "$folder" && "${CC:-cc}" -Iinclude share/doc/gomzelat/bindings/c/example.c lib/libgomzelat.a \
            -o "$work/packed_archive") && "$work/packed_archive"
}

of_rust() {
    cd "$top/bindings/rust" && GOMZELAT_LIB=$out CARGO_TARGET_DIR=$out/cargo cargo test --offline --locked
}

# Cargo takes the compiler of RUSTC; another one may stand first on the path.
of_rust_by_debian() {
    cd "$top/bindings/rust" && RUSTC=/usr/bin/rustc RUSTDOC=/usr/bin/rustdoc GOMZELAT_LIB=$out \
        CARGO_TARGET_DIR=$out/cargo_debian /usr/bin/cargo test --offline --locked
}

of_rust_without_library() {
    cd "$top/bindings/rust" || return 1
    GOMZELAT_LIB=$work CARGO_TARGET_DIR=$out/cargo cargo check --offline --locked >"$work/said" 2>&1 && return 1
    cat "$work/said" && grep -q "there is no $work/libgomzelat.a" "$work/said" &&
        grep -q 'Run bindings/build' "$work/said"
}
