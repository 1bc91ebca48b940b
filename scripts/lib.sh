# shellcheck shell=bash disable=SC2034,SC2054
# Shell functions for the scripts of this directory; to be sourced with bash from the repository's root.

# need PROGRAM WHAT: fails with a clear message where a program is missing
need() {
    command -v "$1" >/dev/null 2>&1 && return
    printf '%s is not on the PATH: %s\n' "$1" "$2" >&2
    return 1
}

# The C compiler and its flags, which may be given: make CC=clang CFLAGS='-g -O3' LDFLAGS=-Wl,--as-needed. What is installed is hardened
# besides, unless HARDENING gives other words or none.
read -ra cc <<<"${CC:-gcc}"
read -ra cflags <<<"${CFLAGS--g -O2}"
read -ra ldflags <<<"${LDFLAGS-}"
read -ra hardening <<<"${HARDENING--fstack-protector-strong -fstack-clash-protection -fPIE -pie -Wl,-z,relro,-z,now,-z,noexecstack}"
# A program that is not optimised cannot have its buffers checked so.
if [ -z "${HARDENING+given}" ] && [[ " ${cflags[*]}" =~ \ -O[123sz] ]]; then
    hardening+=(-U_FORTIFY_SOURCE -D_FORTIFY_SOURCE=2)
fi

need_gcc() { need "${cc[0]}" 'the unit and the C tests need a C compiler (Debian: gcc, libc6-dev)'; }
need_gxx() { need g++ 'a C++ program is built against the installed tree (Debian: g++)'; }
need_pkg_config() { need pkg-config 'programs are built against the installed tree by it (Debian: pkg-config)'; }
# need_nettle: the library by which the SHA-256 of a table and of its file is worked out, and its header; version 3, as Debian 10 to 13 have it
need_nettle() {
    need_gcc || return 1
    printf '#include <nettle/sha2.h>\nint main(void) { struct sha256_ctx c; uint8_t d[32]; sha256_digest(&c, 32, d); return 0; }\n' |
        "${cc[@]}" -xc - -lnettle -o /dev/null 2>/dev/null && return
    printf 'the library nettle (version 3) and its header are not there: the stored table has a SHA-256 (Debian: nettle-dev)\n' >&2
    return 1
}
need_rt() { need rt 'the Rattle kit (compiler, prover and libraries) has to be installed; see README.md'; }
need_cargo() { need cargo 'the Rust tests need Rust 1.88 or newer with cargo'; }

# need_rust: cargo, and a compiler that is new enough
need_rust() {
    local found
    { need_cargo && need rustc 'the Rust tests need Rust 1.88 or newer'; } || return 1
    found=$(rustc --version | sed -nE 's/^rustc ([0-9]+)\.([0-9]+)\..*/\1 \2/p')
    if [ -z "$found" ] || [ "${found% *}" -lt 1 ] || { [ "${found% *}" -eq 1 ] && [ "${found#* }" -lt 88 ]; }; then
        printf 'rustc is %s: the Rust tests need 1.88 or newer\n' "${found/ /.}" >&2
        return 1
    fi
}

# need_python: python3, and one that is new enough
need_python() {
    need python3 'lists in JSON are read by it (3.9 or newer)' || return 1
    python3 -c 'import sys; sys.exit(sys.version_info < (3, 9))' && return
    printf '%s: the tests need 3.9 or newer\n' "$(python3 --version)" >&2
    return 1
}
need_tcpdump() { need tcpdump 'captures of the loopback interface are taken by it (Debian: apt-get install tcpdump)'; }
need_valgrind() { need valgrind 'the memory checks need it (Debian: valgrind)'; }

# quietly COMMAND..: runs a command and prints what it says only if it fails
quietly() {
    local log status
    log=$(mktemp)
    "$@" >"$log" 2>&1
    status=$?
    [ "$status" -eq 0 ] || cat "$log" >&2
    rm -f "$log"
    return "$status"
}

# copy_crates FOLDER: copies the crates there without what rt keeps in their out/: that is large, and rt finds it from a copy too
copy_crates() { tar -cf - --no-wildcards-match-slash --exclude='crates/*/out' crates crates.txt | tar -xf - -C "$1"; }

# ordinary_archive: builds bench/ordinary and sets archive_ordinary
ordinary_archive() {
    need_cargo || return 1
    quietly cargo build --release --offline --manifest-path bench/ordinary/Cargo.toml || return 1
    archive_ordinary=$PWD/bench/ordinary/target/release/libordinary.a
}

# stand_in_archive: builds bench/ordinary under the archive's names and sets archive_dir and archive_name
stand_in_archive() {
    need_cargo || return 1
    quietly cargo build --release --offline --features as_pfcp --target-dir target/stand_in \
        --manifest-path bench/ordinary/Cargo.toml || return 1
    archive_dir=$PWD/target/stand_in/release
    archive_name=ordinary
}

# origin FILE: a line that changes with target/staticlib/FILE and with what it is made from
origin() {
    {
        rt version
        find crates.txt crates/*/src crates/*/specs crates/*/proofs -type f -print0 | sort -z | xargs -0 sha256sum
        sha256sum "target/staticlib/$1"
    } 2>/dev/null | sha256sum
}

# build_library CRATE: has rt prove what has changed of a crate NAME_c and of those below it, and write target/staticlib/libNAME.a, by the name
# that C programs link. rt's own is in the crate's out/, which rt ci empties.
build_library() {
    (cd "crates/$1" && rm -f "out/lib$1.a" && rt lib) && mkdir -p target/staticlib && cp "crates/$1/out/lib$1.a" "target/staticlib/lib${1%_c}.a"
}

# build_restoring CRATE: the same of the program pfcp-restore, whose compiled code becomes target/staticlib/CRATE.o. rt compiles a program to run it, and so it
# is run, on the table and the file that the gate runs it on.
build_restoring() {
    local out=crates/$1/out
    rm -f "$out/$1" "$out/$1.o"
    (cd "crates/$1" && rt run -- run data/few.requests data/few.table out/new.table) && mkdir -p target/staticlib && cp "$out/$1.o" target/staticlib/
}

# proved HOW FILE BUILD CRATE: has target/staticlib/FILE built, unless nothing has changed since it was written. HOW is quietly or aloud.
proved() {
    need_rt || return 1
    [ "$(cat "target/staticlib/$2.origin" 2>/dev/null)" = "$(origin "$2")" ] && return
    "$1" "$3" "$4" || return 1
    origin "$2" >"target/staticlib/$2.origin"
}

# proved_archive HOW: the library that C links
proved_archive() {
    proved "$1" libpfcp_session.a build_library pfcp_session_c || return 1
    archive_dir=$PWD/target/staticlib
    archive_name=pfcp_session
}

# crates_of NAME: how many crates of crates.txt this one is made of, itself among them
crates_of() {
    awk -v first="$1" '/^[a-z]/ { name = $1; sub(/:.*/, "", name); sub(/^[^:]*:/, ""); uses[name] = $0 }
        END {
            due[1] = first; seen[first]; last = 1
            for (i = 1; i <= last; i++) {
                n = split(uses[due[i]], names, " ")
                for (k = 1; k <= n; k++) if (names[k] in uses && !(names[k] in seen)) { seen[names[k]]; due[++last] = names[k] }
            }
            print last
        }' crates.txt
}

# counted ALL: passes on what rt says of functions, and counts the crates that it has done. Those that it finds proved are not told.
counted() {
    local line name='' proved=0
    while IFS= read -r line; do
        case $line in
        'crate '*': modules loaded='*) name=${line#crate } && name=${name%%:*} ;;
        logic=proved*)
            proved=$((proved + 1))
            printf 'crate %s of %s: %s proved\n' "$proved" "$1" "$name"
            ;;
        'logic '* | 'library '* | 'statements '* | 'axioms '*) ;;
        *) printf '%s\n' "$line" ;;
        esac
    done
}

# aloud COMMAND.. NAME: runs a command that proves the crate NAME, and shows on standard error what it says, with how far it is
aloud() {
    printf 'proving and building %s; the first time takes minutes\n' "${!#}" >&2
    "$@" 2>&1 | counted "$(crates_of "${!#}")" >&2
    return "${PIPESTATUS[0]}"
}

# find_archive [HOW]: builds the archive and sets archive_dir, archive_name and archive_file. It is the proved one of the crate
# pfcp_session_c. Where that crate is not there, and only where PFCP_STAND_IN=1 asks for it, bench/ordinary stands in.
find_archive() {
    if grep -qs '^pfcp_session_c staticlib *:' crates.txt &&
        grep -rqs 'extern "C" fn pfcp_request' crates/pfcp_session_c/src; then
        proved_archive "${1:-quietly}" || return 1
    elif [ "${PFCP_STAND_IN:-}" = 1 ]; then
        printf 'PFCP_STAND_IN=1: bench/ordinary stands in for the proved archive\n'
        stand_in_archive || return 1
    else
        printf 'there is no archive: the crate pfcp_session_c does not export pfcp_request\n' >&2
        return 1
    fi
    archive_file=$archive_dir/lib$archive_name.a
    if [ ! -f "$archive_file" ]; then
        printf 'the archive was not written\n' >&2
        return 1
    fi
}

strict=(-std=c11 -D_POSIX_C_SOURCE=200809L -Wall -Wextra -Werror -pedantic -Iinclude -Ihost)
sanitizers=(-g -O1 -fsanitize=address,undefined -fno-sanitize-recover=all -fno-omit-frame-pointer)
bench_sources=(-O2 -Ibench bench/workload.c bench/sides.c bench/measure.c host/message.c)
# a stored table's file, for the unit, pfcp-list and pfcp-restore
stored_sources=(host/stored.c host/table.c host/digest.c host/wipe.c host/text.c host/words.c host/message.c host/address.c -lnettle)
# what makes a list of a table, for the unit, for pfcp-list and for a test
listing_sources=(host/sessions.c host/counts.c host/listing.c host/session_words.c host/prometheus.c "${stored_sources[@]}")
unit_sources=(host/main.c host/options.c host/arguments.c host/number.c host/service.c host/unit.c host/stores.c host/disk.c host/datagrams.c
    host/line.c host/control.c host/output.c host/complaint.c host/demo.c "${listing_sources[@]}" -pthread)
list_sources=(host/pfcp_list.c host/stored_unit.c host/arguments.c host/number.c "${listing_sources[@]}")
# the program pfcp-restore, which adds to its C file a proved program and the kit's C code for it, and the unit's list of a stored table
restore_sources=(host/restore.c host/send.c host/number.c -Wl,--wrap=main -Wl,--wrap=open)
list_table_sources=(tests/c/list_table.c "${listing_sources[@]}")
checked_by_valgrind=(valgrind -q --error-exitcode=9 --leak-check=full --errors-for-leak-kinds=all)

# compile OUTPUT WORDS..: compiles C files to target/c/OUTPUT
compile() {
    local output=$1
    shift
    need_gcc || return 1
    mkdir -p target/c
    "${cc[@]}" "${strict[@]}" "$@" -o "target/c/$output"
}

# compile_bench OUTPUT WORDS..: compiles a program of bench/ with both archives
compile_bench() {
    local output=$1
    shift
    compile "$output" "$@" "${bench_sources[@]}" "$archive_file" "$archive_ordinary" -pthread
}

# compile_times OUTPUT PADDING: the measurements of time, with so many octets before the archives
compile_times() {
    compile sum_by_octet.o -c -O2 -DSUM=sum_by_octet bench/sum.c || return 1
    compile sum_by_vector.o -c -O3 -DSUM=sum_by_vector bench/sum.c || return 1
    compile floor.o -c -O3 bench/floor.c || return 1
    compile_bench "$1" bench/bench.c bench/tables.c bench/kinds.c bench/eight.c bench/passes.c bench/longest.c bench/longest_time.c \
        bench/repeats.c bench/repeats_time.c \
        target/c/sum_by_octet.o target/c/sum_by_vector.o target/c/floor.o -DPADDING="\"$2\"" bench/padding.c
}

# compile_copies: the program that sees what the archives copy and clear
compile_copies() {
    compile_bench copies bench/copies.c -Wl,--wrap=memcpy,--wrap=memmove,--wrap=memset
}

# compile_summary: the program that sums up what those print
compile_summary() { compile summary -O2 -Ibench bench/summary.c bench/samples.c bench/picture.c bench/measure.c -lm; }

# is_current OUTPUT WORDS..: whether no file that it is made from, and none of the words, has changed since it was compiled
is_current() {
    local file
    [ "$(cat "target/c/$1.words" 2>/dev/null)" = "${cc[*]} ${strict[*]} ${*:2}" ] || return 1
    for file in "${@:2}" host/*.h include/*.h; do
        if [ -f "$file" ] && [ "$file" -nt "target/c/$1" ]; then
            return 1
        fi
    done
}

# compile_changed OUTPUT WORDS..: as compile, unless nothing has changed since
compile_changed() {
    is_current "$@" && return
    rm -f "target/c/$1.words"
    compile "$@" && printf '%s\n' "${cc[*]} ${strict[*]} ${*:2}" >"target/c/$1.words"
}

# compile_product OUTPUT WORDS..: the same for a program that is installed, with the flags that were given, hardened. No folder's name is in it, so
# that the same sources make the same octets anywhere.
compile_product() { compile_changed "$1" "${cflags[@]}" "${hardening[@]}" "-ffile-prefix-map=$PWD=." "${@:2}" "${ldflags[@]}"; }

# compile_restore HOW OUTPUT WORDS..: compiles what has changed of the program pfcp-restore; HOW is compile_product or compile_changed
compile_restore() {
    local kit
    kit=$(rt doc) || return 1
    kit=${kit%/*}/c
    "$@" "${restore_sources[@]}" target/staticlib/restore.o "$kit/libos_c.a" "$kit/liblibc_c.a" "${stored_sources[@]}" "$archive_file"
}

# build_restore [HOW]: builds what has changed of the program pfcp-restore and of the proved one in it
build_restore() {
    { need_gcc && need_rt && need_nettle; } || return 1
    find_archive "${1:-quietly}" && proved "${1:-quietly}" restore.o build_restoring restore && compile_restore compile_product pfcp-restore
}

# compile_unit: compiles what has changed of the unit and pfcp-list
compile_unit() {
    { compile_product pfcp-unit "${unit_sources[@]}" "$archive_file" && compile_product pfcp-list "${list_sources[@]}" "$archive_file"; } && return
    need_nettle
    return 1
}

# build_unit: builds what has changed of the archive, the unit and pfcp-list; build_all: of pfcp-restore too, which has more to be proved
build_unit() {
    { need_gcc && need_rt && need_nettle; } || return 1
    find_archive aloud && compile_unit
}
build_all() { build_unit && build_restore aloud; }

# build_check: builds what has changed of pfcp-check, which is in Rust, and sets check_file; leaves it out, and says so, where there is no cargo. No
# folder's name is in it; the tests of check/ are built without that, in a folder of their own.
build_check() {
    check_file=
    if ! need_cargo; then
        printf 'pfcp-check is left out\n' >&2
        return
    fi
    RUSTFLAGS="${RUSTFLAGS:-} --remap-path-prefix=$PWD=." quietly cargo build --release --offline --target-dir target/check --manifest-path check/Cargo.toml || return 1
    check_file=target/check/release/pfcp-check
}

# version: the version, which stands in the header; soname: the name that a program asks the dynamic linker for. Before version 1 every
# minor number is another interface.
version() { sed -n 's/^#define PFCP_VERSION "\(.*\)"$/\1/p' include/pfcp_session.h; }
soname() { printf 'libpfcp_session.so.%s\n' "$(version | cut -d. -f1,2)"; }

# build_shared: builds what has changed of the archive and a shared object of it, and sets shared_file. The archive's code is position
# independent; -z text refuses it where it is not.
build_shared() {
    { need_gcc && need_rt; } || return 1
    find_archive aloud || return 1
    shared_file=target/lib/libpfcp_session.so.$(version)
    [ "$shared_file" -nt "$archive_file" ] && [ "$shared_file" -nt include/pfcp_session.h ] && return
    mkdir -p target/lib
    "${cc[@]}" -shared "${ldflags[@]}" -Wl,-soname,"$(soname)" -Wl,-z,text -Wl,-z,defs -Wl,-z,relro -Wl,-z,now \
        -Wl,--whole-archive "$archive_file" -Wl,--no-whole-archive -o "$shared_file"
}

# The counts of a test script.
passed=0
failed=0

# expect WHAT COMMAND..: counts whether a command succeeds
expect() {
    local what=$1
    shift
    if "$@"; then
        passed=$((passed + 1))
    else
        failed=$((failed + 1))
        printf 'failed: %s\n' "$what"
    fi
}

# take_counts FILE STATUS WHAT: adds the counts of a program whose last line is 'N passed, M failed'
take_counts() {
    local last
    last=$(tail -n 1 "$1")
    if [[ $last =~ ^([0-9]+)\ passed,\ ([0-9]+)\ failed$ ]]; then
        passed=$((passed + BASH_REMATCH[1]))
        failed=$((failed + BASH_REMATCH[2]))
        if [ "$2" -ne 0 ] && [ "${BASH_REMATCH[2]}" -eq 0 ]; then
            failed=$((failed + 1))
            printf 'failed: %s ended with exit status %s\n' "$3" "$2"
        fi
    else
        failed=$((failed + 1))
        printf 'failed: %s did not count its tests (exit status %s)\n' "$3" "$2"
    fi
}

# take_cargo_counts FILE STATUS WHAT: adds the counts of the test programs that cargo has run: 'test result: ok. N passed; M failed; ..'
take_cargo_counts() {
    local good bad counted=0 sum=0
    while read -r good bad; do
        counted=$((counted + good + bad))
        passed=$((passed + good))
        failed=$((failed + bad))
        sum=$((sum + bad))
    done < <(sed -n 's/^test result: [a-zA-Z]*\. \([0-9]*\) passed; \([0-9]*\) failed;.*/\1 \2/p' "$1")
    if [ "$2" -ne 0 ] || [ "$counted" -eq 0 ]; then
        cat "$1"
        [ "$sum" -gt 0 ] || failed=$((failed + 1))
    fi
    printf '%s: %s run, %s failed\n' "$3" "$counted" "$sum"
}

# finish: the last line of a test script, and its exit status
finish() {
    printf '%s passed, %s failed\n' "$passed" "$failed"
    [ "$failed" -eq 0 ] && exit 0
    exit 1
}

# give_up: ends a test script that cannot run
give_up() {
    failed=$((failed + 1))
    finish
}
