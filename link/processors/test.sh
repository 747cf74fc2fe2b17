# What link/portable test runs: sourced by it.

data=$top/crates/test_tables/data
rounds=${ROUNDS:-100}
failed=0
warnings=(-std=c11 -O2 -Wall -Wextra -Wpedantic -Werror "-I$top/include" "-I$here")
wrap=-Wl,--wrap=malloc,--wrap=realloc,--wrap=free

# bytes TOOL FILE..: how many bytes of code and constants.
bytes() {
    local tool=$1
    shift
    "$tool" "$@" | awk 'NR > 1 { sum += $1 } END { print sum }'
}

fails() {
    echo "$1: FAILED: $2"
    failed=1
}

# over NAME COMPILER QEMU SYSROOT REQUESTS LIBRARY..: the programs of link/ over a library, in $options. REQUESTS: how often it asks
# for memory for a packet.
over() {
    local name=$1 compiler=$2 qemu=$3 sysroot=$4 requests=$5 program came
    shift 5
    rm -f "$work"/run-*
    for program in test session fuzz order frames suite; do
        "$compiler" "${warnings[@]}" "${options[@]}" -static "$here/$program.c" "$@" -o "$work/run-$program" || { fails "$name" "$program.c"; return; }
    done
    "$compiler" "${warnings[@]}" "${options[@]}" -D_GNU_SOURCE "-DA_PACKET=$requests" "$wrap" "$here/memory.c" "$@" -o "$work/run-memory" ||
        { fails "$name" memory.c; return; }
    # shellcheck disable=SC2086
    {
        $qemu "$work/run-test" "$data/packets.txt" "$data/replies.txt" > "$work/said" || { cat "$work/said"; fails "$name" test; return; }
        $qemu "$work/run-session" | cmp -s - "$here/session.out" || { fails "$name" session; return; }
        $qemu ${sysroot:+-L $sysroot} "$work/run-memory" > "$work/memory" || { cat "$work/memory"; fails "$name" memory; return; }
        $qemu "$work/run-order" > "$work/order" || { fails "$name" order; return; }
        $qemu "$work/run-suite" "$here/suite.txt" > "$work/rows" || { cat "$work/rows"; fails "$name" suite; return; }
        $qemu "$work/run-frames" > "$work/frames" || { cat "$work/frames"; fails "$name" frames; return; }
        came=$($qemu "$work/run-fuzz" "$rounds" 1 "$data/packets.txt" "$data/calls.txt" "$data/loops.txt") || came=
    }
    sums "$name" "$came" "$(head -n 1 "$work/said"), $(tail -n 1 "$work/rows"), $(tail -n 1 "$work/said"), memory"
    for program in bench stack; do
        "$compiler" "${warnings[@]}" "${options[@]}" -D_GNU_SOURCE -pthread -static "$here/$program.c" "$@" -o "$work/run-$program" ||
            { fails "$name" "$program.c"; return; }
    done
    # shellcheck disable=SC2086
    echo "    stack: $($qemu "$work/run-stack" | tr '\n' ' ')"
    # shellcheck disable=SC2086
    $qemu "$work/run-stack" calls > "$work/painted" || { fails "$name" "stack calls"; return; }
    if [ -z "$qemu" ]; then
        echo "    $("$work/run-bench" 200000)"
    else
        echo "    $((($(traced 300) - $(traced 100)) / 200)) instructions a packet"
    fi
}

# traced N: how many instructions QEMU meets while so many packets are served.
traced() {
    rm -f "$work/trace"
    mkfifo "$work/trace"
    $qemu -singlestep -d exec,nochain -D "$work/trace" "$work/run-bench" "$1" > /dev/null &
    grep -c '^Trace' "$work/trace"
    wait $!
}

# sums NAME CAME TOLD: the first library's sum is that of all, and so are its codes of random calls, in $work/order, and what came of
# frames, in $work/frames.
sums() {
    : "${wanted:=$2}" "${ordered:=$(cat "$work/order")}" "${framed:=$(cat "$work/frames")}"
    [ "$(cat "$work/frames")" = "$framed" ] || { fails "$1" "$(cat "$work/frames")"; return; }
    [ "$(cat "$work/order")" = "$ordered" ] || { fails "$1" "the order of codes: $(cat "$work/order")"; return; }
    if [ "$2" = "$wanted" ] && [ -n "$2" ]; then echo "$1: $3, session, sum ${2%%:*}, ${framed/, 0 failed/}"; else fails "$1" "the sum is ${2%%:*}"; fi
}

# asked NAME: whether the word has it.
asked() { [[ $1 == *"$word"* ]]; }

# has NAME COMPILER QEMU: whether both are there.
has() {
    asked "$1" || return 1
    command -v "$2" > /dev/null && { [ -z "$3" ] || command -v "${3%% *}" > /dev/null; } || { echo "$1: skipped: $2 or $3 is missing"; return 1; }
}

# archived PROCESSOR PREFIX
archived() {
    local name="$1, archive"
    has "$name" "$2-gcc" "qemu-$1" || return 0
    archive "$1" "$work/$1.a"
    options=()
    over "$name" "$2-gcc" "qemu-$1" "/usr/$2" 1 "$work/$1.a" "$here/heap.c"
    echo "    $(bytes "$2-size" "$work/$1.a") bytes of code and constants"
    computed "$name" --painted "$work/painted" --outside 384 "$work/$1.a"
}

# computed NAME WORD..: how much stack each call takes at most, by link/stack.
computed() {
    local name=$1
    shift
    "$here/stack" "$@" > "$work/computed" || fails "$name" "link/stack"
    sed -n 's/^  /    computed: /p' "$work/computed"
}

# compiled NAME PREFIX QEMU SYSROOT OPTION..: the C source. PREFIX ends in -, or is empty for this processor.
compiled() {
    local name="$1, source" prefix=$2 qemu=$3 sysroot=$4 file
    shift 4
    has "$name" "${prefix}gcc" "$qemu" || return 0
    options=("$@")
    for file in sandbarstove host rt heap; do
        "${prefix}gcc" -std=c11 -O2 "$@" -c "$work/source/$file.c" -o "$work/$file.o" || { fails "$name" "$file.c"; return 0; }
    done
    over "$name" "${prefix}gcc" "$qemu" "$sysroot" 0 "$work"/{sandbarstove,host,rt,heap}.o
    echo "    $(bytes "${prefix}size" "$work"/{sandbarstove,host,rt}.o) bytes of code and constants"
    computed "$name" --source "$work/source" --cc "${prefix}gcc -O2 $*"
}

# least OBJECT..: how much heap nodes take at least.
least() {
    cc "${warnings[@]}" "$here/least.c" "$@" -o "$work/run-least" || { fails least least.c; return; }
    "$work/run-least" | sed 's/^/    heap: /'
}

# limits: what the C source does at its limits, over what compiled x86_64 left. The compiler has nothing to warn of; with four pages the codes come in order, however
# much is lent; with all pages from the opening on none is asked for anew; and a call past the end of the module's stack traps.
limits() {
    local name="x86_64, source, limits" came
    asked "$name" || return 0
    [ -e "$work/sandbarstove.o" ] || { echo "$name: skipped: x86_64, source is not asked for"; return 0; }
    cc -std=c11 -fsyntax-only -Wall -Wextra -Wpedantic -Wconversion -Werror "$work"/source/*.c || { fails "$name" "a warning"; return 0; }
    for came in four:-DPORTABLE_PAGES=4 all:-DPORTABLE_PAGES_AT_OPENING=48 trap:-DSANDBAR_TRAP; do
        for file in host rt; do
            cc -std=c11 -O2 "${came#*:}" -c "$work/source/$file.c" -o "$work/${came%%:*}-$file.o" || { fails "$name" "$file.c"; return 0; }
        done
    done
    cc "${warnings[@]}" "$here/test.c" "$work"/{sandbarstove,four-host,four-rt,heap}.o -o "$work/run-four" &&
        cc "${warnings[@]}" -Wl,--wrap=rattle_realloc "$here/test.c" "$parts/fixed.c" "$work"/{sandbarstove,all-host,all-rt,heap}.o -o "$work/run-all" &&
        cc "${warnings[@]}" "-I$work/source" "$parts/overflow.c" "$work"/{sandbarstove,trap-host,trap-rt,heap}.o -o "$work/run-trap" ||
        { fails "$name" "it is not compiled"; return 0; }
    "$work/run-four" order > "$work/said" || { cat "$work/said"; fails "$name" "the order of codes"; return 0; }
    "$work/run-all" "$data/packets.txt" "$data/replies.txt" > "$work/said" || { cat "$work/said"; fails "$name" "all pages"; return 0; }
    "$work/run-trap" > "$work/said" || { cat "$work/said"; fails "$name" "the end of the stack"; return 0; }
    echo "$name: no warning, order of codes, all pages at opening, end of the stack: $(cat "$work/said")"
    least "$work"/{sandbarstove,host,rt}.o
}

# memory TOOL FILE..: how many bytes of data and zeros.
memory() {
    local tool=$1
    shift
    "$tool" "$@" | awk 'NR > 1 { sum += $2 + $3 } END { print sum }'
}

# Which processor the rows without an OS have an archive for, if they have one.
archive_for=

# GCC's own library, which the rows without an OS ask for what the processor has no instruction for.
libgcc=-lgcc

way() { if [ -n "$archive_for" ]; then echo archive; else echo source; fi; }

# bare NAME COMPILER START LINK BOARD.. -- OPTION..: without an OS, over a pool: of the source, or of the archive for the processor
# that $archive_for names. START: files of bare/, in one word.
bare() {
    local name="$1, $(way), no OS" compiler=$2 start link=$4 board=() program words came library=() beside=()
    read -ra start <<< "$3"
    start=("${start[@]/#/$parts/bare/}")
    shift 4
    while [ "$1" != -- ]; do board+=("$1"); shift; done
    shift
    has "$name" "$compiler" "${board[0]}" || return 0
    local flags=(-std=c11 -Os -ffreestanding -fno-builtin -fno-common -ffunction-sections -fdata-sections -fno-pic -fno-stack-protector
        -DSANDBAR_TRAP -DPORTABLE_PAGES=48 "-DPOOL=(10u << 20)" "-I$parts/bare/include" "-I$work/source" "-I$here" "$@")
    for file in sandbarstove host rt pool; do
        [ -z "$archive_for" ] || [ "$file" = pool ] || continue
        "$compiler" "${flags[@]}" -c "$work/source/$file.c" -o "$work/bare-$file.o" || { fails "$name" "$file.c"; return 0; }
        [ "$file" = pool ] || beside+=("$work/bare-$file.o")
    done
    if [ -n "$archive_for" ]; then
        archive "$archive_for" "$work/bare.a"
        beside=("$work/bare.a")
    fi
    library=("${beside[@]}" "$work/bare-pool.o")
    for program in test session fuzz order frames suite; do
        case $program in
        suite) words='"suite"' ;;
        test) words='"packets", "replies"' ;;
        session | frames) words='0' ;;
        order) words='"2000"' ;;
        fuzz) words="\"$rounds\", \"1\", \"packets\", \"calls\", \"loops\"" ;;
        esac
        "$compiler" "${flags[@]}" -nostdlib -static -no-pie "-DWORDS=$words" "-DDATA=\"$data\"" "-DSUITE=\"$here/suite.txt\"" \
            -Wl,--gc-sections,--build-id=none,--no-warn-rwx-segments,-z,noexecstack -T "$parts/bare/$link" "${start[@]}" \
            "$parts/bare/bare.c" "$here/board/string.c" "$here/$program.c" "${library[@]}" ${libgcc:+"$libgcc"} -o "$work/bare-$program" || { fails "$name" "$program.c"; return 0; }
        timeout 600 "${board[@]}" -kernel "$work/bare-$program" < /dev/null > "$work/bare-$program.out" 2>&1 || true
        tr -d '\r' < "$work/bare-$program.out" > "$work/said"
        grep -q '^status 0$' "$work/said" || { tail -n 5 "$work/said"; fails "$name" "$program"; return 0; }
        mv "$work/said" "$work/bare-$program.out"
    done
    grep -v '^status 0$' "$work/bare-session.out" | cmp -s - "$here/session.out" || { fails "$name" session; return 0; }
    came=$(grep nodes "$work/bare-fuzz.out")
    grep : "$work/bare-order.out" > "$work/order"
    grep : "$work/bare-frames.out" > "$work/frames"
    sums "$name" "$came" "$(head -n 1 "$work/bare-test.out"), $(grep '^suite' "$work/bare-suite.out"), $(grep checks "$work/bare-test.out"), pool"
    echo "    $(bytes "${compiler%gcc}size" "${library[@]}") bytes of code and constants, $(
        memory "${compiler%gcc}size" "${beside[@]}") of memory beside the pool"
    case $archive_for in
    "") computed "$name" --source "$work/source" --cc "$compiler ${flags[*]@Q}" ;;
    *) computed "$name" "$work/bare.a" ;;
    esac
}

# board NAME COMPILER START QEMU.. -- OPTION..: link/board as the page builds it, and the packet lines over its UART.
board() {
    local name="$1, $(way), UART" compiler=$2 start=$3 qemu=() low high library=({sandbarstove,host,rt}.c)
    shift 3
    while [ "$1" != -- ]; do qemu+=("$1"); shift; done
    shift
    has "$name" "$compiler" "${qemu[0]}" || return 0
    if [ -n "$archive_for" ]; then
        archive "$archive_for" "$work/source/board.a"
        library=(-UPOOL -DPOOL=234496 -Wl,--defsym=STACK=20480 board.a)
    fi
    (cd "$work/source" && "$compiler" @board/options -Wall -Wextra -Wpedantic -Wconversion -Werror "$@" -T "board/$start.ld" pool.c \
        board/{loop,string,"$start"}.c "${library[@]}" -lgcc -o "$work/board.elf") || { fails "$name" "it is not compiled"; return 0; }
    low=$("${compiler%gcc}nm" "$work/board.elf" | awk '$3 == "stack_from" { print $1 }')
    high=$("${compiler%gcc}nm" "$work/board.elf" | awk '$3 == "stack_to" { print $1 }')
    python3 "$parts/board.py" "$data/packets.txt" "$data/replies.txt" "$low" "$high" "${qemu[@]}" -kernel "$work/board.elf" > "$work/said" ||
        { fails "$name" "the replies"; return 0; }
    echo "$name: $(cat "$work/said"), $(bytes "${compiler%gcc}size" "$work/board.elf") bytes of code and constants, $(
        memory "${compiler%gcc}size" "$work/board.elf") of memory"
}

test_all() {
    word=$1
    needs cc gcc
    if [ -n "${SANDBAR_MODULE:-}" ]; then cp "$SANDBAR_ARCHIVE" "$work/x86_64.a"; else module; fi
    options=()
    over "x86_64, archive" cc "" "" 1 "$work/x86_64.a" "$here/heap.c"
    echo "    $(bytes size "$work/x86_64.a") bytes of code and constants"
    least "$work/x86_64.a"
    mkdir "$work/source"
    c_source "$work/source"
    archived aarch64 aarch64-linux-gnu
    archived riscv64 riscv64-linux-gnu
    compiled x86_64 "" "" ""
    limits
    compiled "x86_64, no access tested" "" "" "" -DWASM_RT_MEMCHECK_SIGNAL_HANDLER=1
    compiled aarch64 aarch64-linux-gnu- qemu-aarch64 /usr/aarch64-linux-gnu
    compiled riscv64 riscv64-linux-gnu- qemu-riscv64 /usr/riscv64-linux-gnu
    compiled "arm (32 bits)" arm-linux-gnueabihf- qemu-arm /usr/arm-linux-gnueabihf
    compiled "powerpc (32 bits, highest byte first)" powerpc-linux-gnu- qemu-ppc /usr/powerpc-linux-gnu
    compiled "s390x (highest byte first)" s390x-linux-gnu- qemu-s390x /usr/s390x-linux-gnu
    compiled "sparc leon3 (32 bits, highest byte first)" sparc64-linux-gnu- \
        "qemu-sparc32plus -E LD_LIBRARY_PATH=/usr/sparc64-linux-gnu/lib32" /usr/sparc64-linux-gnu -m32 -mcpu=leon3 \
        -Wl,-dynamic-linker,/lib32/ld-linux.so.2
    for archive_for in "" thumbv7m; do
        bare "cortex-m7" arm-none-eabi-gcc "m7.c" m7.ld qemu-system-arm -M mps2-an500 -nographic -monitor none -serial none \
            -semihosting-config enable=on,target=native -- -mcpu=cortex-m7 -mthumb
        board "cortex-m4" arm-none-eabi-gcc cortex-m qemu-system-arm -M mps2-an386 -- -mcpu=cortex-m4 -mthumb
    done
    for archive_for in "" riscv32; do
        bare "riscv32" riscv64-unknown-elf-gcc riscv.S ram.ld qemu-system-riscv32 -M virt -m 128M -bios none -nographic -monitor none \
            -serial none -semihosting-config enable=on,target=native -- -march=rv32imac -mabi=ilp32 -Wl,--defsym=BASE=0x80000000
        board "riscv32" riscv64-unknown-elf-gcc riscv qemu-system-riscv32 -M virt -bios none -- -march=rv32imac -mabi=ilp32
    done
    archive_for=
    board "riscv64" riscv64-unknown-elf-gcc riscv qemu-system-riscv64 -M virt -bios none -- -march=rv64imac -mabi=lp64 -mcmodel=medany
    bare "riscv64" riscv64-linux-gnu-gcc riscv.S ram.ld qemu-system-riscv64 -M virt -m 128M -bios none -nographic -monitor none \
        -serial none -semihosting-config enable=on,target=native -- -march=rv64gc -mabi=lp64d -mcmodel=medany -Wl,--defsym=BASE=0x80000000
    # That of SPARC is for v8+, and QEMU's LEON3 loads no program that has a function of it. So the linker names what wide.c lacks.
    libgcc= bare "sparc leon3" sparc64-linux-gnu-gcc "leon3.S ../../board/wide.c" ram.ld qemu-system-sparc -M leon3_generic -nographic -monitor none \
        -serial stdio -- -m32 -mcpu=leon3 -Wl,--defsym=BASE=0x40000000
    [ "$failed" = 0 ] || stop "one failed"
    echo "portable: all held"
}
