#!/bin/bash
# Runs six commands again and again with an allocation refused, and checks that each ends in order: a run of two writers in blocking mode, a run whose
# ring is full, a run with texts for terminals, a run under orders of levels, and a decoding that finds a fault, without threads and by three.
#
#   tests/refused-memory.sh PROGRAM
#
# A small C library, which is compiled here and loaded in front of the C library's own, counts the program's allocations from its start on. It refuses the
# N-th alone or, the second time, the N-th and all behind it. N counts up from 1 until it is above the number of allocations that an undisturbed run
# makes, and the command's own status was answered at 64 numbers that follow one another. In each run the status is 1 or the command's own:
#   at 1           the output is empty, of 'decode' a front of the whole, and 'memory' was said
#   at its own     the output is whole, and the words of this status were said. That may be so where an allocation was refused: a writer whose thread can't be
#                  started is run by the calling thread, and a buffer for parts of a recording that can't be doubled stays as long as it is
# Where the words themselves find no memory nothing is said; 'memory' is unsaid only where all allocations from one on are refused.
# Where there is no C compiler, or the library can't be loaded, the script is skipped. The last line is 'N passed, M failed'.

. "$(dirname "$0")/runner.sh"
takes_program "$@"

# The numbers of the first and the last refused allocation stand in the environment, and the number of all is written to the file descriptor 9.
cat > "$work/refuse.c" <<'SOURCE'
#include <errno.h>
#include <stdatomic.h>
#include <stdio.h>
#include <stdlib.h>
#include <sys/syscall.h>
#include <unistd.h>

extern void *__libc_malloc(size_t), *__libc_calloc(size_t, size_t), *__libc_realloc(void *, size_t), *__libc_memalign(size_t, size_t);

static long first, last;
static atomic_long asked;
static atomic_int counting;

/* Loaded libraries are ready, and the program's main comes next. */
__attribute__((constructor)) static void begin(void) {
    first = atol(getenv("REFUSE_FROM"));
    last = atol(getenv("REFUSE_TO"));
    atomic_store(&counting, 1);
}

/* The program ends by _exit or by exit. */
__attribute__((destructor)) static void end(void) {
    char text[32];
    atomic_store(&counting, 0);
    int length = snprintf(text, sizeof text, "%ld\n", atomic_load(&asked));
    if (write(9, text, length) != length) syscall(SYS_exit_group, 70);
}
void _exit(int status) {
    end();
    for (;;) syscall(SYS_exit_group, status);
}

static int is_refused(void) {
    if (!atomic_load(&counting)) return 0;
    long number = atomic_fetch_add(&asked, 1) + 1;
    if (number < first || number > last) return 0;
    errno = ENOMEM;
    return 1;
}

void *malloc(size_t size) { return is_refused() ? NULL : __libc_malloc(size); }
void *calloc(size_t count, size_t size) { return is_refused() ? NULL : __libc_calloc(count, size); }
void *realloc(void *old, size_t size) { return is_refused() ? NULL : __libc_realloc(old, size); }
void *memalign(size_t align, size_t size) { return is_refused() ? NULL : __libc_memalign(align, size); }
void *aligned_alloc(size_t align, size_t size) { return is_refused() ? NULL : __libc_memalign(align, size); }
int posix_memalign(void **place, size_t align, size_t size) {
    void *memory = is_refused() ? NULL : __libc_memalign(align, size);
    if (memory == NULL) return ENOMEM;
    *place = memory;
    return 0;
}
SOURCE

compiler=
for name in gcc clang cc; do
    command -v "$name" > /dev/null && { compiler=$name; break; }
done
[ -n "$compiler" ] || needs gcc
"$compiler" -shared -fPIC -O1 -o "$work/refuse.so" "$work/refuse.c" 2> "$work/errors" || { cat "$work/errors"; skip "all of it, since $compiler doesn't compile the library"; counts; }

# run FROM TO WORD..: a run whose allocations FROM to TO are refused. Leaves its status, what it wrote and said, and how many allocations it asked for.
run() {
    local from=$1 to=$2
    shift 2
    : > "$work/asked"
    timeout 60 env LD_PRELOAD="$work/refuse.so" REFUSE_FROM="$from" REFUSE_TO="$to" "$program" "$@" < "$work/input" > "$work/written" 2> "$work/said" 9> "$work/asked"
    status=$?
    IFS= read -r -d '' written < "$work/written"
    IFS= read -r -d '' said < "$work/said"
    IFS= read -r asked < "$work/asked"
}

# is_ordered STATUS SAID: whether the run that was made last ended with status 1 or with this status, each as it should
is_ordered() {
    if [ "$status" -eq 1 ]; then
        case $said,$mode in
            $'memory\n',* | ,all) ;;
            *) return 1 ;;
        esac
        if [ "$command" = decode ]; then [[ $due == "$written"* ]]; else [ -z "$written" ]; fi
    else
        [ "$status" -eq "$1" ] && [ "$written" = "$due" ] && { [ "$said" = "$2" ] || [ -z "$said" ]; }
    fi
}

# refuse NAME STATUS SAID WORD..: the input is in the file 'input'; an undisturbed run ends with this status and says this
refuse() {
    local name=$1 own=$2 words=$3 number row refused runs=0 bad=0
    shift 3
    command=$1
    run 0 0 "$@"
    due=$written count=$asked
    if [ "$status" -ne "$own" ] || [ "$said" != "$words" ] || [ -z "$due" ]; then
        fail "$name: undisturbed it ends with status $status, $said"
        return
    fi
    [ -n "$count" ] || { skip "all of it, since the library isn't loaded into $program"; counts; }
    for mode in one all; do
        number=0 row=0 refused=0
        until [ "$row" -ge 64 ] && [ "$number" -gt "$count" ]; do
            number=$((number + 1)) runs=$((runs + 1))
            if [ "$mode" = one ]; then run "$number" "$number" "$@"; else run "$number" 1000000000 "$@"; fi
            if is_ordered "$own" "$words"; then pass; else
                failed=$((failed + 1)) bad=$((bad + 1))
                [ "$bad" -gt 5 ] || echo "FAILED: $name: allocation $number refused ($mode): status $status, said '${said%$'\n'}', wrote ${#written} letters"
            fi
            if [ "$status" -eq "$own" ]; then row=$((row + 1)); else row=0 refused=$((refused + 1)); fi
            [ "$number" -lt 20000 ] || { fail "$name: its own status doesn't come again"; break; }
        done
        [ "$mode" = one ] && ones=$refused || alls=$refused
    done
    echo "$name: $count allocations, $runs runs; want of memory at $ones numbers alone, and at $alls with all behind them"
}

printf '%s\n' 'ring 64' 's a defmt_info a {=u8}' 's b defmt_warn b {=bool}' 'w 0 a 1' 'w 1 b true' 'w 0 a 2' 'w 1 b false' > "$work/input"
refuse 'run --group, two writers' 0 '' run --group

printf '%s\n' 'ring 16' 'mode skip' 'reader late' 's hi defmt_info hello' 'w 0 hi' 'w 0 hi' 'w 0 hi' 'w 0 hi' 'w 0 hi' > "$work/input"
refuse 'run, a ring that is full' 0 '' run

printf '%s\n' 'ring 64' 's a defmt_info a {=u8}' 'w 0 a 1' 't 0 0 ready' 't 1 A tick' 'w 0 a 2' 't 1 A tock' 't 0 0 done' > "$work/input"
refuse 'term, two writers' 0 '' term

printf '%s\n' 'ring 64' 'd 0 warn' 's a defmt_info a {=u8}' 's b defmt_warn b {=bool}' 'w 0 a 1' 'w 1 b true' 'w 0 a 2' 'w 1 b false' > "$work/input"
refuse 'steer, two writers' 0 '' steer

printf '%s\n' 's hi defmt_info hello' 'w 0 hi' > "$work/input"
"$program" table < "$work/input" > "$work/table.elf"
printf '\x7e\0\0\x01\x7e\0' > "$work/input"
refuse 'decode, a front that is cut' 9 $'events with faults 1\n' decode --table "$work/table.elf"
refuse 'decode by three threads' 9 $'events with faults 1\n' decode --jobs 3 --table "$work/table.elf"

counts
