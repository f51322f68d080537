#!/bin/bash
# Runs ./defmtl and tools/build over a kit that proves nothing, and checks what they build, when, what they tell and how they end; and the installed
# command.
#
#   tests/launcher.sh
#
# A folder has a copy of the launcher and its tools, a few crates and a kit of small scripts: its rt "proves" a crate by a short sleep, and "builds" a program
# that is a script too, and tells which sources it was built of. The last line is 'N passed, M failed'.

# A signal that is ignored here, as nohup has it, would stop no build.
[ -n "$SIGNALS_STOP" ] || SIGNALS_STOP=1 exec env --default-signal bash "$0" "$@"

. "$(dirname "$0")/runner.sh"
# (a folder of temporary files of its own, so that what others leave in theirs counts for nothing)
mkdir "$work/temporary" && export TMPDIR=$work/temporary || exit 2
unset DEFMTL_UNPROVED

# ---- the kit

kit=$work/kit
mkdir -p "$kit/bin" "$kit/toolchain/bin" "$kit/toolchain/lib" "$kit/rattle" "$kit/c" "$work/path"
touch "$kit/START-HERE.md" "$kit/rattle/logic" "$kit/bin/rtlib.py" "$kit/toolchain/bin/clang"

# The program writes which text of defmt_run it was built of to the standard error, and does what its first word says.
cat > "$kit/program" << 'PROGRAM'
#!/bin/bash
echo "TEXT" >&2
case $1 in
    run) cat ;;
    end) exit "$2" ;;
    --help) echo words >&2; exit 2 ;;
    say) echo "$3" >&2; exit "$2" ;;
    words) printf '%s\n' "$@" ;;
    open) for it in /proc/self/fd/*; do readlink "$it"; done | grep launcher ;;
    wait) touch "$2"; exec sleep 30 ;;
    full) echo more; [ $? -eq 0 ] || exit 4 ;;
    number) echo $$ ;;
esac
PROGRAM

# `rt ci` proves the crates of crates.txt, lowest first, and keeps in $KIT/kept of what it proved each. Each that is proved is a line of $KIT/proved, each
# call one of $KIT/calls, and what the folder of a call had is in $KIT/had. $KIT/seconds says how long a proof takes, and $KIT/slow/NAME how long one takes
# that takes another time. A file $KIT/refuses names a crate that can't be proved, and $KIT/others has the names of those that another run proves just now.
# What `rt try` runs has a second; the real one has a minute.
cat > "$kit/bin/rt" << 'RT'
#!/bin/bash
KIT=
echo "${PWD##*/} $*" >> "$KIT/calls"
pause() { setpriv --pdeathsig KILL sleep "$1" & echo $! >> "$KIT/sleeps"; wait; }
below() { sed -n "s/^$1\( [^:]*\)*://p" crates.txt | tr ' ' '\n' | grep -vx 'std\|'; }
# What a crate is proved of: its line, its text, and those of the crates below it
text() { local it; { grep "^$1[ :]" crates.txt; cat crates/"$1"/{src,specs,proofs}/*; for it in $(below "$1"); do text "$it"; done; } 2> /dev/null | cksum; }
prove() {
    local it
    for it in $(below "$1"); do
        [ -n "${proved[$it]}" ] || { echo "rt: $1 NOT PROVED: its library $it failed"; return; }
    done
    if [ "$(cat "$KIT/kept/$1" 2> /dev/null)" = "$(text "$1")" ]; then
        echo "rt: $1 is kept: an earlier run on this machine proved the same files over the same libraries"
    else
        ! grep -qx "$1" "$KIT/others" || echo "rt: $1: another run on this machine is proving the same; waiting for it"
        pause "$(cat "$KIT/slow/$1" 2> /dev/null || cat "$KIT/seconds")"
        [ "$(cat "$KIT/refuses" 2> /dev/null)" != "$1" ] || { printf '== %s\nerror: %s is not proved\nrt: %s NOT PROVED\n' "$1" "$1" "$1"; return; }
        echo "$1" >> "$KIT/proved"
        text "$1" > "$KIT/kept/$1"
        printf '== %s\ndone\nrt: %s proved\n' "$1" "$1"
    fi
    proved[$1]=1
}
declare -A proved
case $1 in
    doc) echo "$KIT/START-HERE.md" ;;
    version) echo 'the kit' ;;
    ci)
        { [ $# -eq 1 ] && [ -d .git ] && [ -w "$TMPDIR" ]; } || { echo 'rt: this is no repository'; exit 2; }
        find . -type f | sort > "$KIT/had" && cp crates.txt HANDLES "$KIT" || exit 2
        for it in $(sed '/^#/d; s/[ :].*//' crates.txt); do prove "$it"; done
        [ -n "${proved[defmt_cli]}" ] || { echo '5 passed, 1 failed'; exit 1; }
        mkdir crates/defmt_cli/out && sed "s/TEXT/proved $(cat crates/defmt_run/src/lib.rt)/" "$KIT/program" > crates/defmt_cli/out/defmt_cli
        chmod +x crates/defmt_cli/out/defmt_cli
        printf 'rt: defmt_cli ran, and wrote what its file stdout has\n6 passed, 0 failed\n' ;;
    try)
        [ "$(cat "$KIT/refuses" 2> /dev/null)" != try ] || { echo 'error: the program is not read'; exit 2; }
        { [ -f "${0%/bin/rt}/rattle/logic" ] && [ -f "${0%/bin/rt}/toolchain/bin/clang" ] && [ -f "${0%/rt}/rtlib.py" ]; } || { echo 'error: the kit is not whole'; exit 1; }
        pause "$(cat "$KIT/seconds")"
        "${0%/bin/rt}/toolchain/bin/ld.lld" -o "$KIT/tried" defmt_run && timeout 1 "$KIT/tried" run < /dev/null ;;
esac
RT
cat > "$kit/toolchain/bin/ld.lld" << 'LINKER'
#!/bin/bash
sed "s/TEXT/unproved $(cat "../$3/src/lib.rt")/" "${0%/toolchain/*}/program" > "$2" && chmod +x "$2"
LINKER
chmod +x "$kit/bin/rt" "$kit/toolchain/bin/ld.lld"
ln -s "$kit/bin/rt" "$work/path/rt"
sed -i "s|^KIT=.*|KIT=$kit|" "$kit/bin/rt"
PATH=$work/path:$PATH

# begin SECONDS: a repository in which nothing was built, and a proof takes so long
begin() {
    rm -rf "$work/top" "$kit/refuses" "$kit/slow" "$kit/kept" && mkdir "$kit/slow" "$kit/kept"
    for it in calls proved others sleeps; do : > "$kit/$it"; done
    echo "$1" > "$kit/seconds"
    mkdir "$work/top" && cd "$work/top" || exit 2
    mkdir -p docs/generated && cp -r "$top/defmtl" "$top/tools" . && cp "$top"/docs/{commands.txt,EXPLAIN.md,defmtl.1,defmtl.completion} docs || exit 2
    printf '%s\n' '# a comment' 'low:' 'left: low std' 'right: low' 'top: left right' 'defmt_run may_wait=9: top' 'defmt_cli: defmt_run' 'low_tests: low' 'aside: low' > crates.txt
    echo 'Handles allowed: none.' > HANDLES
    for it in low left right top defmt_run defmt_cli low_tests aside; do
        mkdir -p "crates/$it/src"
        printf 'one' > "crates/$it/src/lib.rt"
        mkdir "crates/$it/must-fail" && touch "crates/$it/must-fail/wrong.edit" "crates/$it/README.md"
    done
    touch crates/defmt_cli/{args,stdin,stdout}
}

# call WORD..: runs the launcher. Leaves its status, and what it wrote and said.
call() {
    wrote=$(./defmtl "$@" 2> "$work/said")
    status=$?
    said=$(< "$work/said")
}
# (but for those that ask where the kit is, and which it is)
calls() { grep -vc '^$\| doc$\| version$' "$kit/calls"; }
proofs() { sort "$kit/proved" | tr '\n' ' '; }
strays() {
    find . -type f ! -path './crates/*/src/*' ! -path './crates/*/must-fail/*' ! -name README.md ! -name crates.txt ! -name HANDLES ! -name defmtl \
        ! -path './docs/*' ! -path './tools/*' ! -name args ! -name stdin ! -name stdout ! -name 'defmt_cli*' ! -name launcher.lock
    find . -name out ! -path './crates/defmt_cli/*'
    find "$TMPDIR" -mindepth 1 -maxdepth 1
}
all_crates='defmt_cli defmt_run left low right top '

# until_true WORD..: waits until a command succeeds, at most ten seconds
until_true() { for ((turn = 0; turn < 200; turn++)); do "$@" > /dev/null 2>&1 && return; sleep 0.05; done; return 1; }
is_tidy() { [ -z "$(strays)" ]; }
has_begun() { [ "$(wc -l < "$kit/sleeps")" -ge "$1" ]; }
is_gone() { ! kill -0 "$1" 2> /dev/null; }

# ---- the first build

begin 0.1
call words a 'b  c' '' < /dev/null
is 'a first build' "$status" 0
is 'the words' "$wrote" $'words\na\nb  c'
is 'each crate is proved once, test crates and those aside are not' "$(proofs)" "$all_crates"
has 'the program is the proved one' "$said" 'proved one'
has 'how far a build is at first' "$said" 'crate 0 of 6 is done. About '
has 'how far a build is' "$said" 'crate 2 of 6 is done: left. About '
has 'how long the first build takes' "$said" 'on four processors, twice that on two'
is 'a build is one call of rt' "$(calls)" 1
is 'it proves a copy of the crates that the program needs, with nothing else in it' "$(tr '\n' ' ' < "$kit/had")" "./HANDLES $(
    )./crates.txt ./crates/defmt_cli/args ./crates/defmt_cli/src/lib.rt ./crates/defmt_cli/stdin ./crates/defmt_cli/stdout ./crates/defmt_run/src/lib.rt $(
    )./crates/left/src/lib.rt ./crates/low/src/lib.rt ./crates/right/src/lib.rt ./crates/top/src/lib.rt "
is 'the line of each crate is the one of the repository, as what is kept of it hangs on that too' "$(< "$kit/crates.txt")" \
    $'low:\nleft: low std\nright: low\ntop: left right\ndefmt_run may_wait=9: top\ndefmt_cli: defmt_run'
is 'and so are the handles' "$(< "$kit/HANDLES")" 'Handles allowed: none.'
is 'no file is left behind' "$(strays)" ''
: > "$kit/calls"
call run < <(echo hello)
is 'a later call' "$wrote" hello
is 'a later call says what the program says' "$said" 'proved one'
is 'a later call builds nothing' "$(calls)" 0
for number in 0 1 2 9 63; do
    call end "$number"
    is "the program's status $number" "$status" "$number"
done

# ---- the page, what a refusal means, and the installation

# on_terminal WORD..: a call whose standard error is a terminal; what is said there stands in the file `said`, with its newlines as they are typed
on_terminal() {
    printf -v line '%q ' ./defmtl "$@"
    script -qec "$line > $work/wrote < /dev/null" /dev/null > "$work/said" < /dev/null
    status=$? wrote=$(< "$work/wrote") said=$(tr -d '\r' < "$work/said")
}
for words in --help -h help; do
    call "$words"
    is "the page, by '$words'" "$status $said" '0 '
    for name in decode dump run term steer record table print gen help; do has "the page names $name" "$wrote" "defmtl $name"; done
done
for name in decode dump run term steer record table print gen; do
    call help "$name"
    is "the page of $name" "$status $said" '0 '
    has "what $name takes" "${wrote%%$'\n'*}" "defmtl $name"
    is "the page of $name by --help" "$wrote" "$(./defmtl "$name" --help)"
done
call run --only warn -h
is 'help behind other words' "$status $wrote" "0 $(./defmtl help run)"
call help frob
is 'no such command' "$status $wrote" '2 '
has 'no such command: the line' "$said" 'there is no command frob'
call
is 'no words' "$status $wrote" '0 '
has 'no words: the page, and what the program says' "$said" 'defmtl decode --table FILE'
has 'no words: and then what the program says' "${said##*$'\n'}" 'proved one'
call words -- --help
is 'help behind the end of the options is a word' "$wrote" $'words\n--\n--help'
for words in --version -V; do
    call "$words"
    is "the version, by $words" "$status $said" '0 '
    has "the kit, by $words" "$wrote" 'proved by the kit'
done
if command -v script > /dev/null; then
    on_terminal end 5
    is 'on a terminal: the status' "$status" 5
    has 'on a terminal: what the program says' "$said" 'proved one'
    lacks 'on a terminal: a message that is none of the program is not explained' "$said" 'cause'
    on_terminal words a 'b  c'
    is 'on a terminal: the words and the output' "$wrote" $'words\na\nb  c'
    on_terminal say 2 'words'
    has 'wrong words' "$said" 'defmtl: there is no command `say` (docs/EXPLAIN.md)'
    on_terminal --help
    lacks 'the page itself is not explained' "$said" 'there is no command'
    on_terminal say 7 'shelf'
    has 'a table that is not there' "$said" 'the file behind --table, or behind --places, is not there'
    on_terminal say 5 'script line 3 cause 8 inner 0'
    has 'a line of a script' "$said" 'line 3: `reader late` in blocking mode. (docs/EXPLAIN.md)'
    on_terminal say 5 'script line 1 cause 18 inner 0'
    has 'a mode that is not steered' "$said" "line 1: With \`steer\` alone: the script isn't in blocking mode"
    on_terminal say 5 'script line 3 cause 4 inner 3'
    has 'arguments of a line' "$said" 'line 3: The value is of another kind.'
    on_terminal say 6 'table elf cause 6 place 0'
    has 'a table' "$said" 'There is no symbol table'
    on_terminal say 6 'table name cause 5 symbol 2'
    has "a symbol" "$said" 'It is a second timestamp.'
    on_terminal say 1 'memory'
    has 'no memory' "$said" 'defmtl: the system refused memory'
    on_terminal say 3 'source'
    has 'an input that failed' "$said" 'defmtl: the standard input could not be read'
    on_terminal say 4 'sink'
    has 'an output that failed' "$said" 'defmtl: the standard output could not be written'
    on_terminal say 8 'too long'
    has 'an input that is too long' "$said" 'defmtl: an input has more bytes than are read'
    on_terminal say 9 'events with faults 3'
    has 'faults' "$said" 'defmtl: so many pieces could not be read'
    on_terminal say 10 'control cause 4 place 1'
    has 'an image' "$said" 'The offsets or the flags of descriptor P'
    is 'the status of a refusal' "$status" 10
    script -qec './defmtl say 3 source < .' /dev/null > "$work/said" < /dev/null
    has 'an input that is a folder' "$(tr -d '\r' < "$work/said")" 'defmtl: the standard input could not be read'
    # of a script that is a file the line itself is looked at, from where the input began
    printf 'a first line\nring 64\nring 65537\n' > "$work/script"
    script -qec "exec < $work/script; read -r line; ./defmtl say 5 'script line 2 cause 6 inner 0'" /dev/null > "$work/said" < /dev/null
    has 'the word of a line' "$(tr -d '\r' < "$work/said")" 'line 2: `65537` is no size'
    script -qec './defmtl say 3 source <&-' /dev/null > "$work/said" < /dev/null
    is 'on a terminal, with a closed input' "$? $(tr -d '\r' < "$work/said" | tail -n 1)" '3 source'
    script -qec './defmtl say 4 sink >&-' /dev/null > "$work/said" < /dev/null
    is 'on a terminal, with a closed output' "$? $(tr -d '\r' < "$work/said" | tail -n 1)" '4 sink'
    call say 10 'control cause 4 place 1'
    lacks 'nothing is explained to a file' "$said" 'The offsets'
fi
call --install "$work/prefix"
is 'an installation' "$status $("$work/prefix/bin/defmtl" words a 2> /dev/null | tail -n 1)" '0 a'
is 'its files' "$(cd "$work/prefix" && find . -type f | sort | tr '\n' ' ')" "./bin/defmtl ./bin/defmtl-for-lnav ./bin/defmtl-places ./bin/defmtl-timeline ./lib/defmtl/defmtl $(
    )./lib/defmtl/defmtl.version ./share/bash-completion/completions/defmtl ./share/defmtl/EXPLAIN.md ./share/defmtl/command.sh ./share/defmtl/commands.txt $(
    )./share/defmtl/explain ./share/defmtl/lnav/formats/defmtl/defmtl.json ./share/man/man1/defmtl.1 "
installed() { wrote=$("$work/prefix/bin/defmtl" "$@" 2> "$work/said"); status=$?; said=$(< "$work/said"); }
for words in --help 'help run' --version 'run --help'; do
    installed $words
    is "the installed command, by '$words'" "$status $said" '0 '
    is "it says what the launcher says, by '$words'" "$wrote" "$(./defmtl $words)"
done
ln -s "$work/prefix/bin/defmtl" "$work/link"
is 'the installed command by a link' "$("$work/link" words a 2> /dev/null | tail -n 1)" a
(cd "$work/prefix/bin" && PATH=.:$PATH && is 'the installed command by a relative path' "$(defmtl words a 2> /dev/null | tail -n 1)" a; [ "$failed" -eq 0 ]) && pass
installed end 9
is "the installed command's status" "$status" 9
(ulimit -f 0 && "$work/prefix/bin/defmtl" full > "$work/full" 2> /dev/null)
is 'the installed command, whose output may grow no more' "$?" 4
if command -v script > /dev/null; then
    script -qec "$work/prefix/bin/defmtl say 6 'table elf cause 6 place 0'" /dev/null > "$work/said" < /dev/null
    is 'the installed command on a terminal: the status' "$?" 6
    has 'the installed command explains' "$(tr -d '\r' < "$work/said")" "There is no symbol table"
fi
call --install /proc/nowhere
is 'a folder that cannot be written' "$status" 73
call --install
is 'no folder' "$status" 73
(ulimit -f 0 && ./defmtl full > "$work/full" 2> /dev/null)
is 'a program whose output may grow no more' "$?" 4
DEFMTL_UNPROVED=1 call --install "$work/prefix"
is 'an installation of the unproved program' "$status" 73
has 'and why there is none' "$said" 'only the proved program is installed'
is 'nothing was built for these' "$(calls)" 0
(
    . docs/defmtl.completion
    COMP_WORDS=(defmtl dump --) COMP_CWORD=2
    _defmtl
    echo "${COMPREPLY[*]}"
) > "$work/said"
is 'the completion' "$(< "$work/said")" '--table --full --places --base --up --old --only --json --color --fail-on --help'
(
    . docs/defmtl.completion
    COMP_WORDS=(defmtl st) COMP_CWORD=1
    _defmtl
    echo "${COMPREPLY[*]}"
) > "$work/said"
is 'the completion of a command' "$(< "$work/said")" 'steer'
completed() { (. docs/defmtl.completion; COMP_WORDS=("$@") COMP_CWORD=$(($# - 1)); _defmtl; echo "${COMPREPLY[*]}"); }
is 'the completion of a first word' "$(completed defmtl --)" '--help --version'
is "the completion of the launcher's first word" "$(completed ./defmtl --)" '--help --version --install'
is 'the completion of help' "$(completed defmtl help d)" 'decode dump'
is 'the completion of a floor' "$(completed defmtl run --only w)" 'warn'
is 'the completion of the floor of a package' "$(completed defmtl run --only warn,motor = e)" 'error'
for name in $(sed -n 's/^== //p' docs/commands.txt); do
    [ "$name" = defmtl ] || has "the manual names $name" "$(< docs/defmtl.1)" "$name"
done
for option in $(grep -o -- '--[a-z]*' docs/commands.txt | sort -u); do has "the manual names $option" "$(sed 's/\\-/-/g' docs/defmtl.1)" "$option"; done
begin 0.1
for words in --help -h help 'help run' 'run --help' 'gen -h'; do
    call $words
    is "the page where nothing was built, by '$words'" "$status $(calls) $said" '0 0 '
    has "the page itself, by '$words'" "$wrote" 'defmtl '
done
call
is 'no words where nothing was built' "$status $(calls)" '2 0'
is 'and the answer behind the page' "${said##*$'\n'}" 'words'
call --version
is 'the version where nothing was built' "$status $(calls) $wrote" '0 0 defmtl, of which no proved program is built yet'
begin 0.1
call --install "$work/prefix"
is 'an installation builds what is not built' "$status $(proofs)" "0 $all_crates"
begin 0.1
tools/build < /dev/null 2> "$work/said"
is 'a build without words runs nothing' "$? $(tail -n 1 "$work/said") $(proofs)" "0 defmtl: built $all_crates"
is 'each crate that is done is told' "$(grep -c 'is done: ' "$work/said")" 6

# ---- how long a build takes

# told WHAT NUMBER MINUTES: how long the others take once so many crates are done
told() { is "$1" "$(sed -n "s/.* $2 of 6 is done.*About \([0-9]*\) minutes* left/\1/p" "$work/said")" "$3"; }
# by SECONDS..: so many seconds on one processor, and else so many
by() { if [ "$(nproc)" -eq 1 ]; then echo "$1"; else echo "$2"; fi; }
begin 0
printf '| %s | 900 | |\n' low top > docs/generated/gate.md
tools/build < /dev/null 2> "$work/said"
# (40 seconds for each that the page lacks, and 120 more for the program: a chain of 2,040 seconds, and in all 2,080)
told 'a build is foretold by the page of the gate: its longest chain, shorter by a third, or all side by side' 0 "$(by 44 23)"
told 'once a crate is done in no time, the others are foretold to take less' 1 "$(by 6 5)"
told 'the last crate' 6 1
begin 0.1
echo right > "$kit/others"
call run < /dev/null
has 'a crate that another rt proves' "$said" 'another rt proves right; waiting for it'
is 'all lines but the program'"'"'s are the launcher'"'"'s own' "$(grep -vc '^defmtl: ' <<< "$said")" 1

# ---- sources that change

changes() {
    : > "$kit/calls"
    call run < /dev/null
    has "$1" "$said" "$2"
    if [ "$(calls)" -gt 0 ]; then pass; else fail "$1: nothing was built"; fi
}
printf 'two' > crates/defmt_run/src/lib.rt
changes 'a source that was edited' 'proved two'
printf 'old' > "$work/older"; touch -d '2020-01-01' "$work/older"; mv "$work/older" crates/defmt_run/src/lib.rt
changes 'a source that was replaced by an older one' 'proved old'
: > "$kit/proved"
printf 'more' > crates/left/src/more.rt
changes 'a source that was added' built
is 'the crate that changed and those above it are proved, and no others' "$(proofs)" 'defmt_cli defmt_run left top '
mv crates/left/src/more.rt "$work/more.rt"
changes 'a source that was moved away' built
mkdir crates/left/proofs && printf 'proof' > crates/left/proofs/Proof.antt
changes 'a proof that was added' built
rm -r crates/left/proofs
changes 'a proof that was removed' built
echo '# more' >> crates.txt
changes 'a list of crates that was edited' built
cp crates/defmt_cli/out/defmt_cli "$work/other"; cp "$work/other" crates/defmt_cli/out/defmt_cli.new; mv crates/defmt_cli/out/defmt_cli.new crates/defmt_cli/out/defmt_cli
changes 'a program that something else put there' built
: > "$kit/calls"
for it in low_tests test_rows ring_bench; do
    mkdir -p "crates/$it/src" && printf 'more' > "crates/$it/src/more.rt"
    call run < /dev/null
    is "a source of $it that was added, which is no part of the program" "$(calls)" 0
done

# A source that changes while it is proved: the build goes on until what was proved is what is there.
begin 0.3
./defmtl run < /dev/null > /dev/null 2> "$work/said" &
until_true grep -q left "$kit/proved"
printf 'two' > crates/defmt_run/src/lib.rt
wait $!
has 'a build whose source changed begins once more' "$(< "$work/said")" 'a source changed meanwhile; building once more'
: > "$kit/calls"
call run < /dev/null
has 'a source that changed during its build' "$said" 'proved two'
is 'which was built by that call' "$(calls)" 0

# ---- builds that are stopped

# stopped WHAT SIGNAL STATUS: a build that gets a signal leaves no process, no lock and no stray file, and the next one goes on
stopped() {
    begin 0.4
    # (what a script starts in the background ignores INT)
    env --default-signal=INT ./defmtl run < /dev/null > "$work/wrote" 2> "$work/said" &
    local launcher=$!
    until_true grep -q left "$kit/proved"
    until_true has_begun 4
    kill "-$2" "$launcher"
    wait "$launcher" 2> /dev/null
    is "$1: the status" "$?" "$3"
    if until_true is_gone "$(tail -n 1 "$kit/sleeps")"; then pass; else fail "$1: rt goes on"; fi
    [ "$2" = KILL ] || has "$1: it is told" "$(cat "$work/said")" 'the next call goes on with the crates that were not done'
    is "$1: all lines are the launcher's own" "$(grep -vc '^defmtl: ' "$work/said")" 0
    local before
    before=$(proofs)
    sleep 0.8
    is "$1: nothing is proved any more" "$(proofs)" "$before"
    # (what is left of one that was killed, the next one removes)
    [ "$2" = KILL ] || is "$1: no file is left behind" "$(strays)" ''
    call run < <(echo hello)
    is "$1: the next call ends with the program" "$status $wrote" '0 hello'
    is "$1: it goes on with the crates that were not done" "$(proofs)" "$all_crates"
    until_true is_tidy
    is "$1: then no file is left behind" "$(strays)" ''
}
stopped 'a build that is ended' TERM 143
stopped 'a build that is interrupted' INT 130
stopped 'a build that is hung up' HUP 129
stopped 'a build that is killed' KILL 137

# What a build that was killed left behind is removed by the next one.
begin 0.1
mkdir -p "$TMPDIR/defmtl-build-999999999-left/copy/crates" "$TMPDIR/defmtl-build-$$-goes-on"
call run < /dev/null
is 'a folder of a build that was killed is removed, and one of a build that goes on is not' "$(strays)" "$TMPDIR/defmtl-build-$$-goes-on"
rm -r "$TMPDIR/defmtl-build-$$-goes-on"

# ---- calls that wait

begin 0.2
./defmtl run < /dev/null 2> "$work/said.first" &
first=$!
until_true grep -q low "$kit/proved"
./defmtl wait "$work/runs" < /dev/null 2> "$work/said.second" &
second=$!
wait "$first"
is 'the call that builds' "$?" 0
if until_true test -e "$work/runs"; then pass; else fail 'the call that waits does not run'; fi
has 'a call that waits says so' "$(cat "$work/said.second")" 'another call builds the program; waiting for it'
is 'two calls prove each crate once' "$(proofs)" "$all_crates"
is 'a program that was waited for has no lock open' "$(find -L "/proc/$second/fd" -samefile crates/defmt_cli/out/launcher.lock 2> /dev/null)" ''
printf 'two' > crates/defmt_run/src/lib.rt
call run < /dev/null
has 'the next build does not wait for a program that runs' "$said" 'proved two'
lacks 'the next build waits for nothing' "$said" 'waiting'
kill "$second"; wait "$second" 2> /dev/null
begin 0
call open
is 'the program of a call that builds has no lock open' "$wrote" ''

# ---- the launcher's own failures: 64 and above, with a line that says what it is

# fails WHAT STATUS LINE
fails() {
    is "$1: the status" "$status" "$2"
    has "$1: the line" "$said" "defmtl: $3"
    is "$1: nothing is written" "$wrote" ''
}
mkdir "$work/bare"
for it in bash readlink find cmp mkdir env; do ln -s "$(command -v "$it")" "$work/bare/$it"; done
without() { wrote=$(PATH=$1 ./defmtl run 2>&1 > /dev/null < /dev/null | cat > "$work/said"; exit "${PIPESTATUS[0]}"); status=$?; said=$(< "$work/said"); wrote=; }
begin 0
without "$work/bare"
fails 'no python3' 69 'there is no command python3'
ln -s "$(python3 -c 'import sys; print(sys.executable)')" "$work/bare/python3"
without "$work/bare"
fails 'no rt' 69 'there is no command rt'
is 'no rt: one line' "$(wc -l < "$work/said")" 1
export DEFMTL_UNPROVED=1
without "$work/bare"
fails 'no rt, unproved' 69 'running with no proof: nothing that follows is proved
defmtl: there is no command rt'
unset DEFMTL_UNPROVED

begin 0
echo top > "$kit/refuses"
call run < /dev/null
fails 'a crate that is not proved' 70 'the program could not be built'
has 'a crate that is not proved: what was said' "$said" 'error: top is not proved'
is 'a crate that is not proved: no file is left behind but the log that is named' "$(strays)" './crates/defmt_cli/out/launcher.log'
rm "$kit/refuses"
call run < <(echo hello)
is 'a build after one that failed' "$status $wrote" '0 hello'
printf 'two' > crates/defmt_run/src/lib.rt
echo defmt_run > "$kit/refuses"
call run < /dev/null
fails 'an edit that is not proved' 70 'the program could not be built'
call run < /dev/null
fails 'an edit that is still not proved' 70 'the program could not be built'
begin 0.1
echo left > "$kit/refuses"; echo 30 > "$kit/slow/right"
call run < /dev/null
fails 'a crate that is not proved before others' 70 'the program could not be built'
has 'a crate that is not proved before others: what was said' "$said" 'error: left is not proved'
if until_true is_gone "$(tail -n 1 "$kit/sleeps")"; then pass; else fail 'the next one goes on'; fi
is 'a crate that is not proved before others: no file is left behind but the log' "$(strays)" './crates/defmt_cli/out/launcher.log'
begin 0
call run < /dev/null
export DEFMTL_UNPROVED=1
echo try > "$kit/refuses"
call run < /dev/null
fails 'an unproved program that is not read' 70 'the program could not be built'
has 'an unproved program that is not read: what was said' "$said" 'error: the program is not read'
# a kit of which no copy can be made
rm "$kit/refuses" "$kit/bin/rtlib.py"
call run < /dev/null
fails 'an unproved program, without a part of the kit' 70 'the program could not be built'
touch "$kit/bin/rtlib.py"
unset DEFMTL_UNPROVED

begin 0
for unproved in '' 1; do
    wrote=$(TMPDIR=/proc/nowhere DEFMTL_UNPROVED=$unproved ./defmtl run < /dev/null 2> "$work/said"); status=$?; said=$(< "$work/said")
    fails "no place for temporary files${unproved:+, unproved}" 73 "${unproved:+running with no proof: nothing that follows is proved
defmtl: }there is no place for temporary files in /proc/nowhere"
done

# as_nobody WORD..: as a user who can't write here
as_nobody() { if [ "$(id -u)" -eq 0 ]; then setpriv --reuid=65534 --regid=65534 --clear-groups "$@"; else "$@"; fi; }
begin 0
chmod 755 "$work" && chmod -R a+rX "$work" && chmod -R a-w crates
if as_nobody test -r defmtl; then
    wrote=$(as_nobody ./defmtl run < /dev/null 2> "$work/said"); status=$?; said=$(< "$work/said")
    fails 'a folder that is read-only' 73 'the folder'
    is 'a folder that is read-only: one line' "$(wc -l < "$work/said")" 1
    wrote=$(DEFMTL_UNPROVED=1 as_nobody ./defmtl run < /dev/null 2> "$work/said"); status=$?; said=$(< "$work/said")
    fails 'a folder that is read-only, unproved' 73 'the folder'
    chmod -R u+w crates
    call run < /dev/null
    wrote=$(echo hello | as_nobody ./defmtl run 2> "$work/said"); status=$?
    is 'a program that was built, in a folder that is read-only' "$status $wrote" '0 hello'
else
    skip 'a folder that is read-only, since there is no other user to be'
fi

# ---- unproved calls

begin 0.1
export DEFMTL_UNPROVED=1
call words a 'b  c' < /dev/null
is 'an unproved call' "$status $wrote" $'0 words\na\nb  c'
has 'an unproved call says so' "$said" 'running with no proof: nothing that follows is proved'
has 'the unproved program' "$said" 'unproved one'
is 'an unproved call proves nothing' "$(proofs)" ''
until_true is_tidy
is 'an unproved call leaves no file behind' "$(strays)" ''
: > "$kit/calls"
call run < /dev/null
is 'a later unproved call builds nothing' "$(calls)" 0
has 'a later unproved call says so' "$said" 'running with no proof: nothing that follows is proved'
for number in 0 1 2 9 63; do
    call end "$number"
    is "the unproved program's status $number" "$status" "$number"
done
seq 300000 > "$work/many"
./defmtl run < "$work/many" > "$work/wrote" 2> "$work/said"
is 'an unproved call with much output' "$? $(cmp "$work/many" "$work/wrote" 2>&1)" '0 '
(cat "$work/many"; sleep 2.5; echo last) | ./defmtl run 2> "$work/said" > "$work/wrote"
is 'an unproved call with a slow input, for longer than rt lets a program run' "$? $(tail -n 1 "$work/wrote") $(wc -l < "$work/wrote")" '0 last 300001'
(sleep 2.5; cat "$work/many") | ./defmtl run 2> "$work/said" | ./defmtl run 2> "$work/said" > "$work/wrote"
is 'a pipeline of two unproved calls' "$? $(cmp "$work/many" "$work/wrote" 2>&1)" '0 '
./defmtl number 2> "$work/said" > "$work/wrote" &
wait $!
is 'an unproved program takes the place of its launcher, which so ends no call' "$(cat "$work/wrote")" $!
begin 0.1
./defmtl run < "$work/many" 2> "$work/said" | ./defmtl run 2> "$work/said.second" > "$work/wrote"
is 'a pipeline of two unproved calls before anything was built' "$? $(cmp "$work/many" "$work/wrote" 2>&1)" '0 '
is 'a pipeline of two unproved calls builds once' "$(grep -c try "$kit/calls")" 1
printf 'old' > "$work/older"; touch -d '2020-01-01' "$work/older"; mv "$work/older" crates/defmt_run/src/lib.rt
call run < /dev/null
has 'an unproved program whose source was replaced by an older one' "$said" 'unproved old'
unset DEFMTL_UNPROVED
: > "$kit/calls"
call run < /dev/null
has 'a proved call after unproved ones' "$said" 'proved old'
is 'a proved call after unproved ones proves each crate' "$(proofs)" "$all_crates"

for signal in TERM KILL; do
    begin 5
    DEFMTL_UNPROVED=1 ./defmtl run < /dev/null > /dev/null 2> "$work/said" &
    launcher=$!
    until_true grep -q try "$kit/calls"
    kill "-$signal" "$launcher"; wait "$launcher" 2> /dev/null
    if until_true is_gone "$(tail -n 1 "$kit/sleeps")"; then pass; else fail "an unproved build that got $signal goes on"; fi
    # (what is left of one that was killed, the next one removes)
    [ "$signal" = TERM ] || { echo 0 > "$kit/seconds"; DEFMTL_UNPROVED=1 ./defmtl run < /dev/null 2> /dev/null; }
    if until_true is_tidy; then pass; else fail "an unproved build that got $signal leaves $(strays)"; fi
done

counts
