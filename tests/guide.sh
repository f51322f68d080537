#!/bin/bash
# Runs the examples of the documents and compares what they print with what the documents say.
#
#   tests/guide.sh PROGRAM [DOCUMENT..]     without documents: README.md and USER-GUIDE, SCRIPT, FORMATS and EXPLAIN of docs/
#
# In a document a block that begins with '```text file=NAME' is a file of that name, and a block that begins with
# '```console' is a piece of a session: a line '$ COMMAND' is a command for bash, and the lines up to the next command are
# what it prints, on the standard output and the standard error together. A command whose status isn't 0 is followed by
# '$ echo $?'. Each document has a folder of its own for its files, with the examples/ of the repository, where `defmtl`
# and `./defmtl` are the command as PROGRAM is installed. The last line is 'N passed, M failed'.

. "$(dirname "$0")/runner.sh"
takes_program "$@"
shift
[ $# -ge 1 ] || set -- "$top/README.md" "$top"/docs/{USER-GUIDE,SCRIPT,FORMATS,EXPLAIN}.md

wrong() { fail "$document:$place: $1"; }

# What is due of the command that ran last is whole: compares it with what was printed.
compare() {
    [ -n "$command" ] || return
    if ! cmp -s "$work/due" "$work/got"; then
        wrong "$command"
        diff "$work/due" "$work/got" | head -n 20
    elif [ "$status" != 0 ] && [ "$1" != '$ echo $?' ]; then
        wrong "$command: the status is $status"
    else
        pass
    fi
    command=
}

run() {
    place=$number command=${1#'$ '}
    : > "$work/due"
    (cd "$room" && timeout 100 bash -c "(exit $status); $command" > "$work/got" 2>&1 < /dev/null)
    status=$?
}

read_document() {
    document=$1 number=0 block= command= status=0
    room=$work/room.${document##*/}
    mkdir "$room" && ln -s "$work/prefix/bin/defmtl" "$room/defmtl" && ln -s "$top/examples" "$room/examples" || exit 2
    PATH=$room:$start_path
    while IFS= read -r line; do
        number=$((number + 1))
        case $block,$line in
            ,'```text file='*) block=file name=${line#*file=} && : > "$room/$name" ;;
            ,'```console') block=session ;;
            ,'```'*) block=other ;;
            session,'```')
                compare "$line"
                block= ;;
            file,'```' | other,'```') block= ;;
            file,*) printf '%s\n' "$line" >> "$room/$name" ;;
            session,'$ '*)
                compare "$line"
                run "$line" ;;
            session,*) printf '%s\n' "$line" >> "$work/due" ;;
        esac
    done < "$document"
    place=$number
    [ -z "$block" ] || wrong "the last block has no end"
}

"$top/tools/install" "$program" "$work/prefix" || exit 2
start_path=$PATH
for each; do read_document "$each"; done
counts
