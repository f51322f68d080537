#!/bin/bash
# Decodes a recording in parts by GNU parallel, on this host and over two hosts, and compares the lines with those of one call.
#
#   tests/parallel.sh PROGRAM [MEBIBYTES]     without a number the recording has some 8 MiB
#
# Above 256 MiB, which one call takes, the lines are compared with those of calls on parts that are whole numbers of frames. The two hosts are
# addresses of this machine, 127.0.0.1 and 127.0.0.2, where a server of ssh is started on a port of its own, with keys of its own in the folder that is
# removed at the end. It needs GNU parallel, and for the hosts ssh and sshd; the table is
# copied by --basefile, which takes rsync, or by scp. The last line is 'N passed, M failed'.
. "$(dirname "$0")/runner.sh"
takes_program "$@"
needs parallel
parallel --version 2> /dev/null | grep -q 'GNU parallel' || { skip 'all of it, since this parallel is not that of GNU: the package parallel brings it'; counts; }
set -o pipefail
mebibytes=${2:-8}
examples=$top/examples
PATH=$PATH:/usr/sbin:/sbin
cd "$work" || exit 2

words=(--pipepart -k --recend '\0' --recstart '\0')
in_parts() { parallel --will-cite "${words[@]}" -a "$1" --block "$2" "$program" decode --table table.elf 2> said; }

"$program" table < "$examples/device.defmtl" > table.elf && "$program" record < "$examples/device.defmtl" > once.bin || exit 2
# a chunk of about a mebibyte, of whole frames, and what one call prints of it
cp once.bin chunk.bin
while [ "$(stat -c %s chunk.bin)" -lt 1048576 ]; do cat chunk.bin chunk.bin > twice.bin && mv twice.bin chunk.bin; done
"$program" decode --table table.elf < chunk.bin > chunk.lines || exit 2
for ((count = 0; count < mebibytes; count++)); do cat chunk.bin; done > big.bin
due=$(for ((count = 0; count < mebibytes; count++)); do cat chunk.lines; done | sha256sum)

[ "$(stat -c %s big.bin)" -gt 268435456 ] || is 'one call' "$("$program" decode --table table.elf < big.bin | sha256sum)" "$due"
# One part for each processor, unless such a part is more than one call takes.
largest=-1
[ "$(stat -c %s big.bin)" -le $((268435456 * $(parallel --number-of-threads))) ] || largest=64M
for block in "$largest" -3 700k; do
    is "parts by --block $block" "$(in_parts big.bin "$block" | sha256sum)" "$due"
    is "nothing is said of parts by --block $block" "$(< said)" ''
done

# A frame without its first zero is told as a front, wherever the parts are cut: each other line comes in its place.
{ cat once.bin; tail -c +2 once.bin; cat once.bin; } > damaged.bin
"$program" decode --table table.elf < damaged.bin 2> said | grep -v '^-- ' > due.lines
is 'the lines of a damaged recording' "$(in_parts damaged.bin -3 | grep -v '^-- ' | sha256sum)" "$(sha256sum < due.lines)"

# ---- two hosts

can 'parts over two hosts' ssh ssh-keygen scp sshd || counts
privileges=
stop_server() {
    [ -z "$server" ] || { kill "$server"; wait "$server"; } 2> /dev/null
    server=
    [ -z "$privileges" ] || rmdir "$privileges" 2> /dev/null
}
trap 'stop_server; rm -rf "$work"' EXIT
# (a server that root starts wants this folder)
if [ "$(id -u)" -eq 0 ] && [ ! -d /run/sshd ]; then mkdir -p -m 755 /run/sshd && privileges=/run/sshd; fi
mkdir keys bin && chmod 700 keys
ssh-keygen -q -t ed25519 -N '' -f keys/host && ssh-keygen -q -t ed25519 -N '' -f keys/user && cp keys/user.pub keys/authorized || exit 2
cat > server.conf << CONFIG
ListenAddress 127.0.0.1
ListenAddress 127.0.0.2
HostKey $work/keys/host
AuthorizedKeysFile $work/keys/authorized
PidFile none
StrictModes no
UsePAM no
PasswordAuthentication no
KbdInteractiveAuthentication no
PermitRootLogin prohibit-password
Subsystem sftp internal-sftp
SetEnv PATH=$work/bin:$PATH
CONFIG
# A host is one of the addresses. The program there is one that tells by which address it was called.
cat > ssh.conf << CONFIG
Host one
  HostName 127.0.0.1
Host two
  HostName 127.0.0.2
Host one two
  User $(id -un)
  IdentityFile $work/keys/user
  IdentitiesOnly yes
  BatchMode yes
  StrictHostKeyChecking no
  UserKnownHostsFile /dev/null
  LogLevel ERROR
CONFIG
printf '#!/bin/bash\necho "${SSH_CONNECTION#* * }" >> "%s"\nexec "%s" "$@"\n' "$work/called" "$program" > bin/defmtl && chmod +x bin/defmtl
server=
for ((turn = 0; turn < 20; turn++)); do
    port=$((20000 + RANDOM % 20000))
    "$(command -v sshd)" -D -e -f server.conf -p "$port" 2> server.said &
    server=$!
    for ((wait = 0; wait < 50; wait++)); do
        kill -0 "$server" 2> /dev/null || break
        grep -q 'listening on 127.0.0.2' server.said 2> /dev/null && break 2
        sleep 0.1
    done
    stop_server
done
[ -n "$server" ] || { skip "parts over two hosts, since the server of ssh doesn't start: $(tail -n 1 server.said)"; counts; }
if ! ssh -F ssh.conf -p "$port" two true 2> said; then
    skip "parts over two hosts, since this user can't log in: $(tail -n 1 said)"
    counts
fi

# The table is copied as the guide has it, or by hand.
if can 'the copy of the table by --basefile' rsync; then copies=(--basefile table.elf); else
    copies=()
    mkdir far && scp -q -F ssh.conf -P "$port" table.elf "two:$work/far/" || fail 'the table is copied by scp'
fi

# over_hosts RECORDING BLOCK: as the guide has it
over_hosts() {
    PARALLEL_SSH="ssh -F $work/ssh.conf -p $port" parallel --will-cite -S 2/one,2/two "${copies[@]}" --workdir "$work/far" "${words[@]}" -a "$1" --block "$2" \
        defmtl decode --table table.elf 2> said
}
for block in -1 300k; do
    : > called
    is "parts over two hosts by --block $block" "$(over_hosts chunk.bin "$block" | sha256sum)" "$(sha256sum < chunk.lines)"
    is "nothing is said of them by --block $block" "$(< said)" ''
    is "both hosts had parts by --block $block" "$(cut -d ' ' -f 1 called | sort -u | tr '\n' ' ')" '127.0.0.1 127.0.0.2 '
done
is 'the table was copied' "$(cmp table.elf far/table.elf 2>&1)" ''
counts
