#!/bin/bash
# Decodes what a server sends in small parts with pauses, as a debug probe's RTT port does, and sees that each line comes as
# soon as its frame is whole.
#
#   tests/live.sh PROGRAM
#
# The server listens on 127.0.0.1 alone. It sends a part, and waits until the lines that are due have come: so a line that
# comes late, or with the next part, is a failure. It needs python3. The last line is 'N passed, M failed'.
. "$(dirname "$0")/runner.sh"
takes_program "$@"
needs python3
cd "$work" || exit 2
printf 's hi defmt_info hello\ns speed defmt_warn speed {=u8:#04x}\nw 0 hi\nw 0 speed 10\nw 0 hi\n' > script
"$program" table < script > table.elf || exit 2
"$program" record < script > recording || exit 2
python3 - "$program" <<'PYTHON'
import select, socket, subprocess, sys

program = sys.argv[1]
recording = open("recording", "rb").read()
due = [b"INFO  hello\n", b"WARN  speed 0x0a\n", b"INFO  hello\n"]
zeros = [place for place, byte in enumerate(recording) if byte == 0]
ends = zeros[1::2]  # where each frame's last byte stands
passed = failed = 0


def tell(what, good):
    global passed, failed
    passed, failed = passed + good, failed + (not good)
    print(("ok: " if good else "FAILED: ") + what)


def lines_of(pipe, count, seconds=10):
    """What comes until COUNT lines are there, or nothing more for some seconds."""
    got = b""
    while got.count(b"\n") < count and select.select([pipe], [], [], seconds)[0]:
        part = pipe.read1(65536)
        if not part:
            break
        got += part
    return got


def quiet(pipe):
    return not select.select([pipe], [], [], 0.05)[0]


for size in (1, 2, 3, 5):
    server = socket.create_server(("127.0.0.1", 0))
    server.settimeout(10)
    port = str(server.getsockname()[1])
    decode = 'exec "$1" decode --table table.elf < "/dev/tcp/127.0.0.1/$2"'
    decoder = subprocess.Popen(["bash", "-c", decode, "-", program, port], stdout=subprocess.PIPE)
    connection, _ = server.accept()
    told = 0
    good = still = True
    for place in range(0, len(recording), size):
        connection.sendall(recording[place : place + size])
        whole = sum(end < place + size for end in ends)
        if whole > told:
            good = good and lines_of(decoder.stdout, whole - told) == b"".join(due[told:whole])
            told = whole
        else:
            still = still and quiet(decoder.stdout)
    connection.close()
    server.close()
    rest = decoder.stdout.read()
    tell(f"parts of {size}: each line comes as soon as its frame is whole", good and told == len(due))
    tell(f"parts of {size}: nothing comes before", still)
    tell(f"parts of {size}: the decoding ends with the connection", rest == b"" and decoder.wait(10) == 0)
print(f"{passed} passed, {failed} failed")
sys.exit(failed > 0)
PYTHON
