#!/bin/sh
# Starts a worker on this machine for one connection, sends it a session of one job and the frame that ends it, and shows the bytes that come
# back: the frame of the job's outcome. docs/FORMATS.md says what each byte is. It ends with status 0 where the bytes are those that it names.
# It needs python3. The one argument, if given, is the port to use, else a free one is.
set -eu
here=$(cd "$(dirname "$0")/.." && pwd)
# The program is built where it is missing, before anybody waits for it.
"$here/gg" >/dev/null 2>&1 || true
port=${1:-$(python3 -c 'import socket
with socket.socket() as free:
    free.bind(("127.0.0.1", 0))
    print(free.getsockname()[1])')}

echo "\$ gg worker 127.0.0.1:$port --times 1"
"$here/gg" worker "127.0.0.1:$port" --times 1 &
worker=$!
trap 'kill "$worker" 2>/dev/null || true' EXIT

python3 - "$port" <<'END_OF_SCRIPT'
import socket, sys, time

def count(number):
    return number.to_bytes(4, 'big')

def string(data):
    return count(len(data)) + data

def frame(contents):
    return count(len(contents)) + contents

def connect(port):
    # The worker may still be starting.
    for _ in range(100):
        try:
            return socket.create_connection(('127.0.0.1', port), timeout=60)
        except ConnectionRefusedError:
            time.sleep(0.1)
    sys.exit('the worker does not listen')

def show(who, data):
    print(who, data.hex())

lease = (0).to_bytes(8, 'big')
# cat over the input `a`, which is `x`, with the output `out`
job = string(b'gg-tool cat\n') + count(0) + count(0) + count(1) + string(b'a') + string(b'x') + count(1) + string(b'out')
session = frame(b'J' + lease + job) + frame(b'B')
wanted = frame(b'R' + lease + b'\0' + count(1) + string(b'x'))

with connect(int(sys.argv[1])) as stream:
    stream.sendall(session)
    show('sent:', session)
    answer = b''
    while piece := stream.recv(4096):
        answer += piece
show('came back:', answer)
if answer != wanted:
    sys.exit('these are other bytes than the frame of the outcome `x`: ' + wanted.hex())
print('the outcome of lease 0 is one output, x')
END_OF_SCRIPT

status=0
wait "$worker" || status=$?
trap - EXIT
echo "the worker ended with status $status"
exit "$status"
