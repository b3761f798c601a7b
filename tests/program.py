"""What the program mixture does where its input does not come at once or at all, and where its answer cannot be written.
The arguments are the program, and the library of tests/c/calls.c, by which its reads and writes are short or fail."""

import errno
import os
import subprocess
import sys
import time

HEADER = b"answer,record,lower,upper\r\n"
SHEET = b"formula,parts\r\nC3H8,300000\r\nC2H6,700000\r\n"
ANSWER = HEADER + b"0,0,2.58,14.87\r\n"
NOT_READ = HEADER + b"15,0,,\r\n"
SHORT_READS = [0] * (len(SHEET) // 5 + 1)

PROGRAM, CALLS = sys.argv[1:]
cases = failures = 0


def check(what, got, wanted):
    global cases, failures
    cases += 1
    if got != wanted:
        failures += 1
        print(f"tests/program.py: {what}: {got}, not {wanted}", file=sys.stderr)


def answered(output, complaint=b"", status=0):
    return output, complaint, status


def ran(command=(PROGRAM,), **streams):
    """What the program writes to standard output and to standard error, and its exit status."""
    done = subprocess.run(command, stdout=subprocess.PIPE, stderr=subprocess.PIPE, timeout=20, **streams)
    return done.stdout, done.stderr, done.returncode


def in_shell(redirection, **streams):
    return ran(["sh", "-c", f'exec "$0" {redirection}', PROGRAM], **streams)


def with_calls(reads=(), writes=()):
    """Of the sheet, where its reads and writes go by these lists."""
    lists = {"READS": ",".join(map(str, reads)), "WRITES": ",".join(map(str, writes))}
    return ran(input=SHEET, env={**os.environ, "LD_PRELOAD": CALLS, **lists})


def of_pieces(pieces):
    """Of input that comes in pieces with time between them."""
    with subprocess.Popen([PROGRAM], stdin=subprocess.PIPE, stdout=subprocess.PIPE, stderr=subprocess.PIPE) as program:
        for piece in pieces:
            program.stdin.write(piece)
            program.stdin.flush()
            time.sleep(0.2)
        return *program.communicate(timeout=20), program.wait()


def of_part(part):
    """Of a part of an input, from a pipe that does not wait for the rest."""
    reads, writes = os.pipe()
    os.set_blocking(reads, False)
    os.write(writes, part)
    told = ran(stdin=reads)
    os.close(reads)
    os.close(writes)
    return told


def without_reader():
    reads, writes = os.pipe()
    os.close(reads)
    done = subprocess.run([PROGRAM], input=SHEET, stdout=writes, stderr=subprocess.PIPE, timeout=20)
    os.close(writes)
    return done.stderr, done.returncode


def complains(reason):
    return f"mixture: standard output: {os.strerror(reason)}\n".encode()


check("a sheet", ran(input=SHEET), answered(ANSWER))
check("a sheet in pieces", of_pieces([SHEET[:20], SHEET[20:40], SHEET[40:]]), answered(ANSWER))
check("an empty input", ran(input=b""), answered(NOT_READ))
check("a closed input", in_shell("<&-"), answered(NOT_READ))
check("a directory", in_shell("</"), answered(NOT_READ))
check("a pipe with nothing yet", of_part(b""), answered(NOT_READ))
check("a pipe with a part of a sheet", of_part(SHEET[:30]), answered(NOT_READ))
check("a pipe with a whole sheet that has not ended", of_part(SHEET), answered(NOT_READ))
check("short reads", with_calls(reads=SHORT_READS), answered(ANSWER))
for error in [errno.EIO, errno.EISDIR, errno.EBADF, errno.EAGAIN]:
    check(f"{os.strerror(error)}, at once", with_calls(reads=[error]), answered(NOT_READ))
    check(f"{os.strerror(error)}, after a part", with_calls(reads=[0, 0, 0, 0, 0, 0, error]), answered(NOT_READ))
    check(f"{os.strerror(error)}, after the whole sheet", with_calls(reads=[-1, error]), answered(NOT_READ))
check("interrupted reads", with_calls(reads=[errno.EINTR, 0, errno.EINTR, errno.EINTR, 0, -1, errno.EINTR]), answered(ANSWER))
check("a full device", in_shell(">/dev/full", input=SHEET), answered(b"", complains(errno.ENOSPC)))
check("a closed output", in_shell(">&-", input=SHEET), answered(b"", complains(errno.EBADF)))
check("a pipe without a reader", without_reader(), (complains(errno.EPIPE), 0))
check("interrupted and short writes", with_calls(writes=[errno.EINTR, 0, errno.EINTR, 0]), answered(ANSWER))
check("a write that fails after a part", with_calls(writes=[0, errno.EIO]), answered(ANSWER[:5], complains(errno.EIO)))

print(f"tests/program.py: {cases - failures} of {cases} as they should be")
sys.exit(failures != 0)
