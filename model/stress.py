#!/usr/bin/env python3
"""Runs the built program list on hostile inputs and holds it to model/list.py: lines of every length across every place of a
block's end, pieces through a pipe, interrupted and short reads and writes, failures, and the memory that it takes.

    model/stress.py            all of that, in a minute or two; ends with status 1 if something differs
    model/stress.py --speed    lines a second on 1,000,000 references

Run it at the repository's root, on x86-64, after `./list </dev/null`, which builds the program. It is no part of the gate.
"""
import os, random, re, resource, shutil, signal, socket, struct, subprocess, sys, tempfile, threading, time

from list import BANDS, COLUMNS, ROWS, listing as model

here = os.getcwd()
program = os.path.join(here, "crates", "list", "out", "list")
command = [program]
BLOCK = 65536

# Stands before the C library: reads and writes are interrupted or short, at random. With BREAKS, each read brings PIECE bytes
# and all after the first BREAKS fail; writes are not short then.
FAULTS = r"""
typedef unsigned long size_t; typedef long ssize_t;
extern int *__errno_location(void);
static long call(long n, long a, long b, long c) {
    long r;
    __asm__ volatile("syscall" : "=a"(r) : "a"(n), "D"(a), "S"(b), "d"(c) : "rcx", "r11", "memory");
    return r;
}
static ssize_t done(long r) { if (r < 0) { *__errno_location() = (int)-r; return -1; } return r; }
ssize_t read(int fd, void *buf, size_t n) {
#ifdef BREAKS
    static int calls;
    if (fd == 0 && ++calls > BREAKS) { *__errno_location() = 5; return -1; }
    if (fd == 0 && n > PIECE) n = PIECE;
    return done(call(0, fd, (long)buf, (long)n));
#endif
    static unsigned k;
    k = k * 1103515245u + 12345u;
    if (fd == 0 && (k >> 16) % 3 == 0) { *__errno_location() = 4; return -1; }
    if (fd == 0 && (k >> 16) % 3 == 1) { size_t m = 1 + (k >> 18) % 5000; if (m < n) n = m; }
    return done(call(0, fd, (long)buf, (long)n));
}
ssize_t write(int fd, const void *buf, size_t n) {
#ifdef BREAKS
    return done(call(1, fd, (long)buf, (long)n));
#endif
    static unsigned k = 7;
    k = k * 1103515245u + 12345u;
    if (fd == 1 && (k >> 16) % 4 == 1) { *__errno_location() = 4; return -1; }
    if (fd == 1 && (k >> 16) % 2 == 0) { size_t m = 1 + (k >> 18) % 9000; if (m < n) n = m; }
    return done(call(1, fd, (long)buf, (long)n));
}
"""


def faulty(*flags):
    """The command with FAULTS before the C library, compiled by the kit's compiler."""
    kit = os.path.join(os.path.dirname(os.path.dirname(os.path.realpath(shutil.which("rt")))), "toolchain", "bin")
    os.makedirs(os.path.join(here, "target"), exist_ok=True)
    so = os.path.join(here, "target", "faults.so")
    subprocess.run([kit + "/clang", "--target=x86_64-unknown-linux-gnu", "-O1", *flags, "-fPIC", "-c", "-x", "c", "-", "-o", so + ".o"], input=FAULTS.encode(), check=True)
    subprocess.run([kit + "/ld.lld", "-shared", so + ".o", "-o", so], check=True)
    return ["env", "LD_PRELOAD=" + so, program]


def from_file(data, command=command):
    with tempfile.TemporaryFile() as f:
        f.write(data)
        f.seek(0)
        r = subprocess.run(command, stdin=f, capture_output=True, timeout=120)
    return r.returncode, r.stdout, r.stderr


def from_pipe(data, pieces, pause=0.0):
    """Feeds the pieces one write each; a pause makes each its own read."""
    p = subprocess.Popen(command, stdin=subprocess.PIPE, stdout=subprocess.PIPE, stderr=subprocess.PIPE, bufsize=0)
    got = []
    t = threading.Thread(target=lambda: got.append(p.stdout.read()))
    t.start()
    at = 0
    for n in pieces:
        part = memoryview(data)[at : at + n]
        while len(part):
            part = part[os.write(p.stdin.fileno(), part) :]
        at += n
        if at >= len(data):
            break
        if pause:
            time.sleep(pause)
    p.stdin.close()
    t.join()
    err = p.stderr.read()
    return p.wait(), got[0], err


tally = {}
bad = []


def holds(kind, what, data, answer):
    code, out, err = answer
    tally[kind] = tally.get(kind, 0) + 1
    want = model(data)
    if (code, out, err) != (0, want, b""):
        k = next((i for i, (a, b) in enumerate(zip(out, want)) if a != b), min(len(out), len(want)))
        bad.append(what)
        print("BAD", what, "status", code, "lengths", len(out), len(want), "first difference", k, out[k - 20 : k + 20], want[k - 20 : k + 20], err[:200])


def reference(r):
    zone = r.randrange(1, 61)
    digits = "".join(r.choice("0123456789") for _ in range(r.choice([0, 2, 4, 10, 10, 10, 12, 22, 23, 24])))
    return f"{zone}{r.choice(BANDS)}{r.choice(COLUMNS[(zone - 1) % 3])}{r.choice(ROWS)}{digits}".encode()


def text(r, n):
    """n bytes with no LF: any bytes, or a reference, filled up with digits or cut."""
    if r.random() < 0.5:
        return r.randbytes(n).replace(b"\n", b"\x0b")
    return (reference(r) + b"7" * n)[:n]


def fixed():
    r = random.Random(1)
    yield "empty", b""
    yield "one LF", b"\n"
    yield "one byte", b"a"
    yield "only LFs", b"\n" * 200000
    yield "only NULs", b"\0" * 200000
    yield "NUL lines", b"\0\n" * 100000
    yield "CRLF", b"abc\r\n" * 20000
    yield "all bytes", bytes(range(256)) * 700
    yield "LF pairs", b"x\n\n" * 70000
    sizes = [0, 1, 2] + list(range(60, 70)) + list(range(125, 135)) + list(range(BLOCK - 6, BLOCK + 5)) + [BLOCK - 65, BLOCK + 65, 2 * BLOCK - 65]
    sizes += list(range(2 * BLOCK - 2, 2 * BLOCK + 3)) + [2 * BLOCK - 130, 2 * BLOCK + 130, 1000000]
    for n in sizes:
        line = text(r, n)
        yield f"a line of {n}, ended", line + b"\n"
        yield f"a line of {n}, not ended", line
        yield f"a line of {n} between others", b"before\n" + line + b"\nafter\n\nlast"
    # LF exactly around the buffer's end, and around the second one's end with 0..65 bytes held
    for n in range(BLOCK - 3, BLOCK + 3):
        yield f"{n} bytes of short lines", (b"abcdefg\n" * (n // 8 + 1))[:n]
    # where output fills up: 62, 63, 64 byte lines give 64, 65, 66 bytes each
    for n in (0, 1, 61, 62, 63, 64, 65):
        yield f"many lines of {n}", (text(r, n) + b"\n") * 5000
    for n in range(64):
        yield f"output fills at shift {n}", text(r, n) + b"\n" + (b"q" * 62 + b"\n") * 2100


def straddling():
    """A line of each kind across every offset near the end of a buffer, and across every offset of the held front."""
    r = random.Random(2)
    for shift in range(0, 140):
        for n in (1, 30, 63, 64, 65, 66, 130):
            head = b"h" * (BLOCK - 1 - shift - 3) + b"\nk\n"
            yield f"line of {n}, {shift} before the end", head + text(r, n) + b"\n" + b"tail\n\nend"


def wandering():
    """Lines that straddle every buffer end at ever other offsets: many blocks of lines of one length."""
    for n in list(range(1, 67)) + [100, 127, 128, 129, 130, 131, 257, 1023]:
        k = 6 * BLOCK // (n + 1)
        yield f"{k} lines of {n}", b"".join(bytes([97 + i % 26]) * n + b"\n" for i in range(k))


def at_random():
    for seed in range(150):
        r = random.Random(1000 + seed)
        pick = r.choice([lambda: r.randrange(0, 5), lambda: r.randrange(0, 70), lambda: r.randrange(60, 70), lambda: r.randrange(0, 300), lambda: int(r.paretovariate(0.6)) % 150000])
        out = bytearray()
        limit = r.randrange(1, 500000)
        while len(out) < limit:
            out += text(r, pick()) + b"\n"
        yield f"random {seed}", bytes(out[: r.choice([len(out), limit])])


def told(name, ok, *what):
    tally["failures"] = tally.get("failures", 0) + 1
    print("failure:", name, "->", *what, "ok" if ok else "BAD")
    if not ok:
        bad.append(name)


def answered(data):
    """The answers of the lines that end in data, of which no read has told the end."""
    return model(data[: data.rfind(b"\n") + 1])


def read_fails(breaks, piece):
    """After some reads of piece bytes one fails: the lines that had ended are answered, and the reason is given."""
    words = faulty(f"-DBREAKS={breaks}", f"-DPIECE={piece}")
    r = random.Random(breaks)
    data = b"".join(text(r, r.choice([3, 3, 3, 15, 64, 65, 300])) + b"\n" for _ in range(20000))
    code, out, err = from_file(data, words)
    ok = code == 1 and err == b"read: Input/output error (os error 5)\n" and out == answered(data[: breaks * piece])
    told(f"read {breaks + 1} fails, reads of {piece}", ok, code, err, len(out))


def read_and_write_fail():
    words = faulty("-DBREAKS=1", "-DPIECE=50")
    with open("/dev/full", "wb") as full:
        r = subprocess.run(words, input=b"18T\n" * 100, stdout=full, stderr=subprocess.PIPE)
    says = b"read: Input/output error (os error 5)\nwrite: No space left on device (os error 28)\n"
    told("a read fails, and then the write", r.returncode == 1 and r.stderr == says, r.returncode, r.stderr)


def reset():
    """The input is a connection that the other side resets after it has sent some lines and the start of one."""
    data = b"18T\n18TWL\n\n" * 20 + b"18T"
    with socket.create_server(("127.0.0.1", 0)) as server:
        near = socket.create_connection(server.getsockname())
        far, _ = server.accept()
        p = subprocess.Popen(command, stdin=near.fileno(), stdout=subprocess.PIPE, stderr=subprocess.PIPE)
        far.sendall(data)
        time.sleep(2)
        far.setsockopt(socket.SOL_SOCKET, socket.SO_LINGER, struct.pack("ii", 1, 0))
        far.close()
        out, err = p.communicate(timeout=60)
        near.close()
    ok = p.returncode == 1 and out == answered(data) and err == b"read: Connection reset by peer (os error 104)\n"
    told("the connection is reset", ok, p.returncode, err, len(out))


def memory():
    """The most memory that the process has held when it has read all its input, the same for short and long inputs."""
    peaks = []
    for what, data in (("one line", b"18T\n"), ("8,000,000 lines", b"18T\n" * 8000000), ("one line of 64,000,000 bytes", b"7" * 64000000)):
        p = subprocess.Popen(command, stdin=subprocess.PIPE, stdout=subprocess.DEVNULL)
        p.stdin.write(data)
        p.stdin.flush()
        time.sleep(1)
        peaks.append(int(re.search(r"VmHWM:\s*(\d+)", open(f"/proc/{p.pid}/status").read())[1]))
        p.stdin.close()
        p.wait()
        print("memory:", what, peaks[-1], "KiB")
    tally["memory"] = 1
    if max(peaks) - min(peaks) > 512:
        bad.append("memory")


def failures():
    some = b"line\n" * 50000
    with tempfile.TemporaryFile() as f:
        f.write(some)
        f.flush()
        for name, stdin, stdout, says in [
            ("stdout=/dev/full", f, open("/dev/full", "wb"), b"write: No space left on device (os error 28)\n"),
            ("stdout closed", f, "closed", b"write: Bad file descriptor (os error 9)\n"),
            ("stdin a directory", os.open("/", os.O_RDONLY), subprocess.PIPE, b"read: Is a directory (os error 21)\n"),
            ("stdin closed", "closed", subprocess.PIPE, b"read: Bad file descriptor (os error 9)\n"),
        ]:
            f.seek(0)
            words = {}
            shut = [k for k, s in ((0, stdin), (1, stdout)) if s == "closed"]
            if shut:
                words["preexec_fn"] = lambda: [os.close(k) for k in shut]
            r = subprocess.run(command, stdin=None if stdin == "closed" else stdin, stdout=None if stdout == "closed" else stdout, stderr=subprocess.PIPE, timeout=60, **words)
            ok = r.stderr == says and not r.stdout and r.returncode == 1
            told(name, ok, r.returncode, r.stderr)
        # small input: the only write is the last one
        r = subprocess.run(command, input=b"a\nb", stdout=open("/dev/full", "wb"), stderr=subprocess.PIPE)
        told("small to /dev/full", r.returncode == 1 and r.stderr == b"write: No space left on device (os error 28)\n", r.returncode, r.stderr)
        # empty input writes nothing, so a closed standard output does no harm
        r = subprocess.run(command, stdin=subprocess.DEVNULL, stderr=subprocess.PIPE, preexec_fn=lambda: os.close(1))
        told("empty input, stdout closed", not r.stderr and not r.returncode, r.stderr)
    for breaks, piece in ((0, 5000), (1, 5000), (1, 4), (1, 3), (2, 65471), (3, 40000), (9, 7), (30, 5000), (200, 4999)):
        read_fails(breaks, piece)
    read_and_write_fail()
    reset()
    # the disk fills up in the middle: what came out is a start of the answer, and one reason
    with tempfile.TemporaryDirectory() as d:
        out = os.path.join(d, "out")
        with open(out, "wb") as g:
            r = subprocess.run(command, input=some, stdout=g, stderr=subprocess.PIPE, preexec_fn=lambda: (signal.signal(signal.SIGXFSZ, signal.SIG_IGN), resource.setrlimit(resource.RLIMIT_FSIZE, (100000, 100000))))
        got = open(out, "rb").read()
        ok = r.returncode == 1 and r.stderr == b"write: File too large (os error 27)\n" and len(got) == 100000 and model(some).startswith(got)
        told("file too large at 100,000 bytes", ok, r.returncode, r.stderr, len(got))


def main():
    began = time.time()
    for kind, cases in (("fixed", fixed), ("straddling", straddling), ("wandering", wandering), ("random", at_random)):
        for what, data in cases():
            holds(kind, what, data, from_file(data))
        print(kind, tally[kind], "cases,", len(bad), "bad,", round(time.time() - began), "s", flush=True)
    r = random.Random(3)
    small = b"".join(text(r, r.choice([0, 1, 5, 63, 64, 65, 66, 130])) + b"\n" for _ in range(60)) + b"open"
    large = b"".join(text(r, r.choice([0, 1, 5, 63, 64, 65, 66, 130, 70000])) + b"\n" for _ in range(60)) + b"open"
    for what, data in (("small", small), ("large", large)):
        holds("pipe", f"pipe, {what}, as it comes", data, from_pipe(data, [len(data)]))
        for n in (1, 7, 64, 65, 66, 4096, 65535, 65536, 65537):
            if len(data) // n < 20000:
                holds("pipe", f"pipe, {what}, pieces of {n}", data, from_pipe(data, [n] * (len(data) // n + 1)))
        for seed in range(20):
            q = random.Random(seed)
            holds("pipe", f"pipe, {what}, random pieces {seed}", data, from_pipe(data, [q.randrange(1, 9000) for _ in range(len(data))]))
    holds("pipe", "1 byte with pauses", small[:400], from_pipe(small[:400], [1] * 400, 0.003))
    holds("pipe", "7 bytes with pauses", small, from_pipe(small, [7] * len(small), 0.003))
    holds("pipe", "random pieces with pauses", large, from_pipe(large, [r.randrange(1, 20000) for _ in range(len(large))], 0.002))
    line = b"w" * 300 + b"\nnext\n"
    holds("pipe", "a long line byte by byte", line, from_pipe(line, [1] * len(line), 0.003))
    print("pipe", tally["pipe"], "cases,", len(bad), "bad,", round(time.time() - began), "s", flush=True)
    words = faulty()
    for source in (at_random, wandering):
        for what, data in source():
            holds("faults", "faults, " + what, data, from_file(data, words))
    print("faults", tally["faults"], "cases,", len(bad), "bad,", round(time.time() - began), "s", flush=True)
    failures()
    memory()
    print(sum(tally.values()), "cases", tally, len(bad), "bad", bad[:10], round(time.time() - began), "s")
    sys.exit(1 if bad else 0)


def speed():
    r = random.Random(9)
    data = b"".join(reference(r) + b"\n" for _ in range(1000000))
    for _ in range(3):
        began = time.time()
        code, out, err = from_file(data)
        took = time.time() - began
        print(len(data), "bytes in,", len(out), "out,", round(took, 2), "s,", round(1e6 / took), "lines a second,", "equal" if out == model(data) else "BAD")


speed() if "--speed" in sys.argv else main()
