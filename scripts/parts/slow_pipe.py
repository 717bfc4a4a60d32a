"""Feeds a program a line at a time: what a line determines has to be in the output before the next line is sent."""
import os
import select
import subprocess
import time


def read(out, length, seconds):
    """Reads so many bytes, or what has come within the time; where they are 0, what comes at once."""
    got, end = b"", time.monotonic() + (seconds if length > 0 else 0.1)
    while len(got) < max(length, 1) and select.select([out], [], [], max(0, end - time.monotonic()))[0]:
        piece = os.read(out.fileno(), 65536)
        if not piece:
            break
        got += piece
    return got


def wrong(words, lines, seconds=10, may_be_early=False):
    """What is wrong with a run, if anything. Each line has the bytes that it determines; None ends the input."""
    run = subprocess.Popen(words, stdin=subprocess.PIPE, stdout=subprocess.PIPE, bufsize=0)
    got = b""
    try:
        for line, wanted in lines:
            if line is None:
                run.stdin.close()
            else:
                run.stdin.write(line.encode() + b"\n")
            if not may_be_early or len(got) < len(wanted):
                got += read(run.stdout, len(wanted) - len(got), seconds)
            if not got.startswith(wanted) or len(got) > len(wanted) and not may_be_early:
                return f"after {line} there is {got}, and not {wanted}"
            got = got[len(wanted):]
        got, status = got + run.stdout.read(), run.wait(seconds)
        return f"at the end there is {got}, and status {status}" if got or status else None
    except (BrokenPipeError, subprocess.TimeoutExpired) as error:
        return str(error)
    finally:
        run.kill()
