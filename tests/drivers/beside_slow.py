#!/usr/bin/python3
"""Sends requests beside one that is slow, or beside a node that pauses.

beside_slow.py ADDRESS [PROCESS]

Sends 200 requests in two seconds, and a slow one among them. With PROCESS, stops that for two seconds instead. Prints
how many of the others failed, and the response of the slow one, or how many waited for a second. With VERBOSE prints
the longest wait of the others."""
import concurrent.futures
import os
import signal
import sys
import threading
import time
import urllib.error
import urllib.request


def get(path):
    """Returns the status of a response, and its seconds."""
    began = time.monotonic()
    try:
        with urllib.request.urlopen(f"http://{sys.argv[1]}{path}", timeout=30) as reply:
            reply.read()
            return reply.status, time.monotonic() - began
    except urllib.error.HTTPError as error:
        return error.code, time.monotonic() - began
    except OSError as error:
        return str(error), time.monotonic() - began


def pause(process):
    os.kill(process, signal.SIGSTOP)
    threading.Timer(2, os.kill, (process, signal.SIGCONT)).start()


def main():
    with concurrent.futures.ThreadPoolExecutor(64) as pool:
        began, others = time.monotonic(), []
        for at in range(200):
            time.sleep(max(0.0, began + at / 100 - time.monotonic()))
            if at == 30 and sys.argv[2:]:
                pause(int(sys.argv[2]))
            elif at == 30:
                slow = pool.submit(get, "/resolve?slow")
            others.append(pool.submit(get, f"/resolve?title={at}"))
        found = [it.result() for it in others]
        failed = [status for status, _ in found if status != 200]
        kinds = sorted(set(map(str, failed)))
        late = sum(seconds > 1 for _, seconds in found)
        end = f"{late} waited for a second" if sys.argv[2:] else f"the slow one {slow.result()[0]}"
        print(f"{len(found)} others, {len(failed)} failed, {end}", *kinds)
        if os.environ.get("VERBOSE"):
            print(f"{max(seconds for _, seconds in found) * 1000:.0f} ms")


if __name__ == "__main__":
    main()
