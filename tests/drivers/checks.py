"""What scripts that call a program tell: a line for each check, 'ok', or 'FAILED' with what was wanted and what came."""
import threading

failed = []
lock = threading.Lock()


def check(what, wanted, got):
    with lock:
        if wanted == got:
            print(f"ok      {what}", flush=True)
        else:
            failed.append(what)
            print(f"FAILED  {what}\n        wanted {wanted!r}\n        got    {got!r}", flush=True)


# beside the checks
def tell(what):
    print(f"        {what}", flush=True)


# the last line, and the status with which the script ends
def status():
    print(f"{len(failed)} failed" if failed else "all is as it should be")
    return 1 if failed else 0
