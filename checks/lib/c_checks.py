"""What the checks of C share: each part is told when it is done, and counted; a tool may be missing; and a command is run."""
import shutil
import subprocess

# The calls that c/tests/order.c wraps, to tell the sanitizer of threads what the library orders.
ORDER = "-Wl," + ",".join(f"--wrap=bump_{call}" for call in ("get", "release", "link", "link_temp", "link_words", "link_temp_words", "unlink", "pull",
                                                             "sweep_told", "apply_run_told"))
passed = failed = 0


def tell(name, wrong=""):
    """Tells and counts a part, and what was wrong with it. Whether nothing was."""
    global passed, failed
    if wrong:
        failed += 1
        print(f"FAILED: {name}: {wrong}", flush=True)
    else:
        passed += 1
        print(f"passed: {name}", flush=True)
    return not wrong


def tell_all():
    """Tells how many parts passed and failed, and answers the status."""
    print(f"{passed} passed, {failed} failed")
    return int(failed > 0)


def there(tool, what):
    """Where a tool is, or nothing: then it is told what isn't done."""
    found = shutil.which(tool)
    if not found:
        print(f"missing: {tool}: {what}", flush=True)
    return found


def run(words, seconds=3600, stderr=subprocess.PIPE, **more):
    """A command's status, what it wrote and what it said. Where stderr is STDOUT, it wrote what it said too."""
    try:
        ended = subprocess.run([str(word) for word in words], stdout=subprocess.PIPE, stderr=stderr, text=True, timeout=seconds, **more)
        return ended.returncode, ended.stdout, ended.stderr or ""
    except subprocess.TimeoutExpired:
        return -1, "", f"not ended after {seconds} seconds"


def why(ended):
    """What is wrong with how a command ended: its status, and the end of what it said, or else wrote."""
    status, *texts = ended
    return f"status {status}: {(texts[-1] or texts[0]).strip()[-600:]}" if status else ""
