"""What one run of a program costs: for the scripts of this folder."""
import os, subprocess, time

def measure(words, output=(), printed=None, statuses=(0,)):
    """Runs a program, with the files of `output` removed before; its processor seconds and those of the processes that
    it began and waited for (user and system together, user, system), its seconds, and the peak of its own resident
    memory in MiB. None where its status is another one. What it prints and says goes into the file `printed`."""
    for name in output:
        if os.path.exists(name):
            os.remove(name)
    start = time.monotonic()
    streams = printed or subprocess.DEVNULL
    child = subprocess.Popen(words, stdout=streams, stderr=streams)
    peak = 0
    while True:
        # the kernel's own count of a child begins with its parent's memory, so read the child's
        try:
            with open(f"/proc/{child.pid}/status") as status:
                peak = max([peak] + [int(line.split()[1]) for line in status if line.startswith("VmHWM")])
        except OSError:
            pass
        done, status, used = os.wait4(child.pid, os.WNOHANG)
        if done:
            break
        time.sleep(0.005)
    if os.waitstatus_to_exitcode(status) not in statuses:
        return None
    return (used.ru_utime + used.ru_stime, used.ru_utime, used.ru_stime, time.monotonic() - start, peak / 1024)
