"""Runs lte_survey by a Dask cluster of two workers on this machine, and kills one of them in the middle.

The arguments are those of lte_survey. A line on standard error says what was killed.
"""
import os
import pathlib
import signal
import subprocess
import sys
import threading
import time

SOME = 20  # answers after which a worker is killed


def begun(module, *words):
    """Starts a part of the cluster, and returns it with the first line that has an address."""
    command = [sys.executable, "-m", f"distributed.cli.{module}", *words]
    process = subprocess.Popen(command, stderr=subprocess.PIPE, stdout=subprocess.DEVNULL, text=True)
    for line in process.stderr:
        if "tcp://" in line:
            threading.Thread(target=process.stderr.read, daemon=True).start()
            return process, "tcp://" + line.split("tcp://")[1].split()[0].strip("',")
    raise SystemExit(f"{module} has not begun")


def answers():
    """Returns how often the programs of stand_in.py were asked."""
    path = pathlib.Path(os.environ["STAND_IN_COUNT"])
    return path.read_text().count("\n") if path.exists() else 0


def main():
    scheduler, address = begun("dask_scheduler", "--host", "127.0.0.1", "--port", "0", "--no-dashboard", "--no-show")
    words = (address, "--no-nanny", "--nthreads", "1", "--no-dashboard")
    workers = [begun("dask_worker", *words)[0] for _ in range(2)]
    try:
        survey = subprocess.Popen([sys.executable, "-m", "lte_tools.survey", *sys.argv[1:], "--dask", address])
        while survey.poll() is None and answers() < SOME:
            time.sleep(0.01)
        is_running = survey.poll() is None
        workers[0].send_signal(signal.SIGKILL)
        status = survey.wait(timeout=100)
        if is_running:
            print("killed 1 of 2 workers", file=sys.stderr)
        return status
    finally:
        for one in (*workers, scheduler):
            one.kill()
            one.wait()


if __name__ == "__main__":
    sys.exit(main())
