"""Boot systemd over the files of this machine, in namespaces of its own."""
from __future__ import annotations

import os
import subprocess
import time
import unittest

from subtitles.common.program import TOP
from .bench import SECONDS

# Starts systemd in a control group of its own. At the end of standard input, also if the test was
# killed, kills it and removes the group.
START = r"""
trap '' HUP INT TERM
mkdir cgroup upper root && mount -t cgroup2 none cgroup || exit
group=$PWD/cgroup/subttx-test-$$
mkdir "$group" || exit
{ sh -c 'echo $$ >"$1/cgroup.procs"; echo $$ >pid
    exec unshare --cgroup --mount --pid --ipc --uts --net --fork --kill-child \
        --propagation private sh -ec "$2" sh "$3"' sh "$group" "$1" "$2"; touch ended; } &
cat >/dev/null
kill -KILL $(cat "/proc/$(cat pid)/task/$(cat pid)/children")
wait
find "$group" -depth -type d -exec rmdir {} +
"""
# Mounts a writable copy of this machine's files without its units, and becomes systemd. Its first
# argument is the folder of these sources.
BOOT = r"""
mount -t tmpfs none upper
mkdir upper/upper upper/work
mount -t overlay -o lowerdir=/,upperdir=upper/upper,workdir=upper/work none root
cd root
rm -rf etc/fstab etc/systemd/system lib/systemd/system/*.wants
mkdir etc/systemd/system
printf '[Unit]\nDefaultDependencies=no\n' >etc/systemd/system/test.target
mount -t proc proc proc
mount -t sysfs -o ro sysfs sys
mount -t cgroup2 none sys/fs/cgroup || { mount -t tmpfs none sys/fs && mkdir sys/fs/cgroup &&
    mount -t cgroup2 none sys/fs/cgroup; }
for folder in run tmp dev; do mount -t tmpfs -o mode=755 none $folder; done
chmod 1777 tmp
mkdir -p ".$1"
mount --bind "$1" ".$1"
for name in null zero full random urandom tty; do
    touch dev/$name
    mount --bind /dev/$name dev/$name
done
mkdir dev/pts dev/shm
mount -t devpts -o newinstance,ptmxmode=666 devpts dev/pts
ln -s pts/ptmx dev/ptmx
ln -s /proc/self/fd dev/fd
mkdir -p oldroot
pivot_root . oldroot
umount -l oldroot
exec env -i container=test PATH=/usr/sbin:/usr/bin:/sbin:/bin setpriv --bounding-set \
    -sys_module,-sys_time,-sys_boot,-sys_rawio,-mac_admin,-mac_override,-syslog,-audit_control \
    --inh-caps -all /lib/systemd/systemd --unit=test.target --log-target=console \
    systemd.unified_cgroup_hierarchy=1
"""


class BootedSystem:
    """A running systemd. The files that it changes are in memory."""

    def __init__(self, folder: str) -> None:
        """Boot systemd with mounts in an empty folder. If that fails, skip the test."""
        if not os.path.exists("/lib/systemd/systemd"):
            raise unittest.SkipTest("running units, since there is no systemd")
        self.folder, self.log = folder, open(os.path.join(folder, "log"), "w+b")
        self.process = subprocess.Popen(
            ["unshare", "--mount", "--propagation", "private", "sh", "-c", START, "sh", BOOT, TOP],
            cwd=folder, stdin=subprocess.PIPE, stdout=self.log, stderr=self.log)
        end = time.monotonic() + SECONDS
        while not self.is_running():
            has_ended = os.path.exists(os.path.join(folder, "ended"))
            if has_ended or self.process.poll() is not None or time.monotonic() > end:
                self.stop()
                self.log.seek(0)
                lines = self.log.read().decode(errors="replace").splitlines() or ["no message"]
                raise unittest.SkipTest("running units, since systemd does not boot in a "
                                        f"namespace: {lines[-1]}")
            time.sleep(0.05)

    def is_running(self) -> bool:
        """Return whether systemd has started its target."""
        return bool(self.child) and \
            self.call("systemctl", "is-system-running") in ("running", "degraded")

    @property
    def child(self) -> str:
        """Return the process ID of systemd outside of its namespaces, or an empty string."""
        try:
            with open(os.path.join(self.folder, "pid"), encoding="ascii") as file:
                parent = file.read().strip()
            with open(f"/proc/{parent}/task/{parent}/children", encoding="ascii") as file:
                return file.read().strip()
        except OSError:
            return ""

    def path(self, path: str) -> str:
        """Return the path by which this test reads and writes a file of the booted system."""
        return f"/proc/{self.child}/root{path}"

    def call(self, *command: str) -> str:
        """Run a command in the booted system. Return what it prints on standard output."""
        process = subprocess.run(
            ["nsenter", "-t", self.child, "-m", "-p", "-u", "-i", "-n", "-C", "-r", "env", "-i",
             "-C", "/", "PATH=/usr/local/bin:/usr/sbin:/usr/bin:/sbin:/bin", *command],
            stdin=subprocess.DEVNULL, stdout=subprocess.PIPE, stderr=self.log, timeout=SECONDS,
            check=False)
        return process.stdout.decode(errors="replace").strip()

    def stop(self) -> None:
        """Kill systemd and its services, and remove its control group."""
        self.process.communicate(b"")
