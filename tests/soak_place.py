"""What the processes of tests/soak share: the list of those that run, which may be killed and stopped, and a disk that may be filled."""

import ctypes
import fcntl
import os
import shutil
import signal
import socket
import struct
import subprocess
import threading
import time

CLONE_NEWNS, CLONE_NEWNET = 0x20000, 0x40000000
SIOCSIFFLAGS, IFF_UP = 0x8914, 1
DISK, PIECE = 64 << 20, 1 << 22


class Over(Exception):
    """The soak ends, so no further process is started."""


class Crowd:
    """The processes that run. A process leaves the crowd before its parent collects it, so its number belongs to no other process while the
    crowd sends a signal to it. A handler of a signal may close the crowd while its thread has the lock."""

    def __init__(self):
        self.lock, self.running, self.is_closed = threading.RLock(), {}, False
        self.killed = self.stopped = 0

    def begin(self, words, is_kept=False, **more):
        """Starts a process. A kept one is ended by SIGTERM at the end of a round."""
        with self.lock:
            if self.is_closed:
                raise Over
            process = subprocess.Popen([str(word) for word in words], stdout=subprocess.PIPE, stderr=subprocess.PIPE, **more)
            self.running[process] = is_kept
            if self.is_closed:
                self.send(process, signal.SIGKILL)
            return process

    def end(self, process):
        """Collects a process that ends by itself. Returns its status."""
        with self.lock:
            if self.running.pop(process, None) is not None:
                os.kill(process.pid, signal.SIGCONT)
        status = process.wait()
        for pipe in (process.stdin, process.stdout, process.stderr):
            try:
                if pipe:
                    pipe.close()
            except OSError:
                pass
        return status

    def send(self, process, number):
        """Sends a signal to a process. Returns whether the process was still in the crowd."""
        with self.lock:
            if process in self.running:
                os.kill(process.pid, number)
                return True
            return False

    def any(self, rolls):
        with self.lock:
            return rolls.choice(list(self.running)) if self.running else None

    def end_kept(self):
        with self.lock:
            kept = [process for process, is_kept in self.running.items() if is_kept]
        for process in kept:
            self.send(process, signal.SIGTERM)

    def close(self):
        """Kills all processes. No further one is started."""
        with self.lock:
            self.is_closed = True
            running = list(self.running)
        for process in running:
            self.send(process, signal.SIGKILL)

    # ---- what may happen to a process at any time

    def kill_some(self, rolls, over):
        while not over.wait(rolls.uniform(0.1, 1.5)):
            process = self.any(rolls)
            if process and self.send(process, signal.SIGKILL):
                self.killed += 1

    def stop_some(self, rolls, over):
        while not over.wait(rolls.uniform(0.02, 0.4)):
            process = self.any(rolls)
            if process and self.send(process, signal.SIGSTOP):
                self.stopped += 1
                over.wait(rolls.choice([0.02, 0.1, 0.3, rolls.uniform(0.3, 2)]))
                self.send(process, signal.SIGCONT)


def own_mounts():
    """Gives this process a separate list of mounts, so that no mount remains after it, however it ends, and separate ports, which no other
    test uses. Returns whether it has the list of mounts."""
    system = ctypes.CDLL(None, use_errno=True)
    if system.unshare(CLONE_NEWNS) != 0:
        return False
    if system.unshare(CLONE_NEWNET) == 0:
        with socket.socket() as any_socket:
            fcntl.ioctl(any_socket, SIOCSIFFLAGS, struct.pack("16sh14x", b"lo", IFF_UP))
    return is_done("mount", "--make-rprivate", "/")


def is_done(*words):
    try:
        return subprocess.run([str(word) for word in words], stdin=subprocess.DEVNULL, capture_output=True, check=False).returncode == 0
    except OSError:
        return False


class Disk:
    """The folder of the databases. It is a small file system of the kind `ext4` or `tmpfs` if this user may mount one, and else has the kind
    `none`."""

    def __init__(self, folder, kind):
        self.folder, self.kind, self.fills = folder / "disk", "none", 0
        self.folder.mkdir()
        ways = {"ext4": self.mount_image, "tmpfs": self.mount_memory}
        for tried in dict.fromkeys([kind, "ext4", "tmpfs"]) if kind != "none" else ():
            if self.kind == "none" and ways[tried](folder / "image"):
                self.kind = tried

    def mount_image(self, image):
        with open(image, "wb") as file:
            file.truncate(DISK)
        return is_done("mkfs.ext4", "-q", "-F", "-b", "4096", "-m", "0", image) and is_done("mount", "-o", "loop", image, self.folder)

    def mount_memory(self, _):
        return is_done("mount", "-t", "tmpfs", "-o", f"size={DISK}", "none", self.folder)

    def unmount(self):
        """Removes the file system. A process that was just killed may still use it for a moment."""
        for _ in range(100):
            if self.kind == "none" or is_done("umount", self.folder):
                self.kind = "none"
                break
            time.sleep(0.1)
        else:
            is_done("umount", "-l", self.folder)
        shutil.rmtree(self.folder, ignore_errors=True)

    def fill_some(self, rolls, over):
        """Fills the disk for some time, and then frees some blocks, and then all."""
        filler = self.folder / "filler"
        while not over.wait(rolls.uniform(1, 5)):
            with open(filler, "wb") as file:
                self.fill(file.fileno())
                self.fills += 1
                over.wait(rolls.uniform(0.05, 0.8))
                file.truncate(max(0, os.fstat(file.fileno()).st_size - 4096 * rolls.randrange(1, 60)))
                over.wait(rolls.uniform(0.05, 0.8))
            filler.unlink()

    def fill(self, file):
        size, piece = 0, PIECE
        while piece >= 4096:
            try:
                os.posix_fallocate(file, size, piece)
                size += piece
            except OSError:
                piece //= 2
