"""The host: closed streams, images that are open elsewhere, runs that are ended, folders that are not synced, odd names, and reasons."""
import errno
import fcntl
import os
import pathlib
import re
import shutil
import signal
import subprocess
import sys
import tempfile
import time

import harness
from fs_room import NOBODY, STAMP, Disk, files_of, for_each, limited

FILE, OTHER = "[1,2]NOTES.TXT", "[1,2]OTHER.TXT"

MKDIR = ("--stamp", STAMP, "disk", "mkdir", "NEW")
TODO = b"ls 1,2/\ncat [1,2]NOTES.TXT\nmkdir [6,6]\nrm NOSUCH.TXT;1\n"

LISTED = b"ls 1,2/\ncat [1,2]NOTES.TXT\nmkdir [6,6]\n"
CALLS = tempfile.TemporaryDirectory(prefix="f11fs-")  # calls of the C library that stand for its own

# The words of runs with closed streams, each in a folder of its own.
COMMANDS = [
    ("disk", "ls"), ("disk", "ls", "-l", "1,2/"), ("disk", "find"), ("disk", "stat", FILE), ("disk", "df"), ("disk", "du"), ("disk", "check"),
    ("disk", "check", "--all"), ("disk", "cat", FILE), ("disk", "get", FILE, "got"), ("disk", "cmp", "disk"), ("disk", "rescue", "saved"),
    ("--stamp", STAMP, "disk", "put", "a.txt", "[1,2]"), ("--stamp", STAMP, "disk", "put", "-", "[1,2]X.X"),
    ("disk", "rm", FILE + ";1"), ("disk", "rm", "NOSUCH.TXT;1"), ("disk", "mv", FILE, OTHER), ("disk", "mv", "NOSUCH.TXT", OTHER),
    ("--stamp", STAMP, "disk", "cp", FILE, OTHER), ("--stamp", STAMP, "disk", "mkdir", "[6,6]"), ("--stamp", STAMP, "disk", "mkdir", "[1,2]"),
    ("disk", "rmdir", "[1,2]"), ("disk", "truncate", FILE, "1"), ("disk", "truncate", FILE, "99999"), ("-n", "--stamp", STAMP, "disk", "mkdir", "NEW"),
    ("--stamp", STAMP, "-f", "todo", "disk"), ("--stamp", STAMP, "-f", "listed", "disk"), ("--stamp", STAMP, "--backup", "-f", "listed", "disk"),
    ("--stamp", STAMP, "disk", "untar", "-"), ("--stamp", STAMP, "disk", "cp", "--from", "linked", FILE, "[0,0]"), ("--stamp", STAMP, "disk", "repair", "all"),
    ("--stamp", STAMP, "-o", "new", "disk", "mkdir", "NEW"), ("--stamp", STAMP, "made", "init", "80"), ("--stamp", STAMP, "linked", "mkdir", "NEW"),
]


def laid(room: Disk, name: str) -> pathlib.Path:
    """A folder of its own with the image and files of the host."""
    folder = room.folder / name
    folder.mkdir()
    (folder / "disk").write_bytes(room.before)
    (folder / "a.txt").write_bytes(b"one\ntwo\n")
    (folder / "todo").write_bytes(TODO)
    (folder / "listed").write_bytes(LISTED)
    (folder / "linked").write_bytes(room.before)
    os.link(folder / "linked", folder / "twin")
    return folder


def run_closed(program: pathlib.Path, folder: pathlib.Path, closed: str, words: tuple[str, ...]) -> int:
    """Runs the program with these streams closed; returns the status."""
    command = ["sh", "-c", f'exec "$0" "$@" {closed}', str(program), *words]
    return subprocess.run(command, cwd=folder, stdin=subprocess.DEVNULL, capture_output=True, timeout=120).returncode


def with_closed(room: Disk, closed: str) -> None:
    """With these streams closed each command does what it does with none closed, or answers 3."""
    for number, words in enumerate(COMMANDS):
        open_folder, folder = laid(room, f"open{number}"), laid(room, f"closed{number}")
        ample = run_closed(room.program, open_folder, "", words)
        status = run_closed(room.program, folder, closed, words)
        before, after = files_of(laid(room, f"before{number}")), files_of(folder)
        if "-" in words and "<&-" in closed:
            # Standard input that is closed is no file that is empty.
            room.assertEqual((status, after == before), (3, True), f"{words} {closed}: status, and whether the files of the host are as before")
        elif "rescue" in words and status == 3:
            # It ends where its first line cannot be written.
            assert before.items() <= after.items() <= files_of(open_folder).items(), f"{words} {closed}: files of the host"
        else:
            assert after == files_of(open_folder), f"{words} {closed}: status {status}, files of the host"
        room.assertIn(status, (ample, 3), f"{words} {closed}")


def preloaded(text: str) -> dict[str, str]:
    """The environment of a run in which calls of the C library are these."""
    folder = tempfile.mkdtemp(dir=CALLS.name)
    source = pathlib.Path(folder) / "calls.c"
    source.write_text("#define _GNU_SOURCE\n#include <dlfcn.h>\n#include <errno.h>\n#include <sys/stat.h>\n#include <sys/syscall.h>\n#include <unistd.h>\n" + text)
    made = pathlib.Path(folder) / "calls.so"
    subprocess.run(["cc", "-shared", "-fPIC", "-O1", "-o", made, source], check=True)
    return {**os.environ, "LD_PRELOAD": str(made)}

# What a run does before it syncs a file: it waits for a byte of standard input.
WAITS = """int fsync(int file) {
    struct stat found;
    char byte;
    if (!fstat(file, &found) && S_ISREG(found.st_mode)) read(0, &byte, 1);
    return syscall(SYS_fsync, file);
}
"""


def waiting(room: Disk) -> tuple[subprocess.Popen[bytes], list[int]]:
    """A change that has locked the image and waits before its new file is synced; and the flags of the image's descriptors."""
    run = subprocess.Popen([room.program, *MKDIR], cwd=room.folder, env=preloaded(WAITS), stdin=subprocess.PIPE, stdout=subprocess.PIPE,
            stderr=subprocess.PIPE)
    new = room.folder / ".disk.f11fs-new"
    for _ in range(600):
        if new.exists() and new.stat().st_size == len(room.before):
            return run, flags_of(run.pid, room.image)
        time.sleep(0.05)
    run.kill()
    raise AssertionError("there is no new file")


def flags_of(process: int, path: pathlib.Path) -> list[int]:
    """How a process has a file open: the flags of each of its descriptors."""
    found = []
    for descriptor in pathlib.Path(f"/proc/{process}/fd").iterdir():
        try:
            if os.path.samefile(descriptor, path):
                found.append(int(re.search(r"flags:\s*(\d+)",
                        pathlib.Path(f"/proc/{process}/fdinfo/{descriptor.name}").read_text()).group(1), 8))
        except OSError:
            pass
    return found


def ended(run: subprocess.Popen[bytes], given: bytes = b"one\n") -> tuple[int, bytes, bytes]:
    out, err = run.communicate(given, timeout=60)
    return run.returncode, out, err


def busy(process: int, name: str = r".+", path: str = "disk") -> re.Pattern[bytes]:
    """The line of an image that a process has open."""
    return re.compile(rf"f11fs: {path}: process {process} \({name}\) has it open; detach it there, or use --force\n".encode())


def open_elsewhere(room: Disk, how: str) -> None:
    with open(room.image, how):
        status, out, err = room.f11fs(*MKDIR)
        room.assertEqual((status, out), (3, b""), "a change of an image that is open")
        room.fits(err, busy(os.getpid()), "the line")
        assert room.is_untouched(), "the image was touched"
        room.assertEqual(room.names(), ["disk"], "files of the host")
        for words in (("-n",), ("-o", "new")):
            status, _, err = room.f11fs(*words, *MKDIR)
            room.assertEqual((status, err), (0, b""), f"{words} of an image that is open")
        assert room.is_untouched(), "the image was touched"
        room.assertEqual(room.f11fs("--force", *MKDIR), (0, b"", b""), "--force")
    room.assertEqual(room.f11fs("--stamp", STAMP, "disk", "mkdir", "MORE"), (0, b"", b""), "a change of an image that was open")

# A mapping of the image, without its descriptor.
MAPPED = """import ctypes, os
call = ctypes.CDLL(None).mmap
call.restype, call.argtypes = ctypes.c_void_p, [ctypes.c_void_p, ctypes.c_size_t, ctypes.c_int, ctypes.c_int, ctypes.c_int, ctypes.c_long]
held = os.open('disk', os.O_RDWR)
call(None, 4096, 1, 1, held, 0)
os.close(held)
"""

# A process with a name that is no text.
NAMED = """import os
open('/proc/self/comm', 'wb').write(b'a\\x1b[7mb\\n')
held = open('disk', 'r+b')
"""

# A thread that has a table of descriptors of its own, with the image in it.
THREADED = """import ctypes, os, threading
opened = threading.Event()
def hold():
    ctypes.CDLL(None).unshare(0x400)
    held = os.open('disk', os.O_RDWR)
    opened.set()
    threading.Event().wait()
threading.Thread(target=hold, daemon=True).start()
opened.wait()
"""


def held_by(room: Disk, words: str, name: str = r".+") -> None:
    """A change of an image that a Python program of this name has open."""
    with subprocess.Popen([sys.executable, "-c", f"{words}print('open', flush=True)\ninput()\nos._exit(0)"], cwd=room.folder, stdin=subprocess.PIPE,
            stdout=subprocess.PIPE) as held:
        held.stdout.readline()
        status, out, err = room.f11fs(*MKDIR)
        held.communicate(b"\n")
    room.assertEqual((status, out), (3, b""), "a change of an image that is open")
    room.fits(err, busy(held.pid, name), "the line")
    assert room.is_untouched(), "the image was touched"
    room.assertEqual(room.f11fs(*MKDIR), (0, b"", b""), "a change of an image that was open")


# A monotonic clock on which three seconds pass between two looks.
FAST_CLOCK = """#include <time.h>
int clock_gettime(clockid_t clock, struct timespec *time) {
    static long looks;
    long status = syscall(SYS_clock_gettime, clock, time);
    if (clock == CLOCK_MONOTONIC) time->tv_sec += 3 * looks++;
    return status;
}
"""

NO_SYNC = """int fsync(int file) {
    struct stat found;
    if (!fstat(file, &found) && S_ISDIR(found.st_mode)) { errno = EIO; return -1; }
    return syscall(SYS_fsync, file);
}
"""


class Host(Disk):

    def test_locked_image_is_open_for_reading_alone(self) -> None:
        run, flags = waiting(self)
        done = ended(run)
        self.assertEqual([flag & os.O_ACCMODE for flag in flags], [os.O_RDONLY], "how the image is open")
        self.assertEqual(done, (0, b"", b""), "a change")

    def test_image_that_another_process_writes(self) -> None:
        open_elsewhere(self, "r+b")

    def test_image_that_another_process_reads(self) -> None:
        open_elsewhere(self, "rb")

    def test_image_that_is_opened_meanwhile(self) -> None:
        run, _ = waiting(self)
        with open(self.image, "r+b"):
            status, out, err = ended(run)
        self.assertEqual((status, out), (3, b""), "a change of an image that was opened meanwhile")
        self.fits(err, busy(os.getpid()), "the line")
        assert self.is_untouched(), "the image was touched"
        self.assertEqual(self.names(), ["disk"], "files of the host")
        # One that has it open only for a moment is no hindrance.
        with open(self.image, "r+b"):
            run = subprocess.Popen([self.program, *MKDIR], cwd=self.folder, stdin=subprocess.PIPE, stdout=subprocess.PIPE,
                    stderr=subprocess.PIPE)
            time.sleep(0.1)
        self.assertEqual(ended(run), (0, b"", b""), "a change")

    def test_name_of_the_process_is_shown(self) -> None:
        held_by(self, NAMED, r"a\\x1b\[7mb")

    def test_image_that_another_process_maps(self) -> None:
        held_by(self, MAPPED)

    def test_image_that_a_thread_has_open(self) -> None:
        held_by(self, THREADED)

    def test_image_under_a_loop_device(self) -> None:
        made = subprocess.run(["losetup", "-f", "--show", self.image], capture_output=True, text=True) if shutil.which("losetup") else None
        if not made or made.returncode:
            self.skipTest("no loop device can be made")
        try:
            status, out, err = self.f11fs(*MKDIR)
        finally:
            subprocess.run(["losetup", "-d", made.stdout.strip()], check=True)
        line = f"f11fs: disk: device {made.stdout.strip().removeprefix('/dev/')} has it open; detach it there, or use --force\n"
        self.assertEqual((status, out, err), (3, b"", line.encode()), "a change of an image under a loop device")
        assert self.is_untouched(), "the image was touched"

    def test_no_link_of_another_process_is_followed(self) -> None:
        if not shutil.which("strace"):
            self.skipTest("strace is not installed")
        with open(self.folder / "other", "w+b") as other:
            log = self.folder / "calls"
            ran = subprocess.run(["strace", "-f", "-o", log, self.program, *MKDIR], cwd=self.folder, stdin=subprocess.DEVNULL, capture_output=True, timeout=120)
            if not log.exists() or b"ptrace" in ran.stderr:
                self.skipTest("strace may not trace")
            calls = [line for line in log.read_text().splitlines() if f'"/proc/{os.getpid()}/fd/{other.fileno()}"' in line]
        self.assertEqual(ran.returncode, 0, "a change")
        assert calls and all("readlink" in call for call in calls), f"calls on a link: {calls}"

    def test_search_that_takes_too_long(self) -> None:
        ran = subprocess.run([self.program, *MKDIR], cwd=self.folder, env=preloaded(FAST_CLOCK), stdin=subprocess.DEVNULL, capture_output=True, timeout=120)
        self.assertEqual((ran.returncode, ran.stdout), (0, b""), "a change")
        self.fits(ran.stderr, harness.BUSY, "the line")

    def test_owner_is_given_by_descriptor(self) -> None:
        if os.geteuid() != 0:
            return
        os.chown(self.image, NOBODY, NOBODY)
        calls = preloaded("int chown(const char *path, uid_t user, gid_t group) { errno = EPERM; return -1; }\n")
        self.assertEqual(self.f11fs(*MKDIR, env=calls), (0, b"", b""), "a change where owners are not given by path")
        self.assertEqual(self.image.stat().st_uid, NOBODY, "the owner")

    def test_folder_that_is_not_synced(self) -> None:
        calls = preloaded(NO_SYNC)
        line = "f11fs: {}: the image is saved, but its folder could not be synced: the device failed\n"
        self.assertEqual(self.f11fs(*MKDIR, env=calls), (3, b"", line.format("disk").encode()), "a change")
        assert "[NEW]" in self.volume().directories, "the change is not there"
        self.assertEqual(self.f11fs("-o", "new", "--stamp", STAMP, "disk", "mkdir", "MORE", env=calls), (3, b"", line.format("new").encode()),
                "a change elsewhere")
        assert "[MORE]" in self.volume("new").directories, "the change is not there"
        self.assertEqual(self.f11fs("--stamp", STAMP, "made", "init", "80", env=calls), (3, b"", line.format("made").encode()), "a new volume")
        self.assertEqual(self.f11fs("made", "check"), (0, b"sound\n", b""), "the new volume")
        none = preloaded(NO_SYNC.replace("EIO", "EINVAL"))
        self.assertEqual(self.f11fs("--stamp", STAMP, "disk", "mkdir", "LAST", env=none), (0, b"", b""), "a change where folders are not synced at all")

    def test_file_system_without_links(self) -> None:
        for number, error in enumerate((errno.EPERM, errno.EOPNOTSUPP)):
            calls = preloaded(f"int link(const char *from, const char *to) {{ errno = {error}; return -1; }}\n")
            self.assertEqual(self.f11fs("-o", f"new{number}", *MKDIR, env=calls), (0, b"", b""), "a change elsewhere")
            assert "[NEW]" in self.volume(f"new{number}").directories, "the change is not there"
            self.assertEqual(self.f11fs("-o", f"new{number}", *MKDIR, env=calls), (3, b"", f"f11fs: new{number}: it already exists\n".encode()),
                    "a file that is there")
        self.assertEqual(self.names(), ["disk", "new0", "new1"], "files of the host")
        self.image.chmod(0o640)
        self.assertEqual(self.f11fs("-o", "last", *MKDIR, env=calls), (0, b"", b""), "a change elsewhere")
        self.assertEqual((self.folder / "last").stat().st_mode & 0o777, 0o640, "the mode")

    def test_run_that_is_ended_leaves_no_part_under_the_name(self) -> None:
        for words, new in ((("-o", "new", *MKDIR), "new"), (("--stamp", STAMP, "made", "init", "200"), "made")):
            self.assertEqual(self.f11fs(*words, preexec_fn=limited(8192, False))[0], -signal.SIGXFSZ, "the end")
            assert not (self.folder / new).exists(), f"a part of {new} is there"
            self.assertEqual(self.f11fs(*words), (0, b"", b""), "the run afterwards")
            self.assertEqual(self.f11fs(new, "check"), (0, b"sound\n", b""), "the new image")
        assert self.is_untouched(), "the image was touched"
        self.assertEqual(self.names(), ["disk", "made", "new"], "files of the host")

    def test_hidden_file_that_another_program_writes(self) -> None:
        hidden = self.folder / ".new.f11fs-new"
        hidden.write_bytes(b"a part")
        with open(hidden, "rb") as held:
            fcntl.flock(held, fcntl.LOCK_EX)
            self.assertEqual(self.f11fs("-o", "new", *MKDIR), (3, b"", b"f11fs: new: no new file .NAME.f11fs-new can be made beside it: another program is writing to it\n"),
                    "a change elsewhere")
        self.assertEqual((hidden.read_bytes(), self.names()), (b"a part", [".new.f11fs-new", "disk"]), "files of the host")
        self.assertEqual(self.f11fs("-o", "new", *MKDIR), (0, b"", b""), "a change elsewhere")
        self.assertEqual(self.names(), ["disk", "new"], "files of the host")

    def test_block_device(self) -> None:
        made = subprocess.run(["losetup", "--find", "--show", self.image], capture_output=True) if shutil.which("losetup") else None
        if not made or made.returncode:
            self.skipTest("no loop device can be made")
        device = made.stdout.decode().strip()
        try:
            self.assertEqual(self.f11fs("--stamp", STAMP, device, "mkdir", "NEW"), (3, b"", f"f11fs: {device}: it is not a regular file\n".encode()), "a change")
            self.assertEqual(self.f11fs("-n", "--stamp", STAMP, device, "mkdir", "NEW")[::2], (0, b""), "a change that is told")
            self.assertEqual(self.f11fs("-o", "new", "--stamp", STAMP, device, "mkdir", "NEW"), (0, b"", b""), "a change elsewhere")
            assert "[NEW]" in self.volume("new").directories, "the change is not there"
        finally:
            subprocess.run(["losetup", "--detach", device], check=False)




for_each(Host, "closed_streams", ("<&-", ">&-", "2>&-", "<&- >&- 2>&-"), with_closed)
