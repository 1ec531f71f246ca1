"""The root of another system, in which links lead nowhere else: a path in it is followed as dpkg follows it there by chroot. A link that
leads to an absolute path leads to that path in the root, and `..` ends at the root."""
import contextlib
import os
import pathlib

from debplan import disk
from debplan.tool import Failure

FOLDER = os.O_RDONLY | os.O_DIRECTORY | os.O_NOFOLLOW | os.O_CLOEXEC
# How many links a path may lead over, as for Linux (path_resolution(7)).
LINKS = 40


class Walk:
    """The way through the folders of a root, each of which is held open: what is moved or replaced meanwhile leads nowhere else."""

    def __init__(self, root):
        self.root, self.held, self.links = root, [os.open(root, FOLDER & ~os.O_NOFOLLOW)], 0

    def __enter__(self):
        return self

    def __exit__(self, *_):
        self.back_to(0)

    def back_to(self, count):
        """Goes back until so many folders are held."""
        while len(self.held) > count:
            os.close(self.held.pop())

    def go(self, path):
        """Goes on by a path."""
        if path.startswith("/"):
            self.back_to(1)
        for name in path.split("/"):
            if name == "..":
                self.back_to(max(1, len(self.held) - 1))
            elif name not in ("", "."):
                self.enter(name)

    def enter(self, name):
        """Enters a folder, or goes where a link leads."""
        try:
            self.held.append(os.open(name, FOLDER, dir_fd=self.held[-1]))
        except OSError as error:
            target = self.target_of(name)
            if target is None:
                raise Failure(f"{self.root}: the folder {name} in it can't be opened: {error.strerror}") from None
            self.go(target)

    def target_of(self, name):
        """Where a link leads; None of what is no link."""
        try:
            found = os.readlink(name, dir_fd=self.held[-1])
        except OSError:
            return None
        self.links += 1
        if self.links > LINKS:
            raise Failure(f"{self.root}: the link {name} in it leads over too many links")
        return found

    def end_of(self, path):
        """Goes to the folder of what a path leads to in the end, and returns its name there."""
        while path is not None:
            place, name = os.path.split(path)
            self.go(place)
            path = self.target_of(name)
        return name


@contextlib.contextmanager
def folder(root, path):
    """A descriptor of a folder of a root."""
    with Walk(root) as walk:
        walk.go(path)
        yield walk.held[-1]


def path_of(root, path):
    """The path outside of the root of a folder in it."""
    with folder(root, path) as found:
        return pathlib.Path(os.readlink(f"/proc/self/fd/{found}"))


def leads_on(root, path):
    """Whether a path leads to something in a root."""
    with contextlib.suppress(Failure, FileNotFoundError), Walk(root) as walk:
        os.stat(walk.end_of(path), dir_fd=walk.held[-1], follow_symlinks=False)
        return True
    return False


def has(root, path):
    """Whether there is such a file in a root, be it a link that leads nowhere."""
    place, name = os.path.split(path)
    try:
        with folder(root, place) as found:
            os.stat(name, dir_fd=found, follow_symlinks=False)
    except (Failure, FileNotFoundError):
        return False
    return True


def write(root, path, data, mode=0o644):
    """Writes a file that isn't there yet, and returns its device and inode."""
    place, name = os.path.split(path)
    with folder(root, place) as found:
        descriptor = disk.new_file(name, os.O_WRONLY, mode, found)
        with open(descriptor, "wb") as file:
            file.write(data)
            os.fchmod(descriptor, mode)
            return identity(os.fstat(descriptor))


def known_by(root, path, data):
    """The device and inode of a file that has exactly these bytes; None where there is no such file."""
    place, name = os.path.split(path)
    with contextlib.suppress(Failure, OSError), folder(root, place) as found:
        with open(os.open(name, os.O_RDONLY | os.O_NOFOLLOW | os.O_NONBLOCK, dir_fd=found), "rb") as file:
            return identity(os.fstat(file.fileno())) if file.read(len(data) + 1) == data else None
    return None


def remove(root, path, known):
    """Removes the file that was written, if it is still this one."""
    place, name = os.path.split(path)
    with contextlib.suppress(FileNotFoundError), folder(root, place) as found:
        if identity(os.stat(name, dir_fd=found, follow_symlinks=False)) == known:
            os.unlink(name, dir_fd=found)


def identity(state):
    return state.st_dev, state.st_ino


# A process in the root


def call(root, function, *arguments):
    """Calls a function in a process whose root this is. What stops it there ends the tool."""
    told, telling = os.pipe()
    child = os.fork()
    if not child:
        be_inside(root, function, arguments, telling)
    os.close(telling)
    with open(told, encoding="utf-8", errors="surrogateescape") as words:
        why = words.read()
    status = os.waitpid(child, 0)[1]
    if status:
        raise Failure(f"{root}: {why or f'a process in it ended with the status {status}'}")


def be_inside(root, function, arguments, telling):
    """Has the root, calls the function, tells why that went wrong, and ends."""
    status = 1
    try:
        os.chroot(root)
        os.chdir("/")
        function(*arguments)
        status = 0
    except BaseException as error:
        os.write(telling, str(error).encode("utf-8", "surrogateescape"))
    finally:
        os._exit(status)
