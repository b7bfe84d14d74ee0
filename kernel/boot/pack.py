"""pack.py INIT MODULE: writes an initial file system for kernel/boot/run to standard output.

It has /init, the module as /module.ko, /proc and two devices, as a cpio archive in the form `newc`.
"""
import sys

DIRECTORY, FILE, CHARACTER_DEVICE = 0o040755, 0o100755, 0o020600
CONSOLE, KERNEL_LOG = (5, 1), (1, 11)


def padded(data):
    return data + b"\0" * (-len(data) % 4)


def entry(inode, name, mode, data=b"", device=(0, 0)):
    path = name.encode() + b"\0"
    fields = [inode, mode, 0, 0, 1, 0, len(data), 0, 0, *device, len(path), 0]
    head = b"070701" + b"".join(b"%08X" % number for number in fields)
    return padded(head + path) + padded(data)


def content(path):
    with open(path, "rb") as file:
        return file.read()


def main():
    out = sys.stdout.buffer
    out.write(entry(1, "dev", DIRECTORY))
    out.write(entry(2, "proc", DIRECTORY))
    out.write(entry(3, "dev/console", CHARACTER_DEVICE, device=CONSOLE))
    out.write(entry(4, "dev/kmsg", CHARACTER_DEVICE, device=KERNEL_LOG))
    out.write(entry(5, "init", FILE, content(sys.argv[1])))
    out.write(entry(6, "module.ko", FILE, content(sys.argv[2])))
    out.write(entry(0, "TRAILER!!!", 0))


main()
