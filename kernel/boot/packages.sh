# shellcheck shell=sh disable=SC2034
# Read by kernel/test and the scripts of kernel/boot: where the packages of a kernel go, and the tools to build and boot
# a module.

cache=${XDG_CACHE_HOME:-${HOME:-/tmp}/.cache}/hcube-kernel
machine=$(uname -m)
if [ "$machine" = x86_64 ]; then cross=''; else cross=x86_64-linux-gnu-; fi

retried() { # COMMAND...: up to three times
    for pause in 2 5 0; do
        "$@" && return
        sleep $pause
    done
    return 1
}

has_objdump() {
    for program in objdump x86_64-linux-gnu-objdump; do
        "$program" -i 2>/dev/null | grep -q elf64-x86-64 && return
    done
    return 1
}

missing_tools() {
    has_objdump || echo binutils-x86-64-linux-gnu
    command -v qemu-system-x86_64 >/dev/null || echo qemu-system-x86
    command -v make >/dev/null || echo make
    command -v flock >/dev/null || echo util-linux
    command -v python3 >/dev/null || echo python3
    command -v gcc >/dev/null || echo gcc libc6-dev
    command -v "${cross}gcc" >/dev/null || echo gcc-x86-64-linux-gnu libc6-dev-amd64-cross
    [ -n "$cross" ] || ldconfig -p | grep -q 'libelf\.so\.1 ' || echo libelf1
}

# Another run may be installing too, and has the lock of Debian's own then.
install_tools() {
    # shellcheck disable=SC2046
    DEBIAN_FRONTEND=noninteractive timeout 600 apt-get -q install -y --no-install-recommends -o DPkg::Lock::Timeout=300 \
        $(missing_tools) && return
    timeout 300 apt-get -q update
    return 1
}

get_tools() {
    [ -n "$(missing_tools)" ] || return 0
    retried install_tools
}
