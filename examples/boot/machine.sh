# QEMU, the firmware built, and ways to boot it: sourced by run.

have_qemu() {
    .ci/have qemu-system-x86_64 qemu-system-x86 examples/boot
}

# build NAME FLAG ..: target/boot/NAME/boot.elf, which a PVH loader takes, and boot.rom, which starts at the reset vector.
build() {
    local to=$out/$1
    shift
    mkdir -p "$to"
    gcc -std=c11 -O2 -Wall -Wextra -Werror -ffreestanding -fno-pie -fno-stack-protector -fcf-protection=none -mno-red-zone \
        -fno-asynchronous-unwind-tables -Iinclude "$@" -nostdlib -static -no-pie -Wl,-n,--gc-sections,--build-id=none \
        -Wl,-T,$here/boot.ld $here/start.S $here/*.c $archive -o "$to/boot.elf"
    objcopy -O binary "$to/boot.elf" "$to/boot.bin"
    gcc -nostdlib -static -no-pie -Wa,-I,"$to" -Wl,--build-id=none,-T,$here/rom.ld $here/reset.S -o "$to/rom.elf"
    objcopy -O binary --gap-fill 0xFF "$to/rom.elf" "$to/boot.rom"
}

machine=(-machine q35 -accel tcg -m 64 -nodefaults -display none -vga none -no-reboot -device isa-debug-exit,iobase=0xf4,iosize=4)

# boot LOG ARGUMENT ..: boots; status is QEMU's, 124 where the time ran out. What the serial port sent is LOG.
boot() {
    local log=$1
    shift
    status=0
    timeout $seconds qemu-system-x86_64 "${machine[@]}" -serial "file:$log.serial" -monitor none "$@" \
        </dev/null >"$log.qemu" 2>&1 || status=$?
    tr -d '\r' <"$log.serial" >"$log"
}

# plug LOG LINES ARGUMENT ..: boots, and gives the monitor LINES when a slot waits.
plug() {
    local log=$1 lines=$2
    shift 2
    status=0
    : >"$log.serial"
    {
        for ((tries = 0; tries < 600; tries++)); do
            grep -q 'waits for a card' "$log.serial" && break
            sleep 0.05
        done
        printf '%s\n' "$lines"
        for ((tries = 0; tries < 600; tries++)); do
            grep -q -E '^(good|FAILED|FAULT)' "$log.serial" && break
            sleep 0.05
        done
    } | timeout $seconds qemu-system-x86_64 "${machine[@]}" -serial "file:$log.serial" -monitor stdio "$@" >"$log.qemu" 2>&1 || status=$?
    tr -d '\r' <"$log.serial" >"$log"
}

# step LOG ARGUMENT ..: boots, and at every stop of the script writes QEMU's own map, each range with its device, to LOG.maps.
step() {
    local log=$1 path=$1.pipe line stops=0
    shift
    rm -f "$path".{in,out}
    mkfifo "$path".{in,out}
    coproc QEMU { exec timeout $seconds qemu-system-x86_64 "${machine[@]}" -serial "pipe:$path" -monitor stdio "$@" 2>&1; }
    local process=$QEMU_PID
    exec 3<>"$path.out" 4<>"$path.in" 5<&"${QEMU[0]}" 6>&"${QEMU[1]}"
    : >"$log"
    : >"$log.maps"
    while IFS= read -r -t $seconds line <&3; do
        printf '%s\n' "${line%$'\r'}" >>"$log"
        case $line in
        waiting*)
            echo "stop $((++stops))" >>"$log.maps"
            printf 'info mtree -f -o\nprint 0xe0d\n' >&6
            sed -u -n -e 's/\r$//' -e '/^0xe0d$/q' -e p <&5 >>"$log.maps"
            printf . >&4
            ;;
        good* | FAILED* | FAULT*) break ;;
        esac
    done
    status=0
    wait "$process" || status=$?
    exec 3>&- 4>&- 5>&- 6>&-
    rm -f "$path".{in,out}
    cp "$log.maps" "$log.qemu"
}

# ended NAME LOG STATUS: the machine ended with this status, and not by a triple fault (0) or by the clock (124).
ended() {
    [ "$status" = "$3" ] && return
    cat "$2.qemu" >&2
    tail -n 3 "$2" >&2
    problem "$1 ended with status $status, not $3"
}
