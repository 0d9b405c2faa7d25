# The named trees, as arguments of qemu-system-x86_64: sourced by run. q35 has functions of its own beside them: host bridge, ISA bridge,
# AHCI and SMBus. Memory BARs have 128 bytes or more, as the planner asks: not so pvpanic-pci, pcnet and i6300esb.

# One card.
card=(-device pcie-root-port,id=root1,bus=pcie.0,addr=2,chassis=1 -device edu,bus=root1)

# A backplane: a card on the root bus with memory above 4 GiB; two ports as functions of one device; a switch in a switch with a card of
# three functions; a PCI bridge and another one below it; equal cards in several places.
backplane=(
    -object memory-backend-ram,id=samples,size=4M -object memory-backend-ram,id=track,size=1M
    -device ivshmem-plain,memdev=samples,bus=pcie.0,addr=2
    -device pcie-root-port,id=left,bus=pcie.0,addr=3.0,multifunction=on,chassis=1
    -device pcie-root-port,id=right,bus=pcie.0,addr=3.1,chassis=2
    -device edu,bus=right
    -device x3130-upstream,id=outer,bus=left
    -device xio3130-downstream,id=outer0,bus=outer,addr=0,chassis=10
    -device xio3130-downstream,id=outer1,bus=outer,addr=1,chassis=11
    -device xio3130-downstream,id=outer2,bus=outer,addr=2,chassis=12
    -device x3130-upstream,id=inner,bus=outer0
    -device xio3130-downstream,id=inner0,bus=inner,addr=0,chassis=20
    -device xio3130-downstream,id=inner1,bus=inner,addr=1,chassis=21
    -device edu,bus=inner0,addr=0.0,multifunction=on -device edu,bus=inner0,addr=0.1
    -device ivshmem-plain,memdev=track,bus=inner0,addr=0.2
    -device qemu-xhci,bus=inner1
    -device nvme,serial=1,bus=outer1
    -device pcie-pci-bridge,id=pci,bus=outer2
    -device pci-serial,bus=pci,addr=2
    -device pci-bridge,id=pci2,bus=pci,addr=1,chassis_nr=30
    -device edu,bus=pci2,addr=1 -device pci-serial,bus=pci2,addr=2
)

# 32 bridges in a row, which is as many as a function may have above it, and beside the last cards a 33rd bridge with nothing below.
row=(-device pcie-root-port,id=b1,bus=pcie.0,addr=2,chassis=1 -device pcie-pci-bridge,id=b2,bus=b1)
for ((n = 3; n <= 32; n++)); do
    row+=(-device "pci-bridge,id=b$n,bus=b$((n - 1)),addr=1,chassis_nr=$n")
done
row+=(-device edu,bus=b32,addr=1 -device pci-serial,bus=b32,addr=2 -device pci-bridge,bus=b32,addr=3,chassis_nr=33)

# Slots: one with a card, one that stays empty and one that gets a card later. QEMU's own hot plug by ACPI is off: the port tells it.
slots=(
    -global ICH9-LPC.acpi-pci-hotplug-with-bridge-support=off
    -device pcie-root-port,id=slot1,bus=pcie.0,addr=2,chassis=1 -device edu,bus=slot1
    -device pcie-root-port,id=slot2,bus=pcie.0,addr=3,chassis=2
    -device pcie-root-port,id=slot3,bus=pcie.0,addr=4,chassis=3
)

# What is plugged in, as lines of QEMU's monitor: a bridge, and below it a card, both before the machine goes on.
later='stop
device_add pcie-pci-bridge,id=later,bus=slot3
device_add edu,bus=later,addr=1
cont'

# random_tree SEED: any tree, in the array random. The same seed is the same tree for one version of bash.
random_tree() {
    RANDOM=$1 random=() names=0 cards=0 io_cards=0
    local device at
    for ((device = 2; device < 26; device += 1 + RANDOM % 6)); do
        printf -v at %x $device
        if ((RANDOM % 3 == 0)); then
            random_card pcie.0 "$at"
        else
            random+=(-device "pcie-root-port,id=n$((++names)),bus=pcie.0,addr=$at,chassis=$names")
            random_slot n$names 1
        fi
    done
}

# random_card BUS ADDRESS: a card at a device, or device.function.
random_card() {
    local at=bus=$1,addr=$2,multifunction=on
    cards=$((cards + 1))
    case $((RANDOM % 6)) in
    0) random+=(-device "intel-hda,$at") ;;
    1 | 2)
        random+=(-object "memory-backend-ram,id=m$((++names)),size=$((1 << RANDOM % 5))M")
        random+=(-device "ivshmem-plain,memdev=m$names,$at")
        ;;
    3)
        if ((++io_cards < 5)); then random+=(-device "pci-serial,$at"); else random+=(-device "edu,$at"); fi
        ;;
    *) random+=(-device "edu,$at") ;;
    esac
}

# random_slot PORT DEPTH: what is in the slot of a PCI Express port: nothing, a card of one to four functions, a switch, or a PCI bridge.
random_slot() {
    local port=$1 depth=$2 switch n
    case $((cards > 40 ? 0 : RANDOM % (depth < 7 ? 7 : 3))) in
    0) ;;
    1 | 2)
        for ((n = RANDOM % 4; n >= 0; n--)); do random_card "$port" 0.$n; done
        ;;
    3 | 4)
        switch=n$((++names))
        random+=(-device "x3130-upstream,id=$switch,bus=$port")
        for ((n = RANDOM % 4; n >= 0; n--)); do
            random+=(-device "xio3130-downstream,id=n$((++names)),bus=$switch,addr=$n,chassis=$names")
            random_slot n$names $((depth + 2))
        done
        ;;
    *)
        random+=(-device "pcie-pci-bridge,id=n$((++names)),bus=$port")
        random_bus n$names $((depth + 1))
        ;;
    esac
}

# random_bus BUS DEPTH: cards and bridges on a PCI bus.
random_bus() {
    local bus=$1 depth=$2 device at
    for ((device = 1; device < 24 && cards < 40; device += 1 + RANDOM % 12)); do
        printf -v at %x $device
        if ((depth < 9 && RANDOM % 3 == 0)); then
            random+=(-device "pci-bridge,id=n$((++names)),bus=$bus,addr=$at,chassis_nr=$names")
            random_bus n$names $((depth + 1))
        else
            random_card "$bus" "$at"
        fi
    done
}
