#!/bin/sh
# The first process of the machine of vm-power-cuts. RUN numbers it; WAY says what happens in it; SETTLE has copies end
# and legs compared first; LEG goes out and comes back, after PAUSE seconds each; WRITEBACK is how long, in hundredths of
# a second, the system keeps what was written and not synced. They come by the kernel's command line.
mount -t proc proc /proc
mount -t sysfs sysfs /sys
mount -t devtmpfs dev /dev
mkdir -p /run /legs/0 /legs/1
while read -r module; do insmod "$module"; done < /modules
echo "$WRITEBACK" > /proc/sys/vm/dirty_writeback_centisecs
echo "$WRITEBACK" > /proc/sys/vm/dirty_expire_centisecs
mount -t ext4 /dev/vda /legs/0
mount -t ext4 /dev/vdb /legs/1
exec > /dev/ttyS1
stty raw

tell() { echo "$@"; }
ask() { vm-client ask /run/control "$1"; }
settle() {
    while ask status | grep -q -e join; do sleep 0.2; done
    tell "status $(ask status | grep -c -v -e 'legs in in' -e end)"
    vm-client same /legs/0/leg0 /legs/1/leg1
}

{
    # The same words each time.
    nbdmirror --stripes 4 --listen unix:/run/clients --control unix:/run/control /legs/0/leg0 /legs/1/leg1 2> /dev/ttyS0
    tell "server ended with $?"
} &
vm-client look /run/clients
[ -z "$SETTLE" ] || settle
case $WAY in
    writes)
        tell works
        vm-client write /run/clients $((RUN << 40))
        ;;
    copies)
        tell works
        vm-client write /run/clients $((RUN << 40)) &
        while :; do
            sleep "$PAUSE"
            tell "$(ask "fail $LEG")"
            sleep "$PAUSE"
            tell "$(ask "attach $LEG")"
        done
        ;;
    quits)
        tell "$(ask quit)"
        wait
        umount /legs/0
        umount /legs/1
        ;;
esac
poweroff -f
