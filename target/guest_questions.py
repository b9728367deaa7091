"""Questions by a disk of Linux, as guest_session.sh asks them: of four orders, one in each block of the zone from LBA ZONE on.

    guest_questions.py DISK ZONE
"""

import sys

import pifnjarl_linux

LAYOUT = "records 64 count 1\norder text8 @0\nregion u32 @8\nwhat text8 @12\n"

with pifnjarl_linux.Disk(sys.argv[1]) as disk:
    zone = int(sys.argv[2])
    print(disk.geometry)
    before = disk.report()
    for row in disk.query(zone, LAYOUT, "region == 3", blocks=4):
        print(row)
    print(disk.query(zone, LAYOUT, "region != arg", argument=3, blocks=4, sum="region", least="region"))
    rows = disk.query(zone, LAYOUT, "region != 0", blocks=4, select="order")
    read = [disk.read(zone + at, 1)[:8].decode() for at in range(4)]
    print("as Reads give them" if [row.order for row in rows] == read else (rows, read))
    print("zones as they were" if disk.report() == before else disk.report())
    try:
        disk.query(zone, LAYOUT, "regon == 3")
    except pifnjarl_linux.DeviceError as refused:
        print(str(refused).splitlines()[0])
