"""Lines that behaviours give the program: good ones of each kind, and some that no script has."""

PUT = b"offer eth0 label rs 3.0 = 3/17"
TOMBSTONE = b"offer eth0 label rs 3.1 -"
# A good line of each kind, a tombstone with the number that no put has, a floor, and a line of each other command.
GOOD = [
    PUT,
    TOMBSTONE,
    b"offer mtu u32 eth0 3.9 = 1500",
    b'offer id str eth0 3.0 = "a\\"b\\\\ ~"',
    b"offer mac mem eth0 3.1 = 00ff",
    b"offer mtu u32 eth0 3.4294967295 -",
    b"offer ! eth0 3",
    b"show",
    b"all",
    b"publish 0/2 new eth0 label 3.0 = 3/17",
    b"publish 0/2 over boot u32 0.10 = 7",
    b'publish 0/2 new id str 0.0 = "a\\"b\\\\ ~"',
    b"publish 0/2 new mac mem 0.0 = 00ff",
    b"delete 0/2 boot u32 0.11",
    b"sweep 0/2 eth0 3",
    b"retrieve boot u32",
    b"nameof 0/2",
    b'subscribe 127 "a" 15 first new',
    b'subscribe 0 "" 1 later over',
    b"check 127 256",
    b'map "a" 8',
    b"entries 18446744073709551615",
    b"ring 4096",
    b"since * 1 0 256",
    b'since "a" 15 9 8 1',
    b"snapshot *",
    b'snapshot "a" 4',
    b"page * - 1",
    b"page * - u32 256",
    b'page "a" 15 -a.b label 7',
    b"side b",
    b"deliver 9 m8 *",
    b"deliver 0 a 4",
    b"clear 9",
    b"restart b 9",
    b"settings slots = 8",
    b'settings service=[{label="disk",class="block",unit=3}]',
    b"service up disk 0",
    b"service refresh disk 18446744073709551615",
    b"death 1/16 1 5",
    b"beat 1/16 5",
    b"tick 6",
    b"assign file 255 block disk",
    b"assign file 4 character tty",
    b"assign net 0 eth0",
    b"follow 0",
    b"submit file 9 3 0",
    b"submit net 0 255 9",
    b"reply file 1/16 9",
    b"reply net 0/2 0",
]
FIRST_LINES = [b"ring 4096"]  # good only as the first line of a script
# Lines of traces, which no script has.
OF_TRACES = b"""\
trace 1 1 0 256
> 0 offer eth0 label rs 3.0 = 3/17
< taken
merge 1
+ eth0 label rs 3.0 = 3/17
"""
