"""Label areas and what `labels 0` prints of them: patches of AREA, the text, the status.

The bytes come from a script that knows the formats from UEFI 2.10, section 13.19, and from Linux; none from the program. A patch is
an offset and the bytes there.
"""

# The size of AREA in bytes.
AREA_SIZE = 1024

# An area of 1,024 bytes, by the bytes that aren't zero: its first block is that of a fresh area, with
# the published checksum 0x279383A7D8323A33; the second one came with the label in slot 0.
AREA = [
    (0, b"NAMESPACE_INDEX\x00\x00\x00\x00\x01\x03"),
    (33, b"\x01"),
    (41, b"\x01"),
    (49, b"\x02"),
    (56, b"\x02\x00\x00\x00\x01\x00\x02\x003:2\xd8\xa7\x83\x93'\x03"),
    (256, b"NAMESPACE_INDEX\x00\x00\x00\x00\x01\x01\x00\x00\x00\x00\x01"),
    (289, b"\x01"),
    (305, b"\x02"),
    (312, b"\x02\x00\x00\x00\x01\x00\x02\x000:2\xd8\x03\x87\x93'\x02"),
    (
        512,
        b"\x11\x11\x11\x11\x11\x11A\x11\x81\x11\x11\x11\x11\x11\x11\x11a",
    ),
    (596, b"\x01\x00\x00\x005\x12\x00\x00\xde\xa3\x00\x00\x00\x02"),
    (626, b"@"),
    (640, b"y\xd3\xf0f\xf3\xb4t@\xacC\x0d3\x18\xb7\x8c\xdb"),
    (760, b"Y\x80\xb4\xfaNlSF"),
]

# AREA with some bytes changed.
CASES = [
    # unchanged
    (
        [],
        "index 1 seq 1 slots 2 free 1\nlabel 0 11111111-1111-4111-8111-111111111111 \"a\" pos 0 of 1 dpa 0 size 4194304 flags 0 lba 512 mode raw cookie 0000a3de00001235\n",
        0,
    ),
    # both sides fresh: the newer one is current
    (
        [
            (276, b"\x02"),
            (320, b"2"),
            (324, b"l"),
            (328, b"\x03"),
            (512, b"\x00\x00\x00\x00\x00\x00\x00\x00\x00\x00\x00\x00\x00\x00\x00\x00\x00"),
            (596, b"\x00"),
            (600, b"\x00\x00\x00\x00\x00\x00"),
            (609, b"\x00"),
            (626, b"\x00"),
            (640, b"\x00\x00\x00\x00\x00\x00\x00\x00\x00\x00\x00\x00\x00\x00\x00\x00"),
            (760, b"\x00\x00\x00\x00\x00\x00\x00\x00"),
        ],
        "index 0 seq 3 slots 2 free 2\n",
        0,
    ),
    # equal sequence numbers: the one at the higher offset is current
    (
        [
            (20, b"\x02"),
            (64, b"2"),
            (68, b"l"),
            (276, b"\x02"),
            (320, b"2"),
            (324, b"l"),
            (328, b"\x03"),
            (512, b"\x00\x00\x00\x00\x00\x00\x00\x00\x00\x00\x00\x00\x00\x00\x00\x00\x00"),
            (596, b"\x00"),
            (600, b"\x00\x00\x00\x00\x00\x00"),
            (609, b"\x00"),
            (626, b"\x00"),
            (640, b"\x00\x00\x00\x00\x00\x00\x00\x00\x00\x00\x00\x00\x00\x00\x00\x00"),
            (760, b"\x00\x00\x00\x00\x00\x00\x00\x00"),
        ],
        "index 1 seq 2 slots 2 free 2\n",
        0,
    ),
    # zeros
    (
        [
            (0, b"\x00\x00\x00\x00\x00\x00\x00\x00\x00\x00\x00\x00\x00\x00\x00"),
            (19, b"\x00\x00"),
            (33, b"\x00"),
            (41, b"\x00"),
            (49, b"\x00"),
            (56, b"\x00"),
            (60, b"\x00\x00\x00\x00\x00\x00\x00\x00\x00\x00\x00\x00\x00"),
            (256, b"\x00\x00\x00\x00\x00\x00\x00\x00\x00\x00\x00\x00\x00\x00\x00"),
            (275, b"\x00\x00"),
            (281, b"\x00"),
            (289, b"\x00"),
            (305, b"\x00"),
            (312, b"\x00"),
            (316, b"\x00\x00\x00\x00\x00\x00\x00\x00\x00\x00\x00\x00\x00"),
            (512, b"\x00\x00\x00\x00\x00\x00\x00\x00\x00\x00\x00\x00\x00\x00\x00\x00\x00"),
            (596, b"\x00"),
            (600, b"\x00\x00\x00\x00\x00\x00"),
            (609, b"\x00"),
            (626, b"\x00"),
            (640, b"\x00\x00\x00\x00\x00\x00\x00\x00\x00\x00\x00\x00\x00\x00\x00\x00"),
            (760, b"\x00\x00\x00\x00\x00\x00\x00\x00"),
        ],
        "image labels 0 NoIndex\n",
        3,
    ),
    # both blocks closed
    (
        [
            (20, b"\x00"),
            (64, b"0"),
            (68, b"\xf6\x82"),
            (276, b"\x00"),
            (320, b"/"),
            (324, b"\xc8\x86"),
        ],
        "image labels 0 NoIndex\n",
        3,
    ),
    # one block closed: the other one is current
    (
        [(276, b"\x00"), (320, b"/"), (324, b"\xc8\x86")],
        "index 0 seq 3 slots 2 free 2\n",
        0,
    ),
    # label version 1.1 on both sides
    (
        [
            (62, b"\x01"),
            (66, b"1"),
            (70, b"b"),
            (318, b"\x01"),
            (322, b"1"),
            (326, b"b"),
        ],
        "image labels 0 Unsupported 1 1\n",
        3,
    ),
    # the first side of another version is named
    (
        [
            (60, b"\x02\x00\x07\x004:7\xd8\xd8\x83\x88("),
            (318, b"\x03"),
            (322, b"3"),
            (326, b"\xc4"),
        ],
        "image labels 0 Unsupported 2 7\n",
        3,
    ),
    # no valid side, one of another version
    (
        [
            (0, b"\x00\x00\x00\x00\x00\x00\x00\x00\x00\x00\x00\x00\x00\x00\x00"),
            (19, b"\x00\x00"),
            (33, b"\x00"),
            (41, b"\x00"),
            (49, b"\x00"),
            (56, b"\x00"),
            (60, b"\x00\x00\x00\x00\x00\x00\x00\x00\x00\x00\x00\x00\x00"),
            (318, b"\x03"),
            (322, b"3"),
            (326, b"\xc4"),
        ],
        "image labels 0 Unsupported 1 3\n",
        3,
    ),
    # another version beside a valid side
    (
        [(62, b"\x01"), (66, b"1"), (70, b"b")],
        "index 1 seq 1 slots 2 free 1\nlabel 0 11111111-1111-4111-8111-111111111111 \"a\" pos 0 of 1 dpa 0 size 4194304 flags 0 lba 512 mode raw cookie 0000a3de00001235\n",
        0,
    ),
    # a damaged signature
    ([(256, b"M")], "index 0 seq 3 slots 2 free 2\n", 0),
    # a damaged checksum
    (
        [(340, b"\x01")],
        "index 0 seq 3 slots 2 free 2\n",
        0,
    ),
    # a damaged label
    (
        [(512, b"\x12")],
        "index 1 seq 1 slots 2 free 1\nbad 0 Checksum\n",
        0,
    ),
    # a label of another slot
    (
        [(632, b"\x01"), (760, b"Z"), (764, b"p")],
        "index 1 seq 1 slots 2 free 1\nbad 0 Slot 1\n",
        0,
    ),
    # an odd address
    (
        [
            (600, b"\x00\x00\x00\x00\x00\x00"),
            (617, b"\x02"),
            (760, b"F\xcc\xb3\xfa\x0e}6"),
        ],
        "index 1 seq 1 slots 2 free 1\nbad 0 OddSize Dpa\n",
        0,
    ),
    # no size
    (
        [
            (600, b"\x00\x00\x00\x00\x00\x00"),
            (626, b"\x00"),
            (760, b"F\xcas\xfa\x0e16="),
        ],
        "index 1 seq 1 slots 2 free 1\nbad 0 OddSize RawSize\n",
        0,
    ),
    # an end past 2^63
    (
        [
            (600, b"\x00\x00\x00\x00\x00\x00"),
            (623, b"\x80\x00\x10\x00"),
            (760, b"F\xdasz\x0eq8\xbd"),
        ],
        "index 1 seq 1 slots 2 free 1\nbad 0 OddSize RawSize\n",
        0,
    ),
    # an old label in a free slot isn't read
    (
        [
            (320, b"/"),
            (324, b"\xd5\x86\x93'\x01"),
            (
                768,
                b"\x11\x11\x11\x11\x11\x11A\x11\x81\x11\x11\x11\x11\x11\x11\x11b",
            ),
            (852, b"\x01"),
            (865, b"\x02"),
            (881, b" "),
            (888, b"\x01"),
            (896, b"y\xd3\xf0f\xf3\xb4t@\xacC\x0d3\x18\xb7\x8c\xdb"),
            (1016, b"H\xeas\xfal\xb1:="),
        ],
        "index 1 seq 1 slots 2 free 1\nlabel 1 11111111-1111-4111-8111-111111111111 \"b\" pos 0 of 1 dpa 0 size 8192 flags 0 lba 512 mode raw cookie 0000000000000000\n",
        0,
    ),
    # a name with quotation marks
    (
        [
            (528, b"q\"\\x"),
            (592, b"\x09"),
            (596, b"\x02\x00\x01\x00\x102Tv\x98\xba\xdc\xfe\x00\x10"),
            (625, b"\x10\x00"),
            (760, b"\x08\xf7\x01\xe8}\xb7'\xae"),
        ],
        "index 1 seq 1 slots 2 free 1\nlabel 0 11111111-1111-4111-8111-111111111111 \"q\\\"\\\\x\" pos 1 of 2 dpa 0 size 4096 flags 9 lba 4096 mode raw cookie fedcba9876543210\n",
        0,
    ),
    # a name that isn't text
    (
        [
            (528, b"\xff\x80"),
            (600, b"\x00\x00\x00\x00\x00\x00"),
            (625, b"\x10\x00"),
            (760, b"\xe4Zt\xfa\x16\x96V="),
        ],
        "index 1 seq 1 slots 2 free 1\nlabel 0 11111111-1111-4111-8111-111111111111 hex:ff80 pos 0 of 1 dpa 0 size 4096 flags 0 lba 512 mode raw cookie 0000000000000000\n",
        0,
    ),
    # a name with a control character
    (
        [
            (529, b"\x7f"),
            (600, b"\x00\x00\x00\x00\x00\x00"),
            (625, b"\x10\x00"),
            (760, b"FYt\xfa\x0e5V="),
        ],
        "index 1 seq 1 slots 2 free 1\nlabel 0 11111111-1111-4111-8111-111111111111 hex:617f pos 0 of 1 dpa 0 size 4096 flags 0 lba 512 mode raw cookie 0000000000000000\n",
        0,
    ),
    # a name of 64 bytes
    (
        [
            (
                528,
                b"nnnnnnnnnnnnnnnnnnnnnnnnnnnnnnnnnnnnnnnnnnnnnnnnnnnnnnnnnnnnnnnn",
            ),
            (600, b"\x00\x00\x00\x00\x00\x00"),
            (625, b"\x10\x00"),
            (760, b"\xc5\xc0Z\xe1B\xb3\x92\x97"),
        ],
        "index 1 seq 1 slots 2 free 1\nlabel 0 11111111-1111-4111-8111-111111111111 \"nnnnnnnnnnnnnnnnnnnnnnnnnnnnnnnnnnnnnnnnnnnnnnnnnnnnnnnnnnnnnnnn\" pos 0 of 1 dpa 0 size 4096 flags 0 lba 512 mode raw cookie 0000000000000000\n",
        0,
    ),
    # a Block Translation Table 2.0
    (
        [
            (600, b"\x00\x00\x00\x00\x00\x00"),
            (625, b"\x10\x00"),
            (656, b"\xfc;c\x185\x17\x17B\x8a\xc9\x17#\x92\x82\xd3\xf8"),
            (760, b"\x93y\xd9p{\xab\x94\xbd"),
        ],
        "index 1 seq 1 slots 2 free 1\nlabel 0 11111111-1111-4111-8111-111111111111 \"a\" pos 0 of 1 dpa 0 size 4096 flags 0 lba 512 mode sector cookie 0000000000000000\n",
        0,
    ),
    # a Block Translation Table 1.1
    (
        [
            (600, b"\x00\x00\x00\x00\x00\x00"),
            (625, b"\x10\x00"),
            (656, b"\xa2c\xed\x8a\xa2)fL\x8b\x12\xf0]\x15\xd3\x92*"),
            (760, b"*MJZ\x07:\xae0"),
        ],
        "index 1 seq 1 slots 2 free 1\nlabel 0 11111111-1111-4111-8111-111111111111 \"a\" pos 0 of 1 dpa 0 size 4096 flags 0 lba 512 mode sector1 cookie 0000000000000000\n",
        0,
    ),
    # another type
    (
        [
            (600, b"\x00\x00\x00\x00\x00\x00"),
            (625, b"\x10\x00"),
            (
                640,
                b"\x11\x11\x11\x11\x11\x11\x11A\x81\x11\x11\x11\x11\x11\x11\x11\xfc;c\x185\x17\x17B\x8a\xc9\x17#\x92\x82\xd3\xf8",
            ),
            (760, b"\x17;\x1e/H\xd6\xfb("),
        ],
        "index 1 seq 1 slots 2 free 1\nlabel 0 11111111-1111-4111-8111-111111111111 \"a\" pos 0 of 1 dpa 0 size 4096 flags 0 lba 512 mode other:11111111-1111-4111-8111-111111111111 cookie 0000000000000000\n",
        0,
    ),
    # another abstraction
    (
        [
            (600, b"\x00\x00\x00\x00\x00\x00"),
            (625, b"\x10\x00"),
            (
                656,
                b"\x11\x11\x11\x11\x11\x11\x11A\x81\x11\x11\x11\x11\x11\x11\x11",
            ),
            (760, b"\xfa\x1e\xb8nx\x8dI^"),
        ],
        "index 1 seq 1 slots 2 free 1\nlabel 0 11111111-1111-4111-8111-111111111111 \"a\" pos 0 of 1 dpa 0 size 4096 flags 0 lba 512 mode other:11111111-1111-4111-8111-111111111111 cookie 0000000000000000\n",
        0,
    ),
]

# The size of LINUX in bytes.
LINUX_SIZE = 131072

# A label area that Linux 6.1 wrote, with ndctl 76.1, by the bytes that aren't zero.
LINUX = [
    (0, b"NAMESPACE_INDEX\x00\x00\x00\x00\x01\x03"),
    (33, b"\x01"),
    (41, b"\x01"),
    (49, b"\x02"),
    (
        56,
        b"\xfe\x01\x00\x00\x01\x00\x02\x00\x0e<2\xd8i\xe1\x93'\xf1\xff\xff\xff\xff\xff\xff\xff\xff\xff\xff\xff\xff\xff\xff\xff\xff\xff\xff\xff\xff\xff\xff\xff\xff\xff\xff\xff\xff\xff\xff\xff\xff\xff\xff\xff\xff\xff\xff\xff\xff\xff\xff\xff\xff\xff\xff\xff\xff\xff\xff\xff\xff\xff\xff\xff\xff\xff\xff\xff\xff\xff\xff\xff",
    ),
    (256, b"NAMESPACE_INDEX\x00\x00\x00\x00\x01\x02\x00\x00\x00\x00\x01"),
    (289, b"\x01"),
    (305, b"\x02"),
    (
        312,
        b"\xfe\x01\x00\x00\x01\x00\x02\x00\x14<2\xd8p\xe6\x93'\xf8\xff\xff\xff\xff\xff\xff\xff\xff\xff\xff\xff\xff\xff\xff\xff\xff\xff\xff\xff\xff\xff\xff\xff\xff\xff\xff\xff\xff\xff\xff\xff\xff\xff\xff\xff\xff\xff\xff\xff\xff\xff\xff\xff\xff\xff\xff\xff\xff\xff\xff\xff\xff\xff\xff\xff\xff\xff\xff\xff\xff\xff\xff\xff",
    ),
    (512, b"P\x00\x00\x00\x00\x00@\x00\x80"),
    (527, b"\x05Gr\xc3\xb6\xc3\x9fe \"q\" \\ x"),
    (
        592,
        b"\x08\x00\x00\x00\x01\x00\x00\x00\xdd\xb4\x12\x00\x1c\x90\xba\x00\x00\x10",
    ),
    (619, b"\x02"),
    (627, b"\x01"),
    (
        640,
        b"y\xd3\xf0f\xf3\xb4t@\xacC\x0d3\x18\xb7\x8c\xdb\xfc;c\x185\x17\x17B\x8a\xc9\x17#\x92\x82\xd3\xf8",
    ),
    (760, b"\xd7\x1b6-\xe8$\x94\x880\x00\x00\x00\x00\x00@\x00\x80"),
    (783, b"\x03sec-4k"),
    (852, b"\x01\x00\x00\x00\xdd\xb4\x12\x00\x1c\x90\xba\x00\x00\x10"),
    (883, b"\x01\x00\x00\x00\x00\x01"),
    (
        896,
        b"y\xd3\xf0f\xf3\xb4t@\xacC\x0d3\x18\xb7\x8c\xdb\xfc;c\x185\x17\x17B\x8a\xc9\x17#\x92\x82\xd3\xf8",
    ),
    (1016, b"\xcfH\xd6^\xd5&1\xb6@\x00\x00\x00\x00\x00@\x00\x80"),
    (1039, b"\x04fsdax-x"),
    (1108, b"\x01\x00\x00\x00\xdd\xb4\x12\x00\x1c\x90\xba\x00\x00\x02"),
    (1131, b"\x01"),
    (1139, b"\x01\x00\x00\x00\x00\x02"),
    (
        1152,
        b"y\xd3\xf0f\xf3\xb4t@\xacC\x0d3\x18\xb7\x8c\xdb\xba\x00d&\x9f\xfbwF\xbc\xb0\x96\x8f\x11\xd0\xd2%",
    ),
    (1272, b"\xf0\xe8.A\x08\xae'\xcdP\x00\x00\x00\x00\x00@\x00\x80"),
    (1295, b"\x05Gr\xc3\xb6\xc3\x9fe \"q\" \\ x"),
    (1364, b"\x01\x00\x00\x00\xdd\xb4\x12\x00\x1c\x90\xba\x00\x00\x10"),
    (1387, b"\x02"),
    (1395, b"\x01\x00\x00\x00\x00\x03"),
    (
        1408,
        b"y\xd3\xf0f\xf3\xb4t@\xacC\x0d3\x18\xb7\x8c\xdb\xfc;c\x185\x17\x17B\x8a\xc9\x17#\x92\x82\xd3\xf8",
    ),
    (1528, b"\xd2\x1b6-\xee#\x94\x88"),
]

# What `labels 0` prints of it.
LINUX_TEXT = "index 0 seq 3 slots 510 free 507\nlabel 1 30000000-0000-4000-8000-000000000003 \"sec-4k\" pos 0 of 1 dpa 0 size 16777216 flags 0 lba 4096 mode sector cookie 00ba901c0012b4dd\nlabel 2 40000000-0000-4000-8000-000000000004 \"fsdax-x\" pos 0 of 1 dpa 16777216 size 16777216 flags 0 lba 512 mode other:266400ba-fb9f-4677-bcb0-968f11d0d225 cookie 00ba901c0012b4dd\nlabel 3 50000000-0000-4000-8000-000000000005 \"Größe \\\"q\\\" \\\\ x\" pos 0 of 1 dpa 33554432 size 16777216 flags 0 lba 4096 mode sector cookie 00ba901c0012b4dd\n"
