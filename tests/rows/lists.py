"""Label areas of a set of two modules, and what `list` prints: patches of both areas of AGREED (None: no area), the status, the text.

The bytes come from a script that knows the formats from UEFI 2.10, section 13.19, and ACPI 6.5, section 5.2.25, and from Linux; none from the program. A patch is
an offset and the bytes there.
"""

# Two areas of 1,024 bytes, by the bytes that aren't zero: each has a label of the whole set of the pair,
# with the name a and 4,096 bytes from address 0.
AGREED = [
    [
        (0, b"NAMESPACE_INDEX"),
        (19, b"\x01\x03"),
        (33, b"\x01"),
        (41, b"\x01"),
        (49, b"\x02"),
        (56, b"\x02\x00\x00\x00\x01\x00\x02\x003:2\xd8\xa7\x83\x93'\x03"),
        (256, b"NAMESPACE_INDEX"),
        (275, b"\x01\x01"),
        (281, b"\x01"),
        (289, b"\x01"),
        (305, b"\x02"),
        (312, b"\x02\x00\x00\x00\x01\x00\x02\x000:2\xd8\x03\x87\x93'\x02"),
        (
            512,
            b"\x11\x11\x11\x11\x11\x11A\x11\x81\x11\x11\x11\x11\x11\x11\x11a",
        ),
        (596, b"\x02\x00\x00\x00k4\x00\x00B\xe2\x02\x00\x00\x02"),
        (625, b"\x10"),
        (640, b"y\xd3\xf0f\xf3\xb4t@\xacC\x0d3\x18\xb7\x8c\xdb"),
        (760, b"\xf4\xf0v\xfaYG\xb7="),
    ],
    [
        (0, b"NAMESPACE_INDEX"),
        (19, b"\x01\x03"),
        (33, b"\x01"),
        (41, b"\x01"),
        (49, b"\x02"),
        (56, b"\x02\x00\x00\x00\x01\x00\x02\x003:2\xd8\xa7\x83\x93'\x03"),
        (256, b"NAMESPACE_INDEX"),
        (275, b"\x01\x01"),
        (281, b"\x01"),
        (289, b"\x01"),
        (305, b"\x02"),
        (312, b"\x02\x00\x00\x00\x01\x00\x02\x000:2\xd8\x03\x87\x93'\x02"),
        (
            512,
            b"\x11\x11\x11\x11\x11\x11A\x11\x81\x11\x11\x11\x11\x11\x11\x11a",
        ),
        (596, b"\x02\x00\x01\x00k4\x00\x00B\xe2\x02\x00\x00\x02"),
        (625, b"\x10"),
        (640, b"y\xd3\xf0f\xf3\xb4t@\xacC\x0d3\x18\xb7\x8c\xdb"),
        (760, b"\xf4\xf0w\xfaYG\xe2="),
    ],
]

# AGREED with some bytes changed.
RULES = [
    # labels that agree
    (
        ([]),
        ([]),
        0,
        "ns 11111111-1111-4111-8111-111111111111 \"a\" region 0 mode raw lba 512 size 8192 complete\nextent 0 0 4096\nextent 1 0 4096\n",
    ),
    # no labels
    (
        ([
            (320, b"1:2\xd81\x87\x93'\x03"),
            (512, b"\x00\x00\x00\x00\x00\x00\x00\x00\x00\x00\x00\x00\x00\x00\x00\x00\x00"),
            (596, b"\x00\x00\x00\x00\x00\x00\x00\x00\x00\x00\x00\x00\x00\x00"),
            (625, b"\x00"),
            (640, b"\x00\x00\x00\x00\x00\x00\x00\x00\x00\x00\x00\x00\x00\x00\x00\x00"),
            (760, b"\x00\x00\x00\x00\x00\x00\x00\x00"),
        ]),
        ([
            (320, b"1:2\xd81\x87\x93'\x03"),
            (512, b"\x00\x00\x00\x00\x00\x00\x00\x00\x00\x00\x00\x00\x00\x00\x00\x00\x00"),
            (596, b"\x00\x00\x00\x00\x00\x00\x00\x00\x00\x00\x00\x00\x00\x00"),
            (625, b"\x00"),
            (640, b"\x00\x00\x00\x00\x00\x00\x00\x00\x00\x00\x00\x00\x00\x00\x00\x00"),
            (760, b"\x00\x00\x00\x00\x00\x00\x00\x00"),
        ]),
        0,
        "",
    ),
    # no areas
    (None, None, 0, ""),
    # one of two labels, with UPDATING
    (
        ([(592, b"\x08"), (760, b"\xfc\xf0v\xfa\xb9H")]),
        None,
        0,
        "ns 11111111-1111-4111-8111-111111111111 \"a\" region 0 mode raw lba 512 size 4096 unfinished\nextent 0 0 4096\n",
    ),
    # one of two labels, without
    (
        ([]),
        None,
        0,
        "ns 11111111-1111-4111-8111-111111111111 \"a\" region 0 mode raw lba 512 size 4096 incomplete Missing 1\nextent 0 0 4096\n",
    ),
    # the other one
    (
        None,
        ([]),
        0,
        "ns 11111111-1111-4111-8111-111111111111 \"a\" region 0 mode raw lba 512 size 4096 incomplete Missing 0\nextent 1 0 4096\n",
    ),
    # LOCAL
    (
        ([(592, b"\x02"), (760, b"\xf6\xf0v\xfa\xb1")]),
        None,
        0,
        "ns 11111111-1111-4111-8111-111111111111 \"a\" region 0 mode raw lba 512 size 4096 local\nextent 0 0 4096\n",
    ),
    # LOCAL on module 1, before all other rules
    (
        ([(600, b"\x07\x00\x00\x00\x00\x00\x00"), (760, b"N\xdas\xfa_r8")]),
        ([(592, b"\x02"), (760, b"\xf6\xf0w\xfa\xb1")]),
        0,
        "ns 11111111-1111-4111-8111-111111111111 \"a\" region 0 mode raw lba 512 size 8192 local\nextent 0 0 4096\nextent 1 0 4096\n",
    ),
    # other flags don't matter
    (
        ([(592, b"\x15"), (760, b"\x09\xf1v\xfa\xf5J")]),
        ([]),
        0,
        "ns 11111111-1111-4111-8111-111111111111 \"a\" region 0 mode raw lba 512 size 8192 complete\nextent 0 0 4096\nextent 1 0 4096\n",
    ),
    # two names
    (
        ([]),
        ([(528, b"b"), (760, b"\xf5\xf0w\xfa\x95")]),
        0,
        "ns 11111111-1111-4111-8111-111111111111 \"a\" region 0 mode raw lba 512 size 8192 incomplete Differs Names\nextent 0 0 4096\nextent 1 0 4096\n",
    ),
    # two names, module 1 with UPDATING
    (
        ([]),
        ([(528, b"b"), (592, b"\x08"), (760, b"\xfd\xf0w\xfa\xf5H")]),
        0,
        "ns 11111111-1111-4111-8111-111111111111 \"a\" region 0 mode raw lba 512 size 8192 complete pending\nextent 0 0 4096\nextent 1 0 4096\n",
    ),
    # two names, module 0 with UPDATING
    (
        ([(592, b"\x08"), (760, b"\xfc\xf0v\xfa\xb9H")]),
        ([(528, b"b"), (760, b"\xf5\xf0w\xfa\x95")]),
        0,
        "ns 11111111-1111-4111-8111-111111111111 \"b\" region 0 mode raw lba 512 size 8192 complete pending\nextent 0 0 4096\nextent 1 0 4096\n",
    ),
    # two names, both with UPDATING
    (
        ([(592, b"\x08"), (760, b"\xfc\xf0v\xfa\xb9H")]),
        ([(528, b"b"), (592, b"\x08"), (760, b"\xfd\xf0w\xfa\xf5H")]),
        0,
        "ns 11111111-1111-4111-8111-111111111111 \"a\" region 0 mode raw lba 512 size 8192 incomplete Differs Names\nextent 0 0 4096\nextent 1 0 4096\n",
    ),
    # one name, module 1 with UPDATING
    (
        ([]),
        ([(592, b"\x08"), (760, b"\xfc\xf0w\xfa\xb9H")]),
        0,
        "ns 11111111-1111-4111-8111-111111111111 \"a\" region 0 mode raw lba 512 size 8192 complete pending\nextent 0 0 4096\nextent 1 0 4096\n",
    ),
    # two labels on module 0
    (
        ([
            (320, b".:2\xd8\xa7\x86\x93'\x00"),
            (
                768,
                b"\x11\x11\x11\x11\x11\x11A\x11\x81\x11\x11\x11\x11\x11\x11\x11a",
            ),
            (852, b"\x02\x00\x00\x00k4\x00\x00B\xe2\x02\x00\x00\x02"),
            (873, b"\x10"),
            (881, b"\x10"),
            (888, b"\x01"),
            (896, b"y\xd3\xf0f\xf3\xb4t@\xacC\x0d3\x18\xb7\x8c\xdb"),
            (1016, b"\xf5\x00w\xfa{\xa7\xb9="),
        ]),
        ([]),
        0,
        "ns 11111111-1111-4111-8111-111111111111 \"a\" region 0 mode raw lba 512 size 12288 incomplete Twice 0\nextent 0 0 4096\nextent 0 4096 4096\nextent 1 0 4096\n",
    ),
    # two labels of one extent have one owner
    (
        ([]),
        ([
            (320, b".:2\xd8\xa7\x86\x93'\x00"),
            (
                768,
                b"\x11\x11\x11\x11\x11\x11A\x11\x81\x11\x11\x11\x11\x11\x11\x11a",
            ),
            (852, b"\x02\x00\x01\x00k4\x00\x00B\xe2\x02\x00\x00\x02"),
            (881, b"\x10"),
            (888, b"\x01"),
            (896, b"y\xd3\xf0f\xf3\xb4t@\xacC\x0d3\x18\xb7\x8c\xdb"),
            (1016, b"\xf5\xf0w\xfa{G\xe2="),
        ]),
        0,
        "ns 11111111-1111-4111-8111-111111111111 \"a\" region 0 mode raw lba 512 size 12288 incomplete Twice 1\nextent 0 0 4096\nextent 1 0 4096\nextent 1 0 4096\n",
    ),
    # past the mapping's end on module 1
    (
        ([]),
        ([(617, b"\x10"), (625, b" "), (761, b"\x10x\xfaY\xe7\xe6")]),
        0,
        "ns 11111111-1111-4111-8111-111111111111 \"a\" region 0 mode raw lba 512 size 12288 incomplete Outside 1\nextent 0 0 4096\nextent 1 4096 8192\n",
    ),
    # past the mapping's end on module 0: in no region
    (
        ([(617, b" "), (761, b"\x10w\xfaY\x07\xbc")]),
        ([]),
        0,
        "ns 11111111-1111-4111-8111-111111111111 \"a\" region - mode raw lba 512 size 8192 incomplete Outside 0\nextent 0 8192 4096\nextent 1 0 4096\n",
    ),
    # in no region, and LOCAL
    (
        ([(617, b" "), (761, b"\x10w\xfaY\x07\xbc")]),
        ([(592, b"\x02"), (760, b"\xf6\xf0w\xfa\xb1")]),
        0,
        "ns 11111111-1111-4111-8111-111111111111 \"a\" region - mode raw lba 512 size 8192 local\nextent 0 8192 4096\nextent 1 0 4096\n",
    ),
    # another cookie on module 1
    (
        ([]),
        ([(600, b"\xd2\x04\x00\x00\x00\x00\x00"), (760, b"\x19\xdft\xfa\xad;d")]),
        0,
        "ns 11111111-1111-4111-8111-111111111111 \"a\" region 0 mode raw lba 512 size 8192 incomplete Cookie 1 1234\nextent 0 0 4096\nextent 1 0 4096\n",
    ),
    # another cookie on both
    (
        ([
            (600, b"\xff\xff\xff\xff\xff\xff\xff\xff"),
            (760, b"E\xdas\xfa\xe6p8"),
        ]),
        ([(600, b"\xd2\x04\x00\x00\x00\x00\x00"), (760, b"\x19\xdft\xfa\xad;d")]),
        0,
        "ns 11111111-1111-4111-8111-111111111111 \"a\" region 0 mode raw lba 512 size 8192 incomplete Cookie 0 18446744073709551615\nextent 0 0 4096\nextent 1 0 4096\n",
    ),
    # another NLabel
    (
        ([]),
        ([(596, b"\x03"), (760, b"\xf5\xf0w\xfa\x84")]),
        0,
        "ns 11111111-1111-4111-8111-111111111111 \"a\" region 0 mode raw lba 512 size 8192 incomplete Differs Count\nextent 0 0 4096\nextent 1 0 4096\n",
    ),
    # another position on module 1
    (
        ([]),
        ([(598, b"\x00"), (762, b"v\xfaYG\xb7")]),
        0,
        "ns 11111111-1111-4111-8111-111111111111 \"a\" region 0 mode raw lba 512 size 8192 incomplete Position 1 0\nextent 0 0 4096\nextent 1 0 4096\n",
    ),
    # positions in turn
    (
        ([(598, b"\x01"), (762, b"w\xfaYG\xe2")]),
        ([(598, b"\x00"), (762, b"v\xfaYG\xb7")]),
        0,
        "ns 11111111-1111-4111-8111-111111111111 \"a\" region 0 mode raw lba 512 size 8192 incomplete Position 0 1\nextent 0 0 4096\nextent 1 0 4096\n",
    ),
    # other addresses
    (
        ([]),
        ([(617, b"\x10"), (761, b"\x00x\xfaY\xa7\xe4")]),
        0,
        "ns 11111111-1111-4111-8111-111111111111 \"a\" region 0 mode raw lba 512 size 8192 incomplete Differs Dpa\nextent 0 0 4096\nextent 1 4096 4096\n",
    ),
    # other sizes
    (
        ([]),
        ([(625, b" "), (761, b"\x00x\xfaY\x87\xe4")]),
        0,
        "ns 11111111-1111-4111-8111-111111111111 \"a\" region 0 mode raw lba 512 size 12288 incomplete Differs RawSize\nextent 0 0 4096\nextent 1 0 8192\n",
    ),
    # another LbaSize
    (
        ([(609, b"\x10"), (761, b"\xfev\xfaYw\xb9")]),
        ([]),
        0,
        "ns 11111111-1111-4111-8111-111111111111 \"a\" region 0 mode raw lba 4096 size 8192 incomplete Differs LbaSize\nextent 0 0 4096\nextent 1 0 4096\n",
    ),
    # another abstraction
    (
        ([
            (656, b"\xfc;c\x185\x17\x17B\x8a\xc9\x17#\x92\x82\xd3\xf8"),
            (760, b"A\x90\xdcp\xc6\x81\x13\xbe"),
        ]),
        ([]),
        0,
        "ns 11111111-1111-4111-8111-111111111111 \"a\" region 0 mode sector lba 512 size 8192 incomplete Differs Guids\nextent 0 0 4096\nextent 1 0 4096\n",
    ),
    # another type
    (
        ([]),
        ([
            (
                640,
                b"\x11\x11\x11\x11\x11\x11\x11A\x81\x11\x11\x11\x11\x11\x11\x11",
            ),
            (760, b"x\xb2\xbc\xb8&rI\xa9"),
        ]),
        0,
        "ns 11111111-1111-4111-8111-111111111111 \"a\" region 0 mode raw lba 512 size 8192 incomplete Differs Guids\nextent 0 0 4096\nextent 1 0 4096\n",
    ),
]

# Patches that make the lines of the pair, and so the unit, 8,192 bytes long; the cookie is 0003a2420000446b.
WIDE = [(169, b"\x20"), (205, b"\x20"), (225, b"\x20")]

# AGREED with some bytes changed, under a table with WIDE.
UNITS = [
    # a size that isn't a multiple of it
    (
        ([(601, b"D\x00\x00B\xa2\x03"), (761, b"\xc0w\xfaY\xa7\xd8")]),
        ([(601, b"D\x00\x00B\xa2\x03"), (761, b"\xc0x\xfaY\xa7\x03>")]),
        0,
        "ns 11111111-1111-4111-8111-111111111111 \"a\" region 0 mode raw lba 512 size 8192 incomplete Unaligned 0\nextent 0 0 4096\nextent 1 0 4096\n",
    ),
    # on the one module that has a label
    (
        None,
        ([
            (592, b"\x08"),
            (601, b"D\x00\x00B\xa2\x03"),
            (760, b"\xfc\xc0x\xfa\xb9\xa8\x03>"),
        ]),
        0,
        "ns 11111111-1111-4111-8111-111111111111 \"a\" region 0 mode raw lba 512 size 4096 incomplete Unaligned 1\nextent 1 0 4096\n",
    ),
    # whole units
    (
        ([
            (601, b"D\x00\x00B\xa2\x03"),
            (625, b" "),
            (761, b"\xd0w\xfaY\xe7\xda"),
        ]),
        ([
            (601, b"D\x00\x00B\xa2\x03"),
            (625, b" "),
            (761, b"\xd0x\xfaY\xe7\x05>"),
        ]),
        0,
        "ns 11111111-1111-4111-8111-111111111111 \"a\" region 0 mode raw lba 512 size 16384 complete\nextent 0 0 8192\nextent 1 0 8192\n",
    ),
]

# The areas of a pair that agree, with some bytes changed.
LISTS = [
    # three UUIDs, rising by bytes
    (
        ([
            (320, b".:2\xd8\xa7\x86\x93'\x00"),
            (512, b"\"\"\"\"\"\"B\"\x82\"\"\"\"\"\"\""),
            (
                760,
                b"(5\xab>\x13\xeeq\xe4\x11\x11\x11\x11\x11\x11A\x11\x81\x11\x11\x11\x11\x11\x11\x11a",
            ),
            (852, b"\x02\x00\x00\x00k4\x00\x00B\xe2\x02\x00\x00\x02"),
            (873, b"\x10"),
            (881, b"\x10"),
            (888, b"\x01"),
            (896, b"y\xd3\xf0f\xf3\xb4t@\xacC\x0d3\x18\xb7\x8c\xdb"),
            (1016, b"\xf5\x00w\xfa{\xa7\xb9="),
        ]),
        ([
            (512, b"\x12\x00\x00\x00\x00\x00@\x00\x80\x00\x00\x00\x00\x00\x00\x00w"),
            (760, b"\xe8\xacC\xb6G\xaa'\x97"),
        ]),
        0,
        "ns 11111111-1111-4111-8111-111111111111 \"a\" region 0 mode raw lba 512 size 4096 incomplete Missing 1\nextent 0 4096 4096\nns 12000000-0000-4000-8000-000000000000 \"w\" region 0 mode raw lba 512 size 4096 incomplete Missing 0\nextent 1 0 4096\nns 22222222-2222-4222-8222-222222222222 \"a\" region 0 mode raw lba 512 size 4096 incomplete Missing 1\nextent 0 0 4096\n",
    ),
    # extents of two UUIDs overlap
    (
        ([
            (320, b".:2\xd8\xa7\x86\x93'\x00"),
            (625, b" "),
            (761, b"\x00w\xfaY\x87\xb9=\"\"\"\"\"\"B\"\x82\"\"\"\"\"\"\"a"),
            (852, b"\x02\x00\x00\x00k4\x00\x00B\xe2\x02\x00\x00\x02"),
            (873, b"\x10"),
            (881, b"\x10"),
            (888, b"\x01"),
            (896, b"y\xd3\xf0f\xf3\xb4t@\xacC\x0d3\x18\xb7\x8c\xdb"),
            (1016, b")E\xab>5Nt\xe4"),
        ]),
        None,
        3,
        "image labels Overlap 11111111-1111-4111-8111-111111111111 22222222-2222-4222-8222-222222222222\n",
    ),
    # the label in the lesser slot is named first
    (
        None,
        ([
            (320, b".:2\xd8\xa7\x86\x93'\x00"),
            (512, b"\"\"\"\"\"\"B\"\x82\"\"\"\"\"\"\""),
            (592, b"\x08"),
            (617, b"\x10"),
            (
                760,
                b"0E\xac>sO\x9f\xe4\x11\x11\x11\x11\x11\x11A\x11\x81\x11\x11\x11\x11\x11\x11\x11a",
            ),
            (848, b"\x02\x00\x00\x00\x02\x00\x01\x00k4\x00\x00B\xe2\x02\x00\x00\x02"),
            (881, b" "),
            (888, b"\x01"),
            (896, b"y\xd3\xf0f\xf3\xb4t@\xacC\x0d3\x18\xb7\x8c\xdb"),
            (1016, b"\xf7\x00x\xfa\xd3\x87\xe4="),
        ]),
        3,
        "image labels Overlap 22222222-2222-4222-8222-222222222222 11111111-1111-4111-8111-111111111111\n",
    ),
    # a bad label isn't listed
    (
        ([(512, b"\x12")]),
        ([]),
        0,
        "ns 11111111-1111-4111-8111-111111111111 \"a\" region 0 mode raw lba 512 size 4096 incomplete Missing 0\nextent 1 0 4096\n",
    ),
    # an area that can't be read is skipped
    (
        ([
            (0, b"\x00\x00\x00\x00\x00\x00\x00\x00\x00\x00\x00\x00\x00\x00\x00"),
            (19, b"\x00\x00"),
            (33, b"\x00"),
            (41, b"\x00"),
            (49, b"\x00"),
            (56, b"\x00\x00\x00\x00\x00\x00\x00\x00\x00\x00\x00\x00\x00\x00\x00\x00\x00"),
            (256, b"\x00\x00\x00\x00\x00\x00\x00\x00\x00\x00\x00\x00\x00\x00\x00"),
            (275, b"\x00\x00"),
            (281, b"\x00"),
            (289, b"\x00"),
            (305, b"\x00"),
            (312, b"\x00\x00\x00\x00\x00\x00\x00\x00\x00\x00\x00\x00\x00\x00\x00\x00\x00"),
            (512, b"\x00\x00\x00\x00\x00\x00\x00\x00\x00\x00\x00\x00\x00\x00\x00\x00\x00"),
            (596, b"\x00\x00\x00\x00\x00\x00\x00\x00\x00\x00\x00\x00\x00\x00"),
            (625, b"\x00"),
            (640, b"\x00\x00\x00\x00\x00\x00\x00\x00\x00\x00\x00\x00\x00\x00\x00\x00"),
            (760, b"\x00\x00\x00\x00\x00\x00\x00\x00"),
        ]),
        ([(592, b"\x08"), (760, b"\xfc\xf0w\xfa\xb9H")]),
        0,
        "ns 11111111-1111-4111-8111-111111111111 \"a\" region 0 mode raw lba 512 size 4096 unfinished\nextent 1 0 4096\n",
    ),
    # so is one whose blocks are closed
    (
        ([]),
        ([(0, b"M"), (256, b"M")]),
        0,
        "ns 11111111-1111-4111-8111-111111111111 \"a\" region 0 mode raw lba 512 size 4096 incomplete Missing 1\nextent 0 0 4096\n",
    ),
    # a name with quotation marks and backslashes
    (
        ([(528, b"q\"\\x"), (760, b"\x04\x13\xd3r\x19COs")]),
        ([(528, b"q\"\\x"), (760, b"\x04\x13\xd4r\x19Czs")]),
        0,
        "ns 11111111-1111-4111-8111-111111111111 \"q\\\"\\\\x\" region 0 mode raw lba 512 size 8192 complete\nextent 0 0 4096\nextent 1 0 4096\n",
    ),
    # a name with a control character
    (
        ([(529, b"\x7f"), (761, b"ow\xfaY\x0b\xd5")]),
        ([(529, b"\x7f"), (761, b"ox\xfaY\x0b\x00>")]),
        0,
        "ns 11111111-1111-4111-8111-111111111111 hex:617f region 0 mode raw lba 512 size 8192 complete\nextent 0 0 4096\nextent 1 0 4096\n",
    ),
    # a name that isn't UTF-8
    (
        ([(528, b"\xff\x80"), (760, b"\x92qw\xfaal\xd5")]),
        None,
        0,
        "ns 11111111-1111-4111-8111-111111111111 hex:ff80 region 0 mode raw lba 512 size 4096 incomplete Missing 1\nextent 0 0 4096\n",
    ),
    # no name
    (
        ([(528, b"\x00"), (760, b"\x93\xf0v\xfa\x9d0")]),
        None,
        0,
        "ns 11111111-1111-4111-8111-111111111111 \"\" region 0 mode raw lba 512 size 4096 incomplete Missing 1\nextent 0 0 4096\n",
    ),
    # a Block Translation Table, and LbaSize 0
    (
        ([
            (609, b"\x00"),
            (656, b"\xfc;c\x185\x17\x17B\x8a\xc9\x17#\x92\x82\xd3\xf8"),
            (760, b"A\x8e\xdcp\xc61\x13\xbe"),
        ]),
        ([
            (609, b"\x00"),
            (656, b"\xfc;c\x185\x17\x17B\x8a\xc9\x17#\x92\x82\xd3\xf8"),
            (760, b"A\x8e\xddp\xc61>\xbe"),
        ]),
        0,
        "ns 11111111-1111-4111-8111-111111111111 \"a\" region 0 mode sector lba 0 size 8192 complete\nextent 0 0 4096\nextent 1 0 4096\n",
    ),
    # a Block Translation Table 1.1
    (
        ([
            (656, b"\xa2c\xed\x8a\xa2)fL\x8b\x12\xf0]\x15\xd3\x92*"),
            (760, b"\xd8cMZR\x10-1"),
        ]),
        ([
            (656, b"\xa2c\xed\x8a\xa2)fL\x8b\x12\xf0]\x15\xd3\x92*"),
            (760, b"\xd8cNZR\x10X1"),
        ]),
        0,
        "ns 11111111-1111-4111-8111-111111111111 \"a\" region 0 mode sector1 lba 512 size 8192 complete\nextent 0 0 4096\nextent 1 0 4096\n",
    ),
    # another use
    (
        ([
            (
                656,
                b"\x11\x11\x11\x11\x11\x11\x11A\x81\x11\x11\x11\x11\x11\x11\x11",
            ),
            (760, b"\xa85\xbbn\xc3c\xc8^"),
        ]),
        ([
            (
                656,
                b"\x11\x11\x11\x11\x11\x11\x11A\x81\x11\x11\x11\x11\x11\x11\x11",
            ),
            (760, b"\xa85\xbcn\xc3c\xf3^"),
        ]),
        0,
        "ns 11111111-1111-4111-8111-111111111111 \"a\" region 0 mode other:11111111-1111-4111-8111-111111111111 lba 512 size 8192 complete\nextent 0 0 4096\nextent 1 0 4096\n",
    ),
]

# A table with one module of 8,192 bytes.
ONE = [
    0x4e, 0x46, 0x49, 0x54, 0xb0, 0x00, 0x00, 0x00, 0x01, 0x29, 0x4e, 0x56, 0x44, 0x53, 0x4d, 0x50,
    0x53, 0x4d, 0x41, 0x4c, 0x4c, 0x53, 0x45, 0x54, 0x01, 0x00, 0x00, 0x00, 0x4e, 0x56, 0x44, 0x4d,
    0x01, 0x00, 0x00, 0x00, 0x00, 0x00, 0x00, 0x00, 0x00, 0x00, 0x38, 0x00, 0x01, 0x00, 0x00, 0x00,
    0x00, 0x00, 0x00, 0x00, 0x00, 0x00, 0x00, 0x00, 0x79, 0xd3, 0xf0, 0x66, 0xf3, 0xb4, 0x74, 0x40,
    0xac, 0x43, 0x0d, 0x33, 0x18, 0xb7, 0x8c, 0xdb, 0x00, 0x00, 0x00, 0x00, 0x01, 0x00, 0x00, 0x00,
    0x00, 0x20, 0x00, 0x00, 0x00, 0x00, 0x00, 0x00, 0x00, 0x00, 0x00, 0x00, 0x00, 0x00, 0x00, 0x00,
    0x01, 0x00, 0x30, 0x00, 0x01, 0x00, 0x00, 0x00, 0x00, 0x00, 0x00, 0x00, 0x01, 0x00, 0x01, 0x00,
    0x00, 0x20, 0x00, 0x00, 0x00, 0x00, 0x00, 0x00, 0x00, 0x00, 0x00, 0x00, 0x00, 0x00, 0x00, 0x00,
    0x00, 0x00, 0x00, 0x00, 0x00, 0x00, 0x00, 0x00, 0x00, 0x00, 0x01, 0x00, 0x00, 0x00, 0x00, 0x00,
    0x04, 0x00, 0x20, 0x00, 0x01, 0x00, 0x34, 0x12, 0x00, 0x00, 0x00, 0x00, 0x00, 0x00, 0x00, 0x00,
    0x00, 0x00, 0x00, 0x00, 0x00, 0x00, 0x00, 0x00, 0x01, 0x00, 0x00, 0x00, 0x01, 0x03, 0x00, 0x00,
]

# An area of 1,024 bytes, by the bytes that aren't zero: it has a label of the one module of ONE.
ALONE = [
    (0, b"NAMESPACE_INDEX"),
    (19, b"\x01\x03"),
    (33, b"\x01"),
    (41, b"\x01"),
    (49, b"\x02"),
    (56, b"\x02\x00\x00\x00\x01\x00\x02\x003:2\xd8\xa7\x83\x93'\x03"),
    (256, b"NAMESPACE_INDEX"),
    (275, b"\x01\x01"),
    (281, b"\x01"),
    (289, b"\x01"),
    (305, b"\x02"),
    (312, b"\x02\x00\x00\x00\x01\x00\x02\x000:2\xd8\x03\x87\x93'\x02"),
    (
        512,
        b"\x11\x11\x11\x11\x11\x11A\x11\x81\x11\x11\x11\x11\x11\x11\x11a",
    ),
    (596, b"\x01\x00\x00\x005\x12\x00\x00\xde\xa3\x00\x00\x00\x02"),
    (625, b"\x10"),
    (640, b"y\xd3\xf0f\xf3\xb4t@\xacC\x0d3\x18\xb7\x8c\xdb"),
    (760, b"Y\x90t\xfaN\xacU="),
]

# ALONE with some bytes changed. The unit is 4,096 bytes, which every valid label keeps.
SINGLES = [
    # a label that agrees
    (
        [],
        "ns 11111111-1111-4111-8111-111111111111 \"a\" region 0 mode raw lba 512 size 4096 complete\nextent 0 0 4096\n",
    ),
    # the whole module
    (
        [(625, b" "), (761, b"\xa0t\xfaN\xecW")],
        "ns 11111111-1111-4111-8111-111111111111 \"a\" region 0 mode raw lba 512 size 8192 complete\nextent 0 0 8192\n",
    ),
    # with UPDATING
    (
        [(592, b"\x08"), (760, b"a\x90t\xfa\xae\xad")],
        "ns 11111111-1111-4111-8111-111111111111 \"a\" region 0 mode raw lba 512 size 4096 complete pending\nextent 0 0 4096\n",
    ),
    # LOCAL
    (
        [(592, b"\x0a"), (760, b"c\x90t\xfa\x06\xae")],
        "ns 11111111-1111-4111-8111-111111111111 \"a\" region 0 mode raw lba 512 size 4096 local\nextent 0 0 4096\n",
    ),
    # another cookie
    (
        [(600, b"k4\x00\x00B\xe2\x02"), (760, b"\xf3\xf0v\xfa.G\xb7")],
        "ns 11111111-1111-4111-8111-111111111111 \"a\" region 0 mode raw lba 512 size 4096 incomplete Cookie 0 811723049153643\nextent 0 0 4096\n",
    ),
    # another NLabel
    (
        [(596, b"\x02"), (760, b"Z\x90t\xfay")],
        "ns 11111111-1111-4111-8111-111111111111 \"a\" region 0 mode raw lba 512 size 4096 incomplete Differs Count\nextent 0 0 4096\n",
    ),
    # another position
    (
        [(598, b"\x01"), (762, b"u\xfaN\xac\x80")],
        "ns 11111111-1111-4111-8111-111111111111 \"a\" region 0 mode raw lba 512 size 4096 incomplete Position 0 1\nextent 0 0 4096\n",
    ),
    # past the mapping's end
    (
        [(617, b"\x10"), (625, b" "), (761, b"\xb0t\xfaNLZ")],
        "ns 11111111-1111-4111-8111-111111111111 \"a\" region - mode raw lba 512 size 8192 incomplete Outside 0\nextent 0 4096 8192\n",
    ),
    # two labels
    (
        [
            (320, b".:2\xd8\xa7\x86\x93'\x00"),
            (
                768,
                b"\x11\x11\x11\x11\x11\x11A\x11\x81\x11\x11\x11\x11\x11\x11\x11a",
            ),
            (852, b"\x01\x00\x00\x005\x12\x00\x00\xde\xa3\x00\x00\x00\x02"),
            (873, b"\x10"),
            (881, b"\x10"),
            (888, b"\x01"),
            (896, b"y\xd3\xf0f\xf3\xb4t@\xacC\x0d3\x18\xb7\x8c\xdb"),
            (1016, b"Z\xa0t\xfap\x0cX="),
        ],
        "ns 11111111-1111-4111-8111-111111111111 \"a\" region 0 mode raw lba 512 size 8192 incomplete Twice 0\nextent 0 0 4096\nextent 0 4096 4096\n",
    ),
]

# Two UUIDs whose extents overlap on module 0: the differences from its area in the pair.
MEETING = [
    (320, b".:2\xd8\xa7\x86\x93'\x00"),
    (625, b" "),
    (761, b"\x00w\xfaY\x87\xb9=\"\"\"\"\"\"B\"\x82\"\"\"\"\"\"\"a"),
    (852, b"\x02\x00\x00\x00k4\x00\x00B\xe2\x02\x00\x00\x02"),
    (873, b"\x10"),
    (881, b"\x10"),
    (888, b"\x01"),
    (896, b"y\xd3\xf0f\xf3\xb4t@\xacC\x0d3\x18\xb7\x8c\xdb"),
    (1016, b")E\xab>5Nt\xe4"),
]
