#!/usr/bin/env python3
"""What the programs console and console_N read, and what they must print:

    console.py NAME stdin|stdout    the file of that name in crates/NAME
    console.py NAME check           compares the answers with those of the Python model of tests/service.py

A row is a line and its answer. The answers were worked out by hand from the requirements, and not from a run; the model
is a cross-check only. In a line $0 to $9 stand for ids of 31 zeros and that digit, $all for a mask of 64 hex digits with
every bit, $ten for 512 digits that give each adapter the hardware type 10. The input of console ends with a newline, so
it has no last line without one. That of console_N ends with a line of N bytes and no newline."""
import re
import sys

from service import NAMES, KINDS, Service
from textcases import EMPTY, mask, number

SHORT = {f"${digit}": f"{digit:032}" for digit in range(10)}
SHORT.update({"$all": "0x" + "f" * 64, "$ten": "0a" * 256})

ROWS = [
    # the example of the requirements, on a fresh record: both masks are all ones
    ("create 00000000000000000000000000000000", "ok"),
    ("assign 00000000000000000000000000000000 adapter 5", "ok"),
    ("assign 00000000000000000000000000000000 domain 4", "refused EADDRNOTAVAIL"),

    # nothing is configured, so every queue is at its target; any pair of numbers 0 to 255 may be named
    ("sweep", "ok 0"),
    ("move 5 4", "ok idle"),
    ("move 0 0", "ok idle"),
    ("move 255 255", "ok idle"),

    # moves and sweeps: adapters 5 and 6, domain 4, both queues reserved
    ("config 0x06 0x08 0x08 $ten", "ok"),
    ("move 5 4", "ok host"),
    ("move 5 4", "ok idle"),
    ("move 4 5", "ok idle"),  # exchanged, they name a queue that is not configured
    ("sweep", "ok 1"),  # (6,4)
    ("sweep", "ok 0"),
    ("apmask -5,-6", "ok"),  # the device has no domain, so no queue
    ("move 5 4", "ok released"),  # a wrong driver goes first
    ("move 5 4", "ok passthrough"),
    ("move 5 4", "ok idle"),
    ("sweep", "ok 2"),  # (6,4) exchanges host for passthrough
    ("aqmask -4", "ok"),
    ("apmask +5,+6", "ok"),
    ("sweep", "ok 0"),  # it takes both masks to reserve a queue

    # a mask that takes an assigned queue: setting 11
    ("assign 00000000000000000000000000000000 domain 4", "ok"),
    ("aqmask +4", "refused EADDRINUSE"),
    ("apmask -5", "ok"),
    ("aqmask +4", "ok"),
    ("apmask +5", "refused EADDRINUSE"),
    ("sweep", "ok 2"),  # (6,4) is reserved again

    # open and close, and the end of a device
    ("open $0", "ok"),
    ("open $0", "refused EBUSY"),
    ("remove $0", "refused EBUSY"),
    ("create $0", "refused EEXIST"),
    ("close $0", "ok"),
    ("close $0", "refused EINVAL"),  # not open
    ("assign $0 control 4", "ok"),
    ("unassign $0 control 4", "ok"),
    ("unassign $0 adapter 5", "ok"),
    ("unassign $0 domain 4", "ok"),
    ("apmask +5", "ok"),  # nothing is assigned now
    ("apmask -5", "ok"),
    ("remove $0", "ok"),
    ("remove $0", "refused ENOENT"),
    ("open $0", "refused ENOENT"),
    ("close $0", "refused ENOENT"),
    ("assign $0 adapter 5", "refused ENOENT"),
    ("assign $0 domain 5", "refused ENOENT"),
    ("assign $0 control 5", "refused ENOENT"),
    ("unassign $0 adapter 5", "refused ENOENT"),
    ("unassign $0 domain 5", "refused ENOENT"),
    ("unassign $0 control 5", "refused ENOENT"),

    # queues of two devices: settings 5 and 6
    ("apmask 0x0", "ok"),
    ("aqmask 0x0", "ok"),
    ("create $1", "ok"),
    ("create $2", "ok"),
    ("assign $1 adapter 1", "ok"),
    ("assign $1 adapter 2", "ok"),
    ("assign $1 domain 5", "ok"),
    ("assign $1 domain 6", "ok"),
    ("assign $2 adapter 1", "ok"),
    ("assign $2 adapter 2", "ok"),
    ("assign $2 domain 7", "ok"),
    ("assign $2 domain 6", "refused EADDRINUSE"),
    ("assign $2 control 6", "ok"),  # control domains may be shared
    ("assign $1 control 6", "ok"),
    ("assign $1 domain 6", "ok"),  # assigned already
    ("unassign $2 domain 6", "ok"),  # not assigned
    ("assign $2 domain 6", "refused EADDRINUSE"),
    ("unassign $1 control 6", "ok"),
    ("assign $2 domain 6", "refused EADDRINUSE"),  # the domain is still there
    ("unassign $1 domain 6", "ok"),
    ("assign $2 domain 6", "ok"),
    ("assign $1 domain 6", "refused EADDRINUSE"),

    # one assignment meets a reserved queue and one of another device: setting 12
    ("apmask 0x4", "ok"),  # bit 1
    ("aqmask 0x008", "ok"),  # bit 8
    ("create $3", "ok"),
    ("assign $3 domain 5", "ok"),
    ("assign $3 domain 8", "ok"),
    ("assign $3 adapter 1", "refused EADDRNOTAVAIL"),  # (1,8) is reserved, (1,5) is $1's: 99 is checked first
    ("unassign $3 domain 8", "ok"),
    ("assign $3 adapter 1", "refused EADDRINUSE"),
    ("assign $3 adapter 3", "ok"),
    ("remove $1", "ok"),
    ("assign $3 adapter 1", "ok"),

    # eight devices and a ninth: setting 14
    ("create $1", "ok"),
    ("create $4", "ok"),
    ("create $5", "ok"),
    ("create $6", "ok"),
    ("create $7", "ok"),
    ("create $8", "ok"),
    ("create $9", "refused ENOSPC"),
    ("create $4", "refused EEXIST"),  # 17 is checked before 28
    ("remove $9", "refused ENOENT"),
    ("remove $5", "ok"),
    ("create $9", "ok"),
    ("create $5", "refused ENOSPC"),
    ("assign $1 domain 6", "ok"),  # the new device has nothing of the removed one: no adapter, so no queue
    ("remove $1", "ok"),
    ("remove $2", "ok"),
    ("remove $3", "ok"),
    ("remove $4", "ok"),
    ("remove $6", "ok"),
    ("remove $7", "ok"),
    ("remove $8", "ok"),
    ("remove $9", "ok"),

    # ids: 31 digits, 33, a sign that is no hex digit, a prefix, dashes, none
    ("create 0000000000000000000000000000000", "refused EINVAL"),
    ("create 000000000000000000000000000000000", "refused EINVAL"),
    ("create 0000000000000000000000000000000g", "refused EINVAL"),
    ("create g0000000000000000000000000000000", "refused EINVAL"),
    ("create 000000000000000G0000000000000000", "refused EINVAL"),
    ("create 0000000000000000000000000000000:", "refused EINVAL"),
    ("create 0000000000000000000000000000000/", "refused EINVAL"),
    ("create 0000000000000000000000000000000@", "refused EINVAL"),
    ("create 0000000000000000000000000000000`", "refused EINVAL"),
    ("create 0x000000000000000000000000000000", "refused EINVAL"),
    ("create 00000000-0000-0000-0000-000000000000", "refused EINVAL"),
    ("create 0", "refused EINVAL"),
    ("create ", "refused EINVAL"),
    ("remove 0000000000000000000000000000000", "refused EINVAL"),
    ("remove 000000000000000000000000000000000", "refused EINVAL"),
    ("remove 0000000000000000000000000000000g", "refused EINVAL"),
    ("open 0000000000000000000000000000000", "refused EINVAL"),
    ("open 000000000000000000000000000000000", "refused EINVAL"),
    ("open 0000000000000000000000000000000g", "refused EINVAL"),
    ("close 0000000000000000000000000000000", "refused EINVAL"),
    ("close 000000000000000000000000000000000", "refused EINVAL"),
    ("close 0000000000000000000000000000000g", "refused EINVAL"),
    ("assign 0000000000000000000000000000000 adapter 5", "refused EINVAL"),
    ("assign 000000000000000000000000000000000 adapter 5", "refused EINVAL"),
    ("assign 0000000000000000000000000000000g adapter 5", "refused EINVAL"),
    ("unassign 0000000000000000000000000000000 adapter 5", "refused EINVAL"),
    ("unassign 000000000000000000000000000000000 adapter 5", "refused EINVAL"),
    ("unassign 0000000000000000000000000000000g adapter 5", "refused EINVAL"),
    ("remove $0", "refused ENOENT"),  # none of them was made

    # hex digits of either case name one id, and each digit counts
    ("create 0000000000000000000000000000000A", "ok"),
    ("create 0000000000000000000000000000000a", "refused EEXIST"),
    ("open 0000000000000000000000000000000a", "ok"),
    ("open 0000000000000000000000000000000A", "refused EBUSY"),
    ("close 0000000000000000000000000000000a", "ok"),
    ("create 0123456789abcdefFEDCBA9876543210", "ok"),
    ("create 0123456789ABCDEFfedcba9876543210", "refused EEXIST"),
    ("create fedcba98765432100123456789abcdef", "ok"),
    ("remove 0123456789aBcDeFfEdCbA9876543210", "ok"),
    ("remove 0123456789abcdeffedcba9876543210", "refused ENOENT"),
    ("remove FEDCBA98765432100123456789ABCDEF", "ok"),
    ("create a0000000000000000000000000000000", "ok"),
    ("remove 0a000000000000000000000000000000", "refused ENOENT"),
    ("remove a0000000000000000000000000000000", "ok"),
    ("remove 0000000000000000000000000000000A", "ok"),

    # numbers: forms, length and value. 256 is good text and above the limit
    ("create $1", "ok"),
    ("assign $1 control 0", "ok"),
    ("assign $1 control 00", "ok"),
    ("assign $1 control 255", "ok"),
    ("assign $1 control 256", "refused ENODEV"),
    ("assign $1 control 0xff", "ok"),
    ("assign $1 control 0xFf", "ok"),
    ("assign $1 control 0x100", "refused ENODEV"),
    ("assign $1 control 0377", "ok"),
    ("assign $1 control 0400", "refused ENODEV"),
    ("assign $1 control 65535", "refused ENODEV"),
    ("assign $1 control 65536", "refused EINVAL"),
    ("assign $1 control 0xffff", "refused ENODEV"),
    ("assign $1 control 0x10000", "refused EINVAL"),
    ("assign $1 control 0177777", "refused ENODEV"),
    ("assign $1 control 0200000", "refused EINVAL"),
    ("assign $1 control 08", "refused EINVAL"),
    ("assign $1 control 0x", "refused EINVAL"),
    ("assign $1 control 0X5", "refused EINVAL"),  # only the digits are of either case
    ("assign $1 control x5", "refused EINVAL"),
    ("assign $1 control 5a", "refused EINVAL"),
    ("assign $1 control a5", "refused EINVAL"),
    ("assign $1 control 0xg", "refused EINVAL"),
    ("assign $1 control +5", "refused EINVAL"),
    ("assign $1 control -5", "refused EINVAL"),
    ("assign $1 control -0", "refused EINVAL"),
    ("assign $1 control 5,6", "refused EINVAL"),
    ("assign $1 control 5.0", "refused EINVAL"),
    ("assign $1 control ", "refused EINVAL"),
    ("assign $1 control 0000000000000005", "ok"),  # 16 bytes, octal
    ("assign $1 control 00000000000000005", "refused EINVAL"),  # 17 bytes
    ("assign $1 control 0x00000000000005", "ok"),  # 16 bytes: the prefix counts
    ("assign $1 control 0x000000000000005", "refused EINVAL"),
    ("assign $1 control 1000000000000000", "refused EINVAL"),  # 16 bytes, above 65,535
    ("assign $1 control 18446744073709551621", "refused EINVAL"),  # 5 more than 2 to the 64th
    ("assign $1 adapter 256", "refused ENODEV"),
    ("assign $1 adapter 65536", "refused EINVAL"),
    ("assign $1 adapter 08", "refused EINVAL"),
    ("assign $1 domain 256", "refused ENODEV"),
    ("assign $1 domain 65536", "refused EINVAL"),
    ("assign $1 domain 0x", "refused EINVAL"),
    ("unassign $1 adapter 256", "refused ENODEV"),
    ("unassign $1 adapter 65536", "refused EINVAL"),
    ("unassign $1 adapter -1", "refused EINVAL"),
    ("unassign $1 domain 256", "refused ENODEV"),
    ("unassign $1 domain 08", "refused EINVAL"),
    ("unassign $1 control 256", "refused ENODEV"),
    ("unassign $1 control 00000000000000005", "refused EINVAL"),
    ("assign $2 adapter 256", "refused ENOENT"),  # 2 is checked before 19
    ("unassign $2 control 256", "refused ENOENT"),
    ("assign $2 adapter 08", "refused EINVAL"),  # text is read before anything else is checked
    ("unassign $2 control 65536", "refused EINVAL"),

    # which number a text is: of the adapters 71 alone is reserved, with domain 8 alone
    ("apmask 0x0", "ok"),
    ("apmask +71", "ok"),
    ("assign $1 domain 8", "ok"),  # no adapter yet
    ("assign $1 adapter 0107", "refused EADDRNOTAVAIL"),  # setting 15: 71
    ("assign $1 adapter 107", "ok"),
    ("assign $1 adapter 0x47", "refused EADDRNOTAVAIL"),
    ("assign $1 adapter 71", "refused EADDRNOTAVAIL"),
    ("assign $1 adapter 0x00000000000047", "refused EADDRNOTAVAIL"),
    ("assign $1 adapter 0000000000000107", "refused EADDRNOTAVAIL"),
    ("create $2", "ok"),
    ("assign $2 domain 8", "ok"),
    ("assign $2 adapter 107", "refused EADDRINUSE"),
    ("unassign $1 adapter 0153", "ok"),  # 107
    ("assign $2 adapter 0x6B", "ok"),
    ("create $3", "ok"),
    ("assign $3 adapter 71", "ok"),  # no domain yet
    ("assign $3 domain 010", "refused EADDRNOTAVAIL"),  # 8
    ("assign $3 domain 10", "ok"),
    ("assign $3 domain 0x8", "refused EADDRNOTAVAIL"),
    ("assign $3 adapter 8", "ok"),  # as a domain it would be refused
    ("assign $3 control 8", "ok"),  # the same
    ("remove $1", "ok"),
    ("remove $2", "ok"),
    ("remove $3", "ok"),

    # numbers of a move: above 255 is bad text
    ("move 255 256", "refused EINVAL"),
    ("move 256 255", "refused EINVAL"),
    ("move 0x100 0", "refused EINVAL"),
    ("move 0 0400", "refused EINVAL"),
    ("move 65535 0", "refused EINVAL"),
    ("move 0 65536", "refused EINVAL"),
    ("move 261 4", "refused EINVAL"),  # the low byte is 5
    ("move 5 260", "refused EINVAL"),
    ("move 08 0", "refused EINVAL"),
    ("move 0 08", "refused EINVAL"),
    ("move 0x 0", "refused EINVAL"),
    ("move 0 -1", "refused EINVAL"),
    ("move +5 4", "refused EINVAL"),
    ("move 5 00000000000000004", "refused EINVAL"),
    ("move 5,4 5", "refused EINVAL"),
    ("move 05.0004 5", "refused EINVAL"),
    ("move 0xff 0377", "ok idle"),
    ("move 0x05 04", "ok idle"),  # (5,4) is bound to passthrough, and not reserved
    ("move 0000000000000006 0x00000000000004", "ok released"),  # (6,4) has the host's driver
    ("move 6 4", "ok passthrough"),

    # hex masks: bit 0 is the leftmost, zeros are filled in on the right. $1 has domain 8, which aqmask has, so a bit of
    # apmask refuses its adapter
    ("create $1", "ok"),
    ("assign $1 domain 8", "ok"),
    ("apmask 0x41", "ok"),  # setting 1: bits 1 and 7
    ("assign $1 adapter 1", "refused EADDRNOTAVAIL"),
    ("assign $1 adapter 7", "refused EADDRNOTAVAIL"),
    ("assign $1 adapter 0", "ok"),
    ("assign $1 adapter 6", "ok"),
    ("assign $1 adapter 249", "ok"),
    ("assign $1 adapter 255", "ok"),
    ("unassign $1 adapter 0", "ok"),
    ("unassign $1 adapter 6", "ok"),
    ("unassign $1 adapter 249", "ok"),
    ("unassign $1 adapter 255", "ok"),
    ("apmask 0x0000000000000000000000000000000000000000000000000000000000000001", "ok"),
    ("assign $1 adapter 255", "refused EADDRNOTAVAIL"),
    ("assign $1 adapter 254", "ok"),
    ("unassign $1 adapter 254", "ok"),
    ("apmask $all", "ok"),
    ("assign $1 adapter 0", "refused EADDRNOTAVAIL"),
    ("assign $1 adapter 255", "refused EADDRNOTAVAIL"),
    ("apmask 0x00000000000000000000000000000000000000000000000000000000000000000", "refused EINVAL"),  # 65 digits: setting 2
    ("assign $1 adapter 0", "refused EADDRNOTAVAIL"),
    ("apmask 0xA", "ok"),  # bits 0 and 2
    ("assign $1 adapter 2", "refused EADDRNOTAVAIL"),
    ("assign $1 adapter 1", "ok"),
    ("unassign $1 adapter 1", "ok"),

    # lists, worked from left to right on the old mask: setting 3 on bits 1 and 7
    ("apmask 0x41", "ok"),
    ("apmask +0,-1,+0x47,-0xf0", "ok"),  # bits 0, 7 and 71
    ("assign $1 adapter 0", "refused EADDRNOTAVAIL"),
    ("assign $1 adapter 7", "refused EADDRNOTAVAIL"),
    ("assign $1 adapter 71", "refused EADDRNOTAVAIL"),
    ("assign $1 adapter 1", "ok"),
    ("unassign $1 adapter 1", "ok"),
    ("apmask +5,-5", "ok"),
    ("assign $1 adapter 5", "ok"),
    ("unassign $1 adapter 5", "ok"),
    ("apmask -5,+5", "ok"),
    ("assign $1 adapter 5", "refused EADDRNOTAVAIL"),
    ("apmask +255", "ok"),
    ("assign $1 adapter 255", "refused EADDRNOTAVAIL"),
    ("apmask -0377", "ok"),
    ("assign $1 adapter 255", "ok"),
    ("unassign $1 adapter 255", "ok"),
    ("apmask +0000000000000011,-0x00000000000007", "ok"),  # 16 bytes each: +9, -7
    ("assign $1 adapter 9", "refused EADDRNOTAVAIL"),
    ("assign $1 adapter 7", "ok"),
    ("unassign $1 adapter 7", "ok"),

    # bad masks; then the mask is as it was
    ("apmask 0x1", "ok"),  # bit 3
    ("apmask ", "refused EINVAL"),
    ("apmask 0x", "refused EINVAL"),
    ("apmask 0X41", "refused EINVAL"),
    ("apmask 0xg", "refused EINVAL"),
    ("apmask 0x4g", "refused EINVAL"),
    ("apmask 0x4,+5", "refused EINVAL"),
    ("apmask +5,0x4", "refused EINVAL"),
    ("apmask 41", "refused EINVAL"),
    ("apmask 5", "refused EINVAL"),
    ("apmask +", "refused EINVAL"),
    ("apmask -", "refused EINVAL"),
    ("apmask ,", "refused EINVAL"),
    ("apmask +5,", "refused EINVAL"),
    ("apmask ,+5", "refused EINVAL"),
    ("apmask +5,,+6", "refused EINVAL"),
    ("apmask +5,6", "refused EINVAL"),
    ("apmask +5;+6", "refused EINVAL"),
    ("apmask ++5", "refused EINVAL"),
    ("apmask +-5", "refused EINVAL"),
    ("apmask +08", "refused EINVAL"),
    ("apmask +0x", "refused EINVAL"),
    ("apmask +256", "refused EINVAL"),  # of a list's number the most is 255
    ("apmask -256", "refused EINVAL"),
    ("apmask +0400", "refused EINVAL"),
    ("apmask +65536", "refused EINVAL"),
    ("apmask +00000000000000005", "refused EINVAL"),
    ("apmask +4,+256", "refused EINVAL"),
    ("apmask -3,+4,x", "refused EINVAL"),
    ("apmask +5, +6", "refused EINVAL"),
    ("assign $1 adapter 3", "refused EADDRNOTAVAIL"),
    ("assign $1 adapter 4", "ok"),
    ("unassign $1 adapter 4", "ok"),
    ("assign $1 adapter 5", "ok"),
    ("unassign $1 adapter 5", "ok"),

    # the same of aqmask, by a device with adapter 3
    ("create $2", "ok"),
    ("assign $2 adapter 3", "ok"),
    ("assign $2 domain 8", "refused EADDRNOTAVAIL"),
    ("aqmask +9,+10,-10", "ok"),
    ("assign $2 domain 8", "refused EADDRNOTAVAIL"),
    ("assign $2 domain 9", "refused EADDRNOTAVAIL"),
    ("assign $2 domain 10", "ok"),
    ("unassign $2 domain 10", "ok"),
    ("aqmask 0x", "refused EINVAL"),
    ("aqmask ", "refused EINVAL"),
    ("aqmask +256", "refused EINVAL"),
    ("aqmask -8,", "refused EINVAL"),
    ("aqmask 0xfg", "refused EINVAL"),
    ("aqmask 8", "refused EINVAL"),
    ("aqmask 0x00000000000000000000000000000000000000000000000000000000000000000", "refused EINVAL"),
    ("assign $2 domain 8", "refused EADDRNOTAVAIL"),
    ("aqmask 0xFF", "ok"),  # bits 0 to 7
    ("assign $2 domain 7", "refused EADDRNOTAVAIL"),
    ("assign $2 domain 8", "ok"),

    # a new mask and the assigned queue (3,8), which is neither configured nor open
    ("aqmask +8", "refused EADDRINUSE"),
    ("aqmask 0x008", "refused EADDRINUSE"),
    ("aqmask $all", "refused EADDRINUSE"),
    ("aqmask +8,-8", "ok"),  # what counts is the new mask
    ("aqmask +8,", "refused EINVAL"),  # text comes first
    ("apmask 0x0", "ok"),
    ("aqmask 0x00ff", "ok"),  # bits 8 to 15
    ("apmask 0x1", "refused EADDRINUSE"),
    ("apmask +3", "refused EADDRINUSE"),
    ("apmask 0x2", "ok"),  # bit 2
    ("apmask +256", "refused EINVAL"),
    ("remove $1", "ok"),
    ("remove $2", "ok"),

    # bad configurations; then it is as it was
    ("apmask +6", "ok"),  # 2 and 6
    ("aqmask +4", "ok"),  # 4 and 8 to 15: (6,4) is to go to the host
    ("config +5,+6 0x08 0x08 $ten", "refused EINVAL"),  # only hex masks
    ("config 0x06 +4 0x08 $ten", "refused EINVAL"),
    ("config 0x06 0x08 +4 $ten", "refused EINVAL"),
    ("config 06 0x08 0x08 $ten", "refused EINVAL"),
    ("config 0x06 08 0x08 $ten", "refused EINVAL"),
    ("config 0x06 0x08 08 $ten", "refused EINVAL"),
    ("config 0x 0x08 0x08 $ten", "refused EINVAL"),
    ("config 0x06 0x 0x08 $ten", "refused EINVAL"),
    ("config 0x06 0x08 0x $ten", "refused EINVAL"),
    ("config 0X06 0x08 0x08 $ten", "refused EINVAL"),
    ("config 0x0g 0x08 0x08 $ten", "refused EINVAL"),
    ("config 0x06 0xg8 0x08 $ten", "refused EINVAL"),
    ("config 0x06 0x08 0x0g $ten", "refused EINVAL"),
    ("config $all0 0x08 0x08 $ten", "refused EINVAL"),  # 65 digits
    ("config 0x06 $all0 0x08 $ten", "refused EINVAL"),
    ("config 0x06 0x08 $all0 $ten", "refused EINVAL"),
    ("config 0x06 0x08 0x08 " + "0a" * 255 + "0", "refused EINVAL"),  # 511 digits
    ("config 0x06 0x08 0x08 $ten0", "refused EINVAL"),  # 513
    ("config 0x06 0x08 0x08 " + "0a" * 255, "refused EINVAL"),
    ("config 0x06 0x08 0x08 $ten0a", "refused EINVAL"),
    ("config 0x06 0x08 0x08 0a", "refused EINVAL"),
    ("config 0x06 0x08 0x08 g" + "a" * 511, "refused EINVAL"),
    ("config 0x06 0x08 0x08 " + "a" * 255 + "g" + "a" * 256, "refused EINVAL"),
    ("config 0x06 0x08 0x08 " + "a" * 511 + "g", "refused EINVAL"),
    ("config 0x06 0x08 0x08 0x" + "0a" * 255, "refused EINVAL"),  # 512 bytes, and x is no digit
    ("config 0x06 0x08 0x08 " + "0a" * 128 + " " + "0a" * 128, "refused EINVAL"),
    ("config 0x06 0x08 0x08 " + "a" * 511 + ",", "refused EINVAL"),
    ("move 6 4", "ok released"),  # 6 and 4 are configured still
    ("move 6 4", "ok host"),

    # masks of 64 digits: every queue. Reserved are 2 and 6 by 4 and 8 to 15
    ("config $all $all $all $ten", "ok"),
    ("move 2 8", "ok host"),
    ("move 2 16", "ok passthrough"),
    ("move 5 4", "ok idle"),
    ("move 6 4", "ok idle"),
    ("sweep", "ok 65532"),  # all but these four
    ("apmask $all", "ok"),
    ("aqmask 0x" + "F" * 64, "ok"),
    ("sweep", "ok 131036"),  # all but 18 exchange their driver
    ("apmask 0x0", "ok"),
    ("sweep", "ok 131072"),  # all do
    ("sweep", "ok 0"),

    # two digits an adapter, from 0 on, the high one first: 16, 1, 10, 9, 255, 175, and 11 for adapter 255. Nothing is
    # reserved, and domain 0 is left
    ("config $all 0x8 0x0 " + "10010a09ffaF" + "00" * 249 + "0b", "ok"),
    ("move 0 0", "ok idle"),  # passthrough, as before
    ("move 1 0", "ok released"),  # a type below 10
    ("move 1 0", "ok idle"),
    ("move 2 0", "ok idle"),
    ("move 3 0", "ok released"),
    ("move 4 0", "ok idle"),
    ("move 5 0", "ok idle"),
    ("move 254 0", "ok released"),
    ("move 255 0", "ok idle"),
    ("move 0 1", "ok idle"),  # no longer configured, so unbound at once
    ("sweep", "ok 248"),  # of 256 five stay and three are released

    # adapters, usage domains, control domains, in this order
    ("config 0x8 0x4 0x2 " + "0A" * 256, "ok"),
    ("move 0 0", "ok idle"),
    ("move 0 1", "ok passthrough"),
    ("move 0 2", "ok idle"),
    ("move 1 0", "ok idle"),
    ("sweep", "ok 0"),

    # wrong counts: nothing is done. (0,1) is due for two moves, $1 is there with domain 1
    ("apmask 0x8", "ok"),
    ("create $1", "ok"),
    ("assign $1 domain 1", "ok"),
    ("sweep 1", "refused EINVAL"),
    ("sweep 131072", "refused EINVAL"),
    ("sweep 1 1", "refused EINVAL"),
    ("sweep 1 1 1", "refused EINVAL"),
    ("sweep 1 1 1 1", "refused EINVAL"),
    ("sweep 1 1 1 1 1", "refused EINVAL"),
    ("move", "refused EINVAL"),
    ("move 0", "refused EINVAL"),
    ("move 0 1 1", "refused EINVAL"),
    ("move 0 1 1 1", "refused EINVAL"),
    ("move 0 1 1 1 1", "refused EINVAL"),
    ("apmask", "refused EINVAL"),
    ("apmask 0x0 0x0", "refused EINVAL"),
    ("apmask 0x0 0x0 0x0", "refused EINVAL"),
    ("apmask 0x0 0x0 0x0 0x0", "refused EINVAL"),
    ("apmask 0x0 0x0 0x0 0x0 0x0", "refused EINVAL"),
    ("aqmask", "refused EINVAL"),
    ("aqmask 0x0 0x0", "refused EINVAL"),
    ("aqmask 0x0 0x0 0x0", "refused EINVAL"),
    ("aqmask 0x0 0x0 0x0 0x0", "refused EINVAL"),
    ("aqmask 0x0 0x0 0x0 0x0 0x0", "refused EINVAL"),
    ("config", "refused EINVAL"),
    ("config 0x0", "refused EINVAL"),
    ("config 0x0 0x0", "refused EINVAL"),
    ("config 0x0 0x0 0x0", "refused EINVAL"),
    ("config 0x0 0x0 $ten", "refused EINVAL"),
    ("config 0x0 0x0 0x0 $ten 0x0", "refused EINVAL"),
    ("config 0x0 0x0 0x0 0x0 $ten", "refused EINVAL"),
    ("sweep", "ok 2"),  # neither masks nor configuration changed, and no move was made
    ("create", "refused EINVAL"),
    ("create $2 $2", "refused EINVAL"),
    ("create $2 $2 $2", "refused EINVAL"),
    ("create $2 $2 $2 $2", "refused EINVAL"),
    ("create $2 $2 $2 $2 $2", "refused EINVAL"),
    ("remove $2", "refused ENOENT"),
    ("remove", "refused EINVAL"),
    ("remove $1 $1", "refused EINVAL"),
    ("remove $1 $1 $1", "refused EINVAL"),
    ("remove $1 $1 $1 $1", "refused EINVAL"),
    ("remove $1 $1 $1 $1 $1", "refused EINVAL"),
    ("open", "refused EINVAL"),
    ("open $1 $1", "refused EINVAL"),
    ("open $1 $1 $1", "refused EINVAL"),
    ("open $1 $1 $1 $1", "refused EINVAL"),
    ("open $1 $1 $1 $1 $1", "refused EINVAL"),
    ("open $1", "ok"),  # there, and not open
    ("close", "refused EINVAL"),
    ("close $1 $1", "refused EINVAL"),
    ("close $1 $1 $1", "refused EINVAL"),
    ("close $1 $1 $1 $1", "refused EINVAL"),
    ("close $1 $1 $1 $1 $1", "refused EINVAL"),
    ("close $1", "ok"),  # open still
    ("assign", "refused EINVAL"),
    ("assign $1", "refused EINVAL"),
    ("assign $1 adapter", "refused EINVAL"),
    ("assign $1 adapter 5 5", "refused EINVAL"),
    ("assign $1 adapter 5 5 5", "refused EINVAL"),
    ("assign adapter 5", "refused EINVAL"),
    ("assign $1 5", "refused EINVAL"),
    ("create $2", "ok"),
    ("assign $2 domain 1", "ok"),
    ("assign $2 adapter 5", "ok"),  # $1 has not got it
    ("unassign", "refused EINVAL"),
    ("unassign $2", "refused EINVAL"),
    ("unassign $2 adapter", "refused EINVAL"),
    ("unassign $2 adapter 5 5", "refused EINVAL"),
    ("unassign $2 adapter 5 5 5", "refused EINVAL"),
    ("unassign adapter 5", "refused EINVAL"),
    ("unassign $2 5", "refused EINVAL"),
    ("assign $1 adapter 5", "refused EADDRINUSE"),  # $2 has it still
    ("remove $2", "ok"),

    # words are parted by one space: a space too many makes an empty word
    ("apmask 0x0", "ok"),
    ("", "refused EINVAL"),
    (" ", "refused EINVAL"),
    ("  ", "refused EINVAL"),
    ("    ", "refused EINVAL"),
    (" " * 1024, "refused EINVAL"),
    (" sweep", "refused EINVAL"),
    ("sweep ", "refused EINVAL"),
    ("  sweep", "refused EINVAL"),
    ("sweep  ", "refused EINVAL"),
    (" move 0 1", "refused EINVAL"),
    ("move  0 1", "refused EINVAL"),
    ("move 0  1", "refused EINVAL"),
    ("move 0 1 ", "refused EINVAL"),
    ("move  1", "refused EINVAL"),  # three words, of which one is empty
    ("move 0 ", "refused EINVAL"),
    ("move  ", "refused EINVAL"),
    (" 0 1", "refused EINVAL"),
    (" create $2", "refused EINVAL"),
    ("create  $2", "refused EINVAL"),
    ("create $2 ", "refused EINVAL"),
    (" $2", "refused EINVAL"),
    (" remove $1", "refused EINVAL"),
    ("remove  $1", "refused EINVAL"),
    ("remove $1 ", "refused EINVAL"),
    ("remove ", "refused EINVAL"),
    (" open $1", "refused EINVAL"),
    ("open  $1", "refused EINVAL"),
    ("open $1 ", "refused EINVAL"),
    ("open ", "refused EINVAL"),
    (" close $1", "refused EINVAL"),
    ("close  $1", "refused EINVAL"),
    ("close $1 ", "refused EINVAL"),
    ("close ", "refused EINVAL"),
    (" assign $1 adapter 5", "refused EINVAL"),
    ("assign  $1 adapter 5", "refused EINVAL"),
    ("assign $1  adapter 5", "refused EINVAL"),
    ("assign $1 adapter  5", "refused EINVAL"),
    ("assign $1 adapter 5 ", "refused EINVAL"),
    ("assign  adapter 5", "refused EINVAL"),  # four words
    ("assign $1  5", "refused EINVAL"),
    ("assign $1 adapter ", "refused EINVAL"),
    ("unassign  $1 domain 1", "refused EINVAL"),
    ("unassign $1 domain 1 ", "refused EINVAL"),
    ("unassign  domain 1", "refused EINVAL"),
    ("unassign $1  1", "refused EINVAL"),
    ("unassign $1 domain ", "refused EINVAL"),
    (" apmask 0x8", "refused EINVAL"),
    ("apmask  0x8", "refused EINVAL"),
    ("apmask 0x8 ", "refused EINVAL"),
    ("aqmask  0x0", "refused EINVAL"),
    ("aqmask 0x0 ", "refused EINVAL"),
    (" config 0x0 0x0 0x0 $ten", "refused EINVAL"),
    ("config  0x0 0x0 0x0 $ten", "refused EINVAL"),
    ("config 0x0  0x0 0x0 $ten", "refused EINVAL"),
    ("config 0x0 0x0 0x0  $ten", "refused EINVAL"),
    ("config 0x0 0x0 0x0 $ten ", "refused EINVAL"),
    ("config  0x0 0x0 $ten", "refused EINVAL"),  # five words
    ("config 0x0  0x0 $ten", "refused EINVAL"),
    ("config 0x0 0x0  $ten", "refused EINVAL"),
    ("config 0x0 0x0 0x0 ", "refused EINVAL"),
    ("move 0 1", "ok released"),  # two are due: from host to passthrough
    ("remove $2", "refused ENOENT"),
    ("open $1", "ok"),

    # words that are not quite one
    ("Sweep", "refused EINVAL"),
    ("SWEEP", "refused EINVAL"),
    ("swee", "refused EINVAL"),
    ("sweeps", "refused EINVAL"),
    ("moves 0 1", "refused EINVAL"),
    ("mov 0 1", "refused EINVAL"),
    ("Move 0 1", "refused EINVAL"),
    ("creat $2", "refused EINVAL"),
    ("creates $2", "refused EINVAL"),
    ("Create $2", "refused EINVAL"),
    ("delete $1", "refused EINVAL"),
    ("closed $1", "refused EINVAL"),
    ("clos $1", "refused EINVAL"),
    ("opened $1", "refused EINVAL"),
    ("apmas 0x8", "refused EINVAL"),
    ("apmasks 0x8", "refused EINVAL"),
    ("aqmask_ 0x0", "refused EINVAL"),
    ("mask 0x8", "refused EINVAL"),
    ("configure 0x0 0x0 0x0 $ten", "refused EINVAL"),
    ("conf 0x0 0x0 0x0 $ten", "refused EINVAL"),
    ("assign $1 Adapter 5", "refused EINVAL"),
    ("assign $1 adapters 5", "refused EINVAL"),
    ("assign $1 adapte 5", "refused EINVAL"),
    ("assign $1 domains 5", "refused EINVAL"),
    ("assign $1 usage 5", "refused EINVAL"),
    ("assign $1 control_domain 5", "refused EINVAL"),
    ("assign $1 controls 5", "refused EINVAL"),
    ("assign $1 5 adapter", "refused EINVAL"),
    ("assign adapter $1 5", "refused EINVAL"),
    ("unassign $1 Domain 1", "refused EINVAL"),
    ("unassign $1 doma 1", "refused EINVAL"),
    ("unassigned $1 domain 1", "refused EINVAL"),
    ("reassign $1 domain 1", "refused EINVAL"),
    ("help", "refused EINVAL"),
    ("# sweep", "refused EINVAL"),
    ("ok", "refused EINVAL"),
    ("0", "refused EINVAL"),
    ("move 0 1", "ok passthrough"),

    # any other bytes are bad text
    ("\0", "refused EINVAL"),
    ("sweep\0", "refused EINVAL"),
    ("\0sweep", "refused EINVAL"),
    ("apmask 0x8\0", "refused EINVAL"),
    ("move 0 1\0", "refused EINVAL"),
    ("create 0000000000000000000000000000000\0", "refused EINVAL"),
    ("close $1\0", "refused EINVAL"),
    ("\r", "refused EINVAL"),
    ("sweep\r", "refused EINVAL"),
    ("\rsweep", "refused EINVAL"),
    ("move 0 1\r", "refused EINVAL"),
    ("apmask 0x8\r", "refused EINVAL"),
    ("apmask +0\r", "refused EINVAL"),
    ("close $1\r", "refused EINVAL"),
    ("assign $1 control 5\r", "refused EINVAL"),
    ("config 0x0 0x0 0x0 $ten\r", "refused EINVAL"),
    ("\t", "refused EINVAL"),
    ("\tsweep", "refused EINVAL"),
    ("sweep\t", "refused EINVAL"),
    ("move\t0\t1", "refused EINVAL"),
    ("close\t$1", "refused EINVAL"),
    ("\xff", "refused EINVAL"),
    ("\xffsweep", "refused EINVAL"),
    ("sweep\xff", "refused EINVAL"),
    ("\xff" * 32, "refused EINVAL"),
    ("create " + "\xff" * 32, "refused EINVAL"),
    ("apmask \xff", "refused EINVAL"),
    ("apmask +\xb9", "refused EINVAL"),  # a digit with its top bit set
    ("move 0 \xb1", "refused EINVAL"),
    ("move\xa00\xa01", "refused EINVAL"),  # a space with its top bit set
    ("move\xc2\xa00\xc2\xa01", "refused EINVAL"),
    ("\x1b[A", "refused EINVAL"),
    ("sweep\x7f", "refused EINVAL"),
    ("sweep;sweep", "refused EINVAL"),
    ("".join(chr(b) for b in range(256) if b != 10), "refused EINVAL"),
    ("close $1", "ok"),
    ("remove $2", "refused ENOENT"),
    ("sweep", "ok 0"),

    # long lines: $1 has domain 1, which is reserved with an adapter of apmask
    ("apmask " + "+5," * 338 + "+5", "ok"),  # 1,023 bytes
    ("assign $1 adapter 5", "refused EADDRNOTAVAIL"),
    ("apmask " + "-5," * 338 + "-05", "ok"),  # 1,024
    ("assign $1 adapter 5", "ok"),
    ("unassign $1 adapter 5", "ok"),
    ("apmask " + "+5," * 338 + "+005", "refused EINVAL"),  # 1,025
    ("assign $1 adapter 5", "ok"),
    ("unassign $1 adapter 5", "ok"),
    ("apmask " + "+5," * 338 + "+5", "ok"),
    ("assign $1 adapter 5", "refused EADDRNOTAVAIL"),
    ("apmask " + "-5," * 1663 + "-005", "refused EINVAL"),  # 5,000
    ("assign $1 adapter 5", "refused EADDRNOTAVAIL"),
    ("apmask 0x0", "ok"),
    ("aqmask " + "-1," * 338 + "-1", "ok"),  # 1,023
    ("aqmask " + "+1," * 338 + "+01", "ok"),  # 1,024
    ("aqmask " + "-1," * 338 + "-001", "refused EINVAL"),  # 1,025
    ("apmask 0x04", "ok"),  # bit 5
    ("assign $1 adapter 5", "refused EADDRNOTAVAIL"),  # domain 1 is in aqmask
    ("apmask 0x0", "ok"),

    # what follows the first 1,024 bytes is neither dropped nor a line of its own
    ("apmask " + "+5," * 338 + "+05sweep", "refused EINVAL"),
    ("apmask " + "+5," * 338 + "+05 ", "refused EINVAL"),
    ("apmask " + "+5," * 338 + "+05\0", "refused EINVAL"),
    ("assign $1 adapter 5", "ok"),
    ("unassign $1 adapter 5", "ok"),
    ("x" * 1024 + "remove $1", "refused EINVAL"),
    ("x" * 1025 + "remove $1", "refused EINVAL"),
    ("x" * 2048 + "remove $1", "refused EINVAL"),
    ("x" * 2050 + "remove $1", "refused EINVAL"),
    ("remove $1" + " " * 985, "refused EINVAL"),  # 1,024 bytes
    ("remove $1" + " " * 986, "refused EINVAL"),
    ("sweep" + "\r" * 5000, "refused EINVAL"),
    ("0" * 1025, "refused EINVAL"),
    ("0" * 1024, "refused EINVAL"),
    ("0" * 1023, "refused EINVAL"),
    ("", "refused EINVAL"),
    ("open $1", "ok"),
    (" " * 1025, "refused EINVAL"),
    ("", "refused EINVAL"),
    ("close $1", "ok"),

    # the longest line that a command needs
    ("config $all 0x" + "F" * 64 + " $all " + "fF" * 256, "ok"),
    ("sweep", "ok 65535"),  # (0,1) is bound to passthrough already
    ("remove $1", "ok"),
    ("sweep", "ok 0"),
]

# A few lines, and a last one without its newline.
BEFORE = [
    ("create $1", "ok"),
    ("assign $1 domain 4", "ok"),
    ("assign $1 adapter 5", "refused EADDRNOTAVAIL"),
    ("move 5 4", "ok idle"),
    ("sweep", "ok 0"),
]
PROGRAMS = {
    "console": ROWS,
    "console_1023": BEFORE + [("apmask " + "-5," * 338 + "-5", "ok")],
    "console_1024": BEFORE + [("apmask " + "-5," * 338 + "-05", "ok")],
    "console_1025": BEFORE + [("apmask " + "-5," * 338 + "-005", "refused EINVAL")],
    "console_5000": BEFORE + [("apmask " + "-5," * 1663 + "-005", "refused EINVAL")],
}


def written(line):
    """The bytes of a line."""
    for short, whole in SHORT.items():
        line = line.replace(short, whole)
    return line.encode("latin-1")


def whole_input(name):
    lines = [written(line) for line, _ in PROGRAMS[name]]
    if name == "console":
        assert {1023, 1024, 1025, 5000} <= set(map(len, lines))
        return b"".join(line + b"\n" for line in lines)
    assert f"console_{len(lines[-1])}" == name
    return b"\n".join(lines)


def whole_output(name):
    return "".join(answer + "\n" for _, answer in PROGRAMS[name]).encode()


def hex_mask(word):
    """The bits of a mask in hex form, or nothing where it is none."""
    bits = mask(word, EMPTY) if word.startswith(b"0x") else None
    return bits and {i for i in range(256) if bits[i] == "1"}


def config(service, words):
    masks = [hex_mask(word) for word in words[:3]]
    if None in masks or not re.fullmatch(rb"[0-9a-fA-F]{512}", words[3]):
        return 22
    return service.configure(*masks, list(bytes.fromhex(words[3].decode())))


def modelled(service, line):
    """The answer to a line by the Python model."""
    word, *rest = line.split(b" ") if len(line) <= 1024 else [b""]
    kind, name = (word.decode("latin-1"), len(rest)), rest[0].decode("latin-1") if rest else ""
    known = re.fullmatch(r"[0-9a-fA-F]{32}", name)
    errno = 22
    if kind == ("sweep", 0):
        return f"ok {service.sweep(131072)[0]}"
    if kind == ("move", 2):
        queue = [number(text, most=255) for text in rest]
        if None not in queue:
            return f"ok {service.move(*queue)}"
    elif kind in (("create", 1), ("remove", 1), ("open", 1), ("close", 1)) and known:
        errno = getattr(service, kind[0])(int(name, 16))
    elif kind in (("assign", 3), ("unassign", 3)) and known and rest[1].decode("latin-1") in KINDS:
        errno = getattr(service, kind[0])(rest[1].decode(), int(name, 16), rest[2])
    elif kind in (("apmask", 1), ("aqmask", 1)):
        errno = service.set_mask(kind[0][:2], rest[0])
    elif kind == ("config", 4):
        errno = config(service, rest)
    return f"refused {NAMES[errno]}" if errno else "ok"


def check(name):
    service, differ, met = Service(255, 255), 0, set()
    for n, (line, answer) in enumerate(PROGRAMS[name]):
        got = modelled(service, written(line))
        met.add(answer)
        if got != answer:
            differ += 1
            print(f"{name}, row {n}: {line[:60]!r}: {answer} here, {got} by the model")
    if name == "console":
        missing = [errno for errno in NAMES.values() if f"refused {errno}" not in met]
        missing += [word for word in ("idle", "released", "host", "passthrough") if f"ok {word}" not in met]
        if missing:
            differ += 1
            print(f"{name}: no row is answered {', '.join(missing)}")
    return differ


if __name__ == "__main__":
    if len(sys.argv) != 3 or sys.argv[1] not in PROGRAMS or sys.argv[2] not in ("stdin", "stdout", "check"):
        sys.exit("usage: console.py NAME stdin|stdout|check, NAME being " + ", ".join(PROGRAMS))
    if sys.argv[2] == "check":
        sys.exit(1 if check(sys.argv[1]) else 0)
    sys.stdout.buffer.write(whole_input(sys.argv[1]) if sys.argv[2] == "stdin" else whole_output(sys.argv[1]))
