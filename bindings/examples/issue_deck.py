#!/usr/bin/env python3
"""Writes examples/issue.deck, the issue program that the example hosts run: `issue_deck.py > examples/issue.deck`.

For each of three stores it subtracts the issue from the balance (SZ), marks a balance that fell below zero, edits issue and balance into a line (ED), blanks
their leading zeros (ITC) and calls the supervisor to print. The calls are this example's own: R 01 prints the WR4 bytes of storage from XR1 on, R 02 ends.
"""
import sys

ITEMS, COUNT, STEP, BLANK = 0x0100, 0x0150, 0x0151, 0x0153
BLANKS, SHORT, ISSUE, LEFT, LINE = 0x0160, 0x0168, 0x0170, 0x0178, 0x0180
ITEM = 22  # a name of 12, a balance of 6 digits, an issue of 4
NAME_AT, ISSUE_AT, LEFT_AT, REMARK_AT, LENGTH = LINE, LINE + 12, LINE + 17, LINE + 25, 31


def two(address):
    return bytes([address >> 8, address & 255])


def text(s):
    return s.encode("cp037")


def field(at, length):
    """The address of a field's rightmost byte."""
    return at + length - 1


loop = bytearray()
loop += bytes([0xA7, 0x23, 17, 21])  # SZ balance(6), issue(4), both from XR2
loop += bytes([0x0C, 5]) + two(field(REMARK_AT, 6)) + two(field(BLANKS, 6))  # MVC remark, blanks
loop += bytes([0xF2, 0x02, 6])  # JC not low, past the next
loop += bytes([0x0C, 5]) + two(field(REMARK_AT, 6)) + two(field(SHORT, 6))  # MVC remark, " SHORT"
loop += bytes([0x2C, 11]) + two(field(NAME_AT, 12)) + bytes([11])  # MVC name, name(XR2)
loop += bytes([0x0C, 4]) + two(field(ISSUE_AT, 5)) + two(field(ISSUE, 5))  # MVC the pattern of the issue
loop += bytes([0x2A, 4]) + two(field(ISSUE_AT, 5)) + bytes([21])  # ED it from issue(XR2)
loop += bytes([0x0B, 3]) + two(ISSUE_AT) + two(BLANK)  # ITC: leading zeros, but the last digit stays
loop += bytes([0x0C, 7]) + two(field(LEFT_AT, 8)) + two(field(LEFT, 8))  # MVC the pattern of the balance
loop += bytes([0x2A, 7]) + two(field(LEFT_AT, 8)) + bytes([17])  # ED it from balance(XR2)
loop += bytes([0x0B, 6]) + two(LEFT_AT) + two(BLANK)  # ITC
loop += bytes([0xC2, 0x01]) + two(LINE)  # LA XR1, line
loop += bytes([0xC2, 0x44]) + two(LENGTH)  # LA WR4, its length
loop += bytes([0xF4, 0x00, 0x01])  # SVC print
loop += bytes([0x36, 0x02]) + two(field(STEP, 2))  # A XR2, 22
loop += bytes([0x3F, 1]) + two(COUNT)  # SLI count, 1

code = bytes([0xC2, 0x02]) + two(ITEMS)  # LA XR2, the first store
begin = len(code)
code += bytes(loop) + bytes([0xC0, 0x01]) + two(begin)  # BC not equal, to the next store
code += bytes([0xF4, 0x00, 0x02])  # SVC end

storage = bytearray(512)


def lay(at, data):
    storage[at : at + len(data)] = data


lay(0, code)
for i, (name, balance, issue) in enumerate([("FODDER", 1250, 375), ("ROPE", 40, 4), ("TINNED MEAT", 96, 120)]):
    lay(ITEMS + i * ITEM, text(f"{name:12}{balance:06}{issue:04}"))
lay(COUNT, bytes([3]))
lay(STEP, two(ITEM))
lay(BLANK, text(" "))
lay(BLANKS, text(" " * 6))
lay(SHORT, text(" SHORT"))
lay(ISSUE, text(" ") + bytes([0x20] * 4))
lay(LEFT, text(" ") + bytes([0x20] * 3) + text(",") + bytes([0x20] * 3))

deck = bytes([0x01, 1]) + bytes(16) + bytes([0x01])  # two pages; every register zero; status equal
for page in range(2):
    deck += bytes([0x02, page]) + storage[page * 256 : page * 256 + 256]
deck += bytes([0x03])
sys.stdout.buffer.write(deck)
