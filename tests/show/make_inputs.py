#!/usr/bin/env python3
"""Writes an input and the output that is expected of `show` for each case: NAME.in and NAME.out in the folder that is given.

The expected texts are written out here from the rules; nothing of the library is asked for them."""
import os
import sys

folder = sys.argv[1]
names = set()


def case(name, octets, text):
    """octets: hex with spaces, or bytes. text: the expected output, the newline at its end left out."""
    if isinstance(octets, str):
        octets = bytes.fromhex(octets)
    if name in names:
        sys.exit('two cases are named ' + name)
    names.add(name)
    with open(os.path.join(folder, name + '.in'), 'wb') as f:
        f.write(octets)
    with open(os.path.join(folder, name + '.out'), 'wb') as f:
        f.write(text.encode('ascii') + b'\n')


HEADING = 'depth tag kind value\n'

# The sample of document 01.
case('sample',
     '28 01 00 05 00 00 01 01 00 01 00 05 00 00 02 02 00 01 00 05 00 00 23 05 01 01 00 05 01 00 00 04 00 01 00 05 01 00 01 01 00'
     '0d 11 2a 21 8b e6 23 02 4b 57 12 01 f4 30',
     'depth tag kind value\n'
     '1 0001 uint 42\n'
     '1 0002 int -11\n'
     '1 0023 message 2\n'
     '2 0000 text 4b57\n'
     '2 0001 uint 500\n'
     '1 0003 raw -\n'
     'fields 6 octets 13')

# An empty table and an empty message.
case('nothing', '00 00', HEADING + 'fields 0 octets 0')

# Tables of one record: tag 1 as a message of number 0; tag 12 as uint, int, string or text.
LEVELS = '08 01 00 05 00 00 01 05 00 '
UINT = '08 01 00 05 00 00 0c 01 00 '
INT = '08 01 00 05 00 00 0c 02 00 '
STRING = '08 01 00 05 00 00 0c 03 00 '
TEXT = '08 01 00 05 00 00 0c 04 00 '

# The first frame.
case('first_no_octet', '', 'refused 3 at 0')
case('first_prefix_cut', 'fd 00', 'refused 3 at 0')
case('first_announces_65537', 'fe 00 01 00 01', 'refused 1 at 0')
case('first_past_the_end', '05 01', 'refused 4 at 0')

# The table, its places counted from the first octet after the prefix; also with no second frame.
case('table_cut', '01 01', 'refused 2 at 0')
case('table_kind_6', '08 01 00 05 00 00 01 06 00 00', 'refused 2 at 0')
case('table_repeats', '10 01 00 05 00 00 01 01 00 01 00 05 00 00 01 02 00 00', 'refused 2 at 8')
case('table_long_prefix', 'fd 00 09 01 00 05 00 00 01 01 00 ff 00', 'refused 2 at 8')

# The second frame.
case('second_no_octet', '00', 'refused 3 at 0')
case('second_prefix_cut', '00 fe 00 01 00', 'refused 3 at 0')
case('second_announces_65537', UINT + 'fe 00 01 00 01', 'refused 1 at 0')
case('second_past_the_end', '00 02 c3', 'refused 4 at 0')
case('second_long_prefix', '00 fe 00 00 00 01 00', HEADING + '1 0000 raw -\nfields 1 octets 1')

# Octets after both frames come before any fault in the message.
case('octet_after', '00 00 00', 'refused 14 at 0')
case('octet_after_bad_message', '00 01 c3 00', 'refused 14 at 0')

# The message, its places counted from its own first octet.
case('control_cut', UINT + '02 c0 f1', 'refused 3 at 1')
case('inner_control_cut', LEVELS + '03 20 11 f1', 'refused 3 at 2')
case('contents_past_the_end', UINT + '03 c0 c3 01', 'refused 4 at 1')
case('ninth_level', LEVELS + '08 17 16 15 14 13 12 11 10', 'refused 5 at 7')
case('nine_octets', UINT + '0a c9 00 00 00 00 00 00 00 00 00', 'refused 6 at 0')
case('nine_octets_second', INT + '0b c0 c9 00 00 00 00 00 00 00 00 00', 'refused 6 at 1')
case('not_text', TEXT + '02 c1 ff', 'refused 7 at 0')
case('overlong_text', TEXT + '04 c0 c2 c0 80', 'refused 7 at 1')
case('surrogate', TEXT + '04 c3 ed a0 80', 'refused 7 at 0')
case('above_10ffff', TEXT + '05 c4 f4 90 80 80', 'refused 7 at 0')
case('10ffff', TEXT + '05 c4 f4 8f bf bf', HEADING + '1 000c text f48fbfbf\nfields 1 octets 5')
case('inner_text_first',
     '18 01 00 05 00 00 01 05 00 01 00 05 00 00 02 01 00 01 00 05 00 00 03 04 00 04 12 31 ff 29', 'refused 7 at 1')

# Records of length 6 have a mark: 0 many, 1 single. A single field comes once in a message, whatever the form of its tag. The repeat is
# found before its contents are looked at, and after a length that goes past the end. Nested messages count on their own.
SINGLE = '09 01 00 06 00 00 0c 01 00 01 '
SINGLES = '1a 01 00 05 00 00 01 05 00 01 00 06 00 00 0c 01 00 01 01 00 06 00 00 02 05 00 01 '
case('mark_many', '09 01 00 06 00 00 0c 01 00 00 03 c0 e0 0c',
     HEADING + '1 000c uint 0\n1 000c uint 0\nfields 2 octets 3')
case('mark_single', SINGLE + '03 c1 05 30', HEADING + '1 000c uint 5\n1 0003 raw -\nfields 2 octets 3')
case('repeat', SINGLE + '03 c0 e0 0c', 'refused 20 at 1')
case('repeat_of_nine_octets', SINGLE + '0b c0 c9 00 00 00 00 00 00 00 00 00', 'refused 20 at 1')
case('repeat_past_the_end', SINGLE + '02 c0 c1', 'refused 4 at 1')
case('past_the_end_before_repeat', SINGLE + '03 c0 33 c0', 'refused 4 at 1')
case('repeat_in_each_message', SINGLES + '05 11 c0 11 c0 c0',
     HEADING + '1 0001 message 1\n2 000c uint 0\n1 0001 message 1\n2 000c uint 0\n1 000c uint 0\nfields 5 octets 5')
case('repeat_inside', SINGLES + '04 c0 12 c0 c0', 'refused 20 at 3')
case('repeat_of_a_message', SINGLES + '03 20 21 f1', 'refused 20 at 1')
case('repeat_eight_deep', SINGLES + '09 18 17 16 15 14 13 12 c0 c0', 'refused 20 at 8')
case('ninth_level_before_repeat', SINGLES + '0a 19 18 17 16 15 14 13 c0 10 c0', 'refused 5 at 8')
case('mark_2', '09 01 00 06 00 00 0c 01 00 02 01 c0', 'refused 2 at 0')
case('mark_2_second', '11 01 00 05 00 00 01 05 00 01 00 06 00 00 0c 01 00 02 01 c0', 'refused 2 at 8')
case('mark_missing', '08 01 00 06 00 00 0c 01 00 01 c0', 'refused 2 at 0')
case('mark_in_the_inner_number', '08 01 00 05 00 00 0c 01 81 01 c0', 'refused 2 at 0')

case('eight_levels', LEVELS + '07 16 15 14 13 12 11 10',
     HEADING + '1 0001 message 1\n2 0001 message 1\n3 0001 message 1\n4 0001 message 1\n5 0001 message 1\n6 0001 message 1\n'
     '7 0001 message 0\nfields 7 octets 7')

# Numbers.
case('uints', UINT + '13 c0 c1 80 c2 01 23 c8 ff ff ff ff ff ff ff ff cc 01 09 c0',
     HEADING + '1 000c uint 0\n1 000c uint 128\n1 000c uint 291\n1 000c uint 18446744073709551615\n1 000c uint 9\n'
     '1 000c uint 0\nfields 6 octets 19')
case('ints', INT + '1f c0 c1 80 c2 80 81 c2 00 80 c8 80 00 00 00 00 00 00 00 c8 7f ff ff ff ff ff ff ff c1 81 c1 00',
     HEADING + '1 000c int 0\n1 000c int -128\n1 000c int -129\n1 000c int 128\n1 000c int -9223372036854775808\n'
     '1 000c int 9223372036854775807\n1 000c int -1\n1 000c int 0\nfields 8 octets 31')

# Octets, and tags in every form. A tag that the table does not have is raw.
case('strings', STRING + '07 c0 c2 AB 0f e1 0c 00',
     HEADING + '1 000c string -\n1 000c string ab0f\n1 000c string 00\nfields 3 octets 7')
case('texts', TEXT + '06 c0 c3 e2 82 ac c0', HEADING + '1 000c text -\n1 000c text e282ac\n1 000c text -\nfields 3 octets 6')
case('tags', '00 0d 00 d1 fe e0 0e e0 ff f0 01 00 f0 ff ff',
     HEADING + '1 0000 raw -\n1 000d raw fe\n1 000e raw -\n1 00ff raw -\n1 0100 raw -\n1 ffff raw -\nfields 6 octets 13')

# A message's count is that of its own fields; those of the messages in it follow their lines.
case('counts', LEVELS + '11 1c 0e 00 12 10 00' + ' 00' * 10 + ' 10',
     HEADING + '1 0001 message 12\n2 0000 raw -\n2 0001 message 2\n3 0001 message 0\n3 0000 raw -\n' + '2 0000 raw -\n' * 10
     + '1 0001 message 0\nfields 16 octets 17')

# All the octets that are allowed, and one more. The longest outputs go beyond any one buffer of the program.
one_field = bytes.fromhex('00 fd ff fc 0e 00 00 ff f7') + bytes([0xab]) * 65527
case('longest_one_field', one_field, HEADING + '1 0000 raw ' + 'ab' * 65527 + '\nfields 1 octets 65532')
case('too_long_by_one', one_field + b'\x00', 'refused 1 at 0')
many = bytes.fromhex('00 fd ff fc') + bytes(65532)
case('longest_many_fields', many, HEADING + '1 0000 raw -\n' * 65532 + 'fields 65532 octets 65532')
case('too_long_zeros', bytes(70000), 'refused 1 at 0')
