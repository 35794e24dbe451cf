#!/usr/bin/env python3
"""Writes docs/TEXTS.md: what is read, with each example's answer as the line program gives it.

usage: tools/texts.py            writes the page
       tools/texts.py --check    exit status 1 if the page is not what would be written
"""
import os
import subprocess
import sys

ROOT = os.path.realpath(os.path.join(os.path.dirname(os.path.abspath(__file__)), '..'))
PAGE = os.path.join(ROOT, 'docs', 'TEXTS.md')
BASE = '2024-03-13 09:30 -03:00'

HEAD = """# What is read

Each answer below is the line program's, under the base `%s`, which is a Wednesday; a refusal is its number and place. Texts are read
item by item: dates, times of day with or without an offset, and relative items, in any order, at most one date and one time, at most 64 items
and 4096 bytes. Upper and lower case are the same. Between items stand blanks, comments or nothing: no comma, no other sign.

What a text leaves out:

- a date alone is midnight of that day;
- a time alone is of the base's day; it sets second and nanosecond too, to 0 where they are not given;
- a relative item alone moves the base and keeps its clock;
- a text without any item is the base;
- the offset is the base's where no time gives one; no clock is converted to a new offset.

""" % BASE

SECTIONS = [
    ('Dates', None, [
        ('2024-01-31', 'year, month, day'),
        ('20240131', 'the same in a row'),
        ('2024/1/31', 'the first of three numbers is the year if it has four digits'),
        ('1/31/2024', 'month, day, year'),
        ('1/31', 'month and day: the base\'s year'),
        ('31.1.2024', 'day, month, year'),
        ('31.1.', 'the base\'s year'),
        ('31 January 2024', 'a month by its full name, by its first three letters with or without a dot, or `sept` without one'),
        ('31 jan.', None),
        ('Jan 31 2024', None),
        ('Jan 31, 2024', 'a blank has to follow the comma'),
        ('31-jan-2024', None),
        ('31jan2024', None),
        ('68-1-31', 'two digits up to 68 are years of 2000'),
        ('69-1-31', 'from 69 on of 1900; one digit or three are the year as they stand'),
        ('12345-01-31', 'years to 2147485547'),
    ]),
    ('Times and offsets', None, [
        ('10:00', 'hour and minute'),
        ('10:00:05', None),
        ('10:00:05.25', 'a fraction after a point or a comma: any number of digits, zeros after the ninth'),
        ('10 pm', 'am, pm, a.m. and p.m.'),
        ('12:30 am', 'half past midnight'),
        ('10:00 +05:30', 'an offset with the time: `+05:30`, `+0530`, `+5`'),
        ('10:00-0800', None),
        ('20 +2', 'an hour alone needs an offset, am or pm; an offset belongs to a time'),
        ('2024-01-31T10:00+00:00', 'date and time with `T`'),
        ('2024-01-31 10:00', 'or with a blank'),
    ]),
    ('Relative items', None, [
        ('+1 month', 'years, months, fortnights, weeks, days, hours, minutes, seconds; `min` and `sec`; with `s` or without'),
        ('2 weeks ago', '`ago` turns its own item: two weeks back'),
        ('2 weeks 3 days ago', 'two weeks on, and three days back'),
        ('3 days hence', None),
        ('-90 minutes', None),
        ('1.5 seconds', 'seconds alone may have a fraction'),
        ('next year', '`last` -1, `this` 0, `next` and `first` 1, `third` 3 to `twelfth` 12; `second` is the unit'),
        ('hour', 'a unit alone is one'),
        ('2024-01-31 +1 month', 'the day is clamped, and the days that were lost are added'),
        ('2024-01-31 10:00 1 day -2 hours', 'from left to right'),
    ]),
    ('Blanks, comments and signs', None, [
        ('   10:00   ', 'blanks are bytes 9 to 13 and 32'),
        ('10:00 (in the (late) morning)', 'comments are in round parentheses, nested'),
        ('10:00 -', 'a sign is ignored if no digit follows, blanks or not'),
        ('()', 'no item'),
    ]),
    ('Look-alikes that are refused', 'what to write instead', [
        ('2024-03-13T10:00:00Z', '`2024-03-13T10:00:00+00:00`'),
        ('10:00 UTC', '`10:00 +00:00`; zones by their names are not read'),
        ('now', 'an empty text, or `0 days`; so for `today`'),
        ('tomorrow', '`1 day`, which keeps the clock'),
        ('noon', '`12:00`'),
        ('sept. 3', '`sept 3`: no dot after four letters'),
        ('Jan 31,2024', '`Jan 31, 2024`'),
        ('31 jan, 2024', '`31 jan 2024`'),
        ('31/1/2024', '`31.1.2024` or `1/31/2024`'),
        ('2024-01-31 +02:00', '`2024-01-31 00:00 +02:00`: an offset belongs to a time'),
        ('10 pm +2', '`22:00 +2`: am or pm, or an offset'),
        ('10:00, 2 days', '`10:00 2 days`'),
        ('3000000000 days', 'an amount that an i32 can represent, of seconds an i64; weeks count as 7 days'),
        ('monday', 'a packet: weekdays come by packet alone'),
        ('@0', 'a record made with `seqtullo_from_unix_seconds`'),
        ('+2h', '`+2 hours`'),
        ('1.5 hours', '`90 minutes`: only seconds have a fraction'),
        ('10:00 20240131', '`20240131 10:00`: no blank may come before digits in a row'),
        ('2024-03-13T09', '`2024-03-13T09:00`'),
        ('2024-03', '`2024-03-01`'),
        ('2024-W11-3', '`2024-03-13`; week dates are read by `seqtullo_read_profile` alone'),
        ('1430', '`14:30`: pure numbers come by packet alone'),
        ('13:00 pm', '`13:00` or `1:00 pm`'),
        ('24:00', '`00:00` of the next day'),
        ('10:00 11:00', 'one time'),
        ('10:00 +25:00', 'an offset of at most 24 hours'),
        ('2024-02-30', 'a day that exists'),
        ('feb 29, 2023', 'a day that exists'),
        ('10:00:05.1234567891', 'at most nine digits, or zeros after them'),
        ('10:00 tea', 'no other words'),
        ('10:00 (tea', 'a parenthesis that closes'),
    ]),
]

WARNING = """## To be careful with

A sign and a number after a time are the time's offset from UTC. A number after a date that has no year, and is written with dots or with the
month's name, is its year, unless a colon or a sign makes it something else. **The safe spelling is the shift first, then the date with its
year, then the time.**

| text | answer | |
|---|---|---|
%s
"""
WARNED = [
    ('10:00 +2 hours', '10:00 at offset +02:00, and one hour more: rarely what is meant'),
    ('10:00 2 hours', 'two hours after 10:00'),
    ('+2 hours 10:00', 'the same'),
    ('10:00 -1 day', '10:00 at offset -01:00, and one day more'),
    ('10:00 -90 minutes', 'no offset has 90 hours'),
    ('-1 day 10:00', '10:00 of the day before'),
    ('nov 5 24 hours', '5 November of 2024, and one hour: 24 is the year'),
    ('nov 5 2 weeks', '5 November of year 2, and one week'),
    ('31.1. 5 days', '31 January of year 5, and one day'),
    ('nov 5 10 pm', '5 November of year 10, and `pm` is left unread'),
    ('2 weeks nov 5', 'two weeks after 5 November'),
    ('nov 5 22:00', 'a colon: a time'),
    ('3-5', '3:00 at offset -05:00: write `3/5` for a date'),
    ('-2 days ago', 'two days on'),
    ('second month', 'one second and one month'),
]

TAIL = """## The numbers

| number | by a text under an accepted base | by a packet under an accepted base |
|---|---|---|
| 1 oversize | over 4096 bytes; a 65th item | more than 64 items |
| 2 foreign | a byte of 128 or more | never |
| 3 unread | no reader matches: most wrong texts, a month of 13 and an amount that is too large among them | never |
| 4 stopped | an offset beyond 24 hours; hour 0 with am or pm | never |
| 5 packet | never | the form of the packet or of an item |
| 6 twice | a second date or time | a second date, time, weekday or zone, or a zone after a time with an offset |
| 7 rival | never | a time with an offset after a zone |
| 8 pure | never | a pure number that is no hour and minute |
| 9 over, 10 under | a year above 2147485547 or below 0, after a shift | the same; 9 for a pure year too |
| 12 day | a day that the base's year does not have, as `2/29` under 2023 | the same, and of a pure year |
| 16 nanosecond | never | seconds with more nanoseconds than 1999999999 less the clock's |
| 18 sum | a shift by seconds whose sum with the moment leaves an i64 | the same; nanoseconds beyond a u32; a weekday too far |
| 22 fraction | a digit other than 0 after the ninth of a fraction | never |

A base that is refused gives its own number first: 9, or 11 to 17. 19 and 20 come from writing alone, and 20 only where the base's offset has
seconds. 21 comes from `seqtullo_read_profile` alone, which reads a date of ISO 8601 by itself (docs/SCOPE.md, 'The profile').

## The place

| number | what `place` counts | example |
|---|---|---|
| 2 | bytes: the index of the first byte of 128 or more | %s |
| 3, 4, 22 | bytes: where the item before ended, 0 without one. Blanks after it are not passed, but those after a year that follows dots or a month's name are the date's | %s, %s, %s, %s |
| 6, 7, 8 | items from 0: the one that breaks the rule | %s; a packet of a zone and a time with an offset: 7 at 1; a packet of a pure number of five digits: 8 at 0 |
| 5 | items from 0; 0 in the header; the number of items for digits left over | a second item of kind 9: 5 at 1; one item, and a digit that it does not use: 5 at 1 |
| all others | 0 | |
"""
PLACES = ['10:00 \udcc3\udca9', '10:00 tea', '31 jan 2024   tea', '10:00 +25:00', '10:00 1.0000000001 seconds', '10:00 2024-01-31 11:00']


def answers(texts):
    lines = b'\n'.join(t.encode('utf-8', 'surrogateescape') for t in [BASE] + texts) + b'\n'
    run = subprocess.run([os.path.join(ROOT, 'seqtullo')], input=lines, stdout=subprocess.PIPE, check=True)
    found = run.stdout.decode().splitlines()
    if len(found) != len(texts):
        sys.exit('%d answers to %d texts' % (len(found), len(texts)))
    return dict(zip(texts, found))


def quoted(text):
    shown = text.encode('utf-8', 'surrogateescape').decode('utf-8')
    return '`%s`' % shown if shown.strip() == shown else '`%s`' % shown.replace('   ', '···')


def row(text, answer, note):
    number, rest = answer.split(' ', 1)
    return '| %s | %s | %s |' % (quoted(text), '`%s`' % rest if number == '0' else '%s at %s' % (number, rest), note or '')


def page():
    texts = [t for _, _, rows in SECTIONS for t, _ in rows] + [t for t, _ in WARNED] + PLACES
    got = answers(texts)
    parts = [HEAD]
    for title, column, rows in SECTIONS:
        parts.append('## %s\n\n| text | answer | %s |\n|---|---|---|\n%s\n\n' % (title, column or '', '\n'.join(row(t, got[t], n) for t, n in rows)))
    parts.append(WARNING % ''.join(row(t, got[t], n) + '\n' for t, n in WARNED))
    parts.append(TAIL % tuple('%s: %s' % (quoted(t), ' at '.join(got[t].split(' '))) for t in PLACES))
    return ''.join(parts)


def main():
    wanted = page()
    if sys.argv[1:] == ['--check']:
        with open(PAGE, encoding='utf-8') as f:
            sys.exit(0 if f.read() == wanted else 'docs/TEXTS.md is not what the program answers: run tools/texts.py')
    if sys.argv[1:]:
        sys.exit(__doc__)
    with open(PAGE, 'w', encoding='utf-8') as f:
        f.write(wanted)


if __name__ == '__main__':
    main()
