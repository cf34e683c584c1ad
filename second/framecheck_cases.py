"""Cases for framecheck, written out from its rules before the program stood.

    framecheck_cases.py DIR            write DIR/stdin and DIR/stdout
    framecheck_cases.py DIR --check    and compare with second/framecheck.py

A case is a line without its byte 10, the answer without its byte 10, and the
reason. Long lines may be expressions; answers are always literal text.
"""

import os
import subprocess
import sys

CASES = [
    # Accepted frames.
    (b"F,0,0,1", b"F,0,0,1", "the shortest frame line"),
    (b"F,1,0,1", b"F,1,0,1", "one term at minute 0"),
    (b"F,9,9,9", b"F,9,9,9", "highest one-digit numbers"),
    (b"F,10,10,10", b"F,10,10,10", "zeros that are not leading"),
    (b"F,99,62,100", b"F,99,62,100", "two and three digits"),
    (b"F,1000,1,1000", b"F,1000,1,1000", "four digits"),
    (b"F,10000,1,60000", b"F,10000,1,60000", "five digits"),
    (b"F,0,63,1", b"F,0,63,1", "the last minute"),
    (b"F,65535,0,1", b"F,65535,0,1", "largest sum"),
    (b"F,0,0,65535", b"F,0,0,65535", "largest weight"),
    (b"F,65535,63,65535", b"F,65535,63,65535", "everything largest"),
    (b"F,65534,1,65529,2,65530", b"F,65534,1,65529,2,65530", "just below the largest"),
    (b"F,0,0,1,1,1", b"F,0,0,1,1,1", "neighbouring minutes"),
    (b"F,0,0,1,63,1", b"F,0,0,1,63,1", "first and last minute"),
    (b"F,0,62,1,63,1", b"F,0,62,1,63,1", "the last two minutes"),
    (b"F,0,9,1,10,1", b"F,0,9,1,10,1", "minutes rise as numbers, not as text"),
    (b"F,0,2,1,19,1,20,1", b"F,0,2,1,19,1,20,1", "minutes rise as numbers, three terms"),
    (b"F,5,1,9,2,8,3,7", b"F,5,1,9,2,8,3,7", "weights may fall"),
    (b"F,5,1,7,2,7,3,7,4,7", b"F,5,1,7,2,7,3,7,4,7", "weights may be equal"),
    (b"F,31337,3,411,17,2050,40,65520", b"F,31337,3,411,17,2050,40,65520", "ordinary, three terms"),
    (b"F,52001,0,12,8,7731,21,404,35,19,63,40960", b"F,52001,0,12,8,7731,21,404,35,19,63,40960", "ordinary, five terms"),
    (b"F,208,5,100,6,101,7,102,8,103,9,104,10,105,11,106,12,107",
     b"F,208,5,100,6,101,7,102,8,103,9,104,10,105,11,106,12,107", "ordinary, eight terms"),
    (b"F,3" + b"".join(b",%d,1" % m for m in range(15)),
     b"F,3,0,1,1,1,2,1,3,1,4,1,5,1,6,1,7,1,8,1,9,1,10,1,11,1,12,1,13,1,14,1", "15 terms"),
    (b"F,4" + b"".join(b",%d,1" % m for m in range(16)),
     b"F,4,0,1,1,1,2,1,3,1,4,1,5,1,6,1,7,1,8,1,9,1,10,1,11,1,12,1,13,1,14,1,15,1", "16 terms from minute 0"),
    (b"F,64" + b"".join(b",%d,%d" % (m, m + 4) for m in range(0, 64, 4)),
     b"F,64,0,4,4,8,8,12,12,16,16,20,20,24,24,28,28,32,32,36,36,40,40,44,44,48,48,52,52,56,56,60,60,64",
     "16 terms over the hour"),
    (b"F,65535" + b"".join(b",%d,65535" % m for m in range(48, 64)),
     b"F,65535,48,65535,49,65535,50,65535,51,65535,52,65535,53,65535,54,65535,55,65535"
     b",56,65535,57,65535,58,65535,59,65535,60,65535,61,65535,62,65535,63,65535",
     "the longest frame line, 151 bytes"),

    # 13: the first field is not F.
    (b"", b"?,refused,line,13,0", "empty line"),
    (b",", b"?,refused,line,13,0", "two empty fields"),
    (b",0,0,1", b"?,refused,line,13,0", "empty first field"),
    (b",F,0,0,1", b"?,refused,line,13,0", "F is not first"),
    (b"f,0,0,1", b"?,refused,line,13,0", "lower case"),
    (b"FF,0,0,1", b"?,refused,line,13,0", "two letters"),
    (b"FF", b"?,refused,line,13,0", "two letters and no more"),
    (b"E,0,0,1", b"?,refused,line,13,0", "the letter before F"),
    (b"G,0,0,1", b"?,refused,line,13,0", "the letter after F"),
    (b"O,P,2", b"?,refused,line,13,0", "another letter"),
    (b"S", b"?,refused,line,13,0", "another letter alone"),
    (b"X,1", b"?,refused,line,13,0", "another letter and a number"),
    (b"0,0,0,1", b"?,refused,line,13,0", "a number first"),
    (b"F0,0,1", b"?,refused,line,13,0", "the comma after F is lost"),
    (b"F;0;0;1", b"?,refused,line,13,0", "semicolons part no fields"),
    (b" F,0,0,1", b"?,refused,line,13,0", "blank before F"),
    (b"F ,0,0,1", b"?,refused,line,13,0", "blank after F"),
    (b"\tF,0,0,1", b"?,refused,line,13,0", "tab before F"),
    (b"\"F\",0,0,1", b"?,refused,line,13,0", "quotes are ordinary bytes"),
    (b" ", b"?,refused,line,13,0", "a blank alone"),
    (b"\r", b"?,refused,line,13,0", "a carriage return alone"),
    (b"F\r", b"?,refused,line,13,0", "carriage return belongs to the first field"),
    (b"\x00", b"?,refused,line,13,0", "a NUL alone"),
    (b"\x00F,0,0,1", b"?,refused,line,13,0", "NUL before F"),
    (b"F\x00,0,0,1", b"?,refused,line,13,0", "NUL after F"),
    (b"\xc6,0,0,1", b"?,refused,line,13,0", "F with the top bit set"),
    (b"F\xac0,0,1", b"?,refused,line,13,0", "comma with the top bit set parts no fields"),
    (b"\xef\xbb\xbfF,0,0,1", b"?,refused,line,13,0", "byte order mark before F"),
    (b"\xff\xfe\xfd", b"?,refused,line,13,0", "bytes over 127"),
    (b"?,refused,line,13,0", b"?,refused,line,13,0", "an answer read as a line"),
    (b"x,,-1,99999", b"?,refused,line,13,0", "13 before 15"),

    # 14: the number of fields.
    (b"F", b"F,refused,line,14,0", "no sum"),
    (b"F,0,0", b"F,refused,line,14,0", "a minute without weight"),
    (b"F,0,0,1,1", b"F,refused,line,14,0", "second minute without weight"),
    (b"F,7,1,2,3,4,5", b"F,refused,line,14,0", "third minute without weight"),
    (b"F,0,", b"F,refused,line,14,0", "empty field counts: sum and one more"),
    (b"F,0,0,1,", b"F,refused,line,14,0", "comma at the end of a good frame"),
    (b"F,,", b"F,refused,line,14,0", "14 before 15: two empty fields"),
    (b"F,,,,", b"F,refused,line,14,0", "14 before 15: four empty fields"),
    (b"F,,0,0,1", b"F,refused,line,14,0", "14 before 15: a comma doubled"),
    (b"F,x,1", b"F,refused,line,14,0", "14 before 15: bad sum"),
    (b"F,0,x", b"F,refused,line,14,0", "14 before 15: bad minute"),
    (b"F,0,0,1,\r", b"F,refused,line,14,0", "14 before 15: carriage return as a field"),
    (b"F,65536,0,1,00", b"F,refused,line,14,0", "14 before 15: two bad fields"),
    (b"F,0,0,1\rF,0,0,1", b"F,refused,line,14,0", "byte 13 ends no line"),
    (b"F,0,0,1\x0cF,0,0,1", b"F,refused,line,14,0", "byte 12 ends no line"),
    (b"F,0,5,1,4", b"F,refused,line,14,0", "14 before 11"),
    (b"F,0,5,0,6", b"F,refused,line,14,0", "14 before 12"),
    (b"F,1" + b",2" * 33, b"F,refused,line,14,0", "14 before 10: 16 pairs and a half"),
    (b"F,1" + b",2" * 35, b"F,refused,line,14,0", "14 before 10: 17 pairs and a half"),
    (b"F,refused,frame,11,2", b"F,refused,line,14,0", "an answer read as a line"),

    # 15: a field that is no number. Empty fields in every position.
    (b"F,", b"F,refused,line,15,2", "empty sum, no terms"),
    (b"F,,0,1", b"F,refused,line,15,2", "empty sum"),
    (b"F,0,,1", b"F,refused,line,15,4", "empty minute"),
    (b"F,0,0,", b"F,refused,line,15,6", "empty weight at the end"),
    (b"F,0,0,,1,1", b"F,refused,line,15,6", "empty weight inside"),
    (b"F,0,0,1,,2", b"F,refused,line,15,8", "empty second minute"),
    (b"F,0,0,1,1,", b"F,refused,line,15,10", "empty second weight at the end"),
    (b"F,,,", b"F,refused,line,15,2", "all empty"),
    (b"F,0,,", b"F,refused,line,15,4", "minute and weight empty"),
    (b"F,12345,10,200,,5", b"F,refused,line,15,15", "empty minute after wide fields"),
    # Letters and words.
    (b"F,x", b"F,refused,line,15,2", "15 before 10: bad sum, no terms"),
    (b"F,F", b"F,refused,line,15,2", "a letter is no number"),
    (b"F,F,0,1", b"F,refused,line,15,2", "a letter as sum"),
    (b"F,0,A,1", b"F,refused,line,15,4", "a letter as minute"),
    (b"F,0,0,Z", b"F,refused,line,15,6", "a letter as weight"),
    (b"F,0,a,1", b"F,refused,line,15,4", "lower case as minute"),
    (b"F,O,0,1", b"F,refused,line,15,2", "the letter O for a zero"),
    (b"F,0,0,l", b"F,refused,line,15,6", "the letter l for a one"),
    (b"F,12345,10,200,x,5", b"F,refused,line,15,15", "the offset counts bytes, not fields"),
    (b"F,1,0,1,1,1,2,1,3,x", b"F,refused,line,15,18", "fourth weight"),
    (b"F,0,1,2,3,45x", b"F,refused,line,15,10", "place is where the field begins, not the bad byte"),
    (b"F,0,1x,1", b"F,refused,line,15,4", "digits, then a letter"),
    (b"F,0,0,x1", b"F,refused,line,15,6", "a letter, then digits"),
    (b"F,0x10,0,1", b"F,refused,line,15,2", "no hexadecimal"),
    (b"F,1e3,0,1", b"F,refused,line,15,2", "no exponent"),
    (b"F,0,1.5,1", b"F,refused,line,15,4", "no decimal point"),
    (b"F,0,0,1_0", b"F,refused,line,15,6", "no underscore"),
    (b"F,\"1\",0,1", b"F,refused,line,15,2", "no quotes"),
    (b"F,/,0,1", b"F,refused,line,15,2", "the byte before 0"),
    (b"F,0,:,1", b"F,refused,line,15,4", "the byte after 9"),
    (b"F,0,0,1:", b"F,refused,line,15,6", "a digit, then the byte after 9"),
    # Leading zeros.
    (b"F,00,0,1", b"F,refused,line,15,2", "00 as sum"),
    (b"F,01,0,1", b"F,refused,line,15,2", "01 as sum"),
    (b"F,0,00,1", b"F,refused,line,15,4", "00 as minute"),
    (b"F,0,063,1", b"F,refused,line,15,4", "063 as minute"),
    (b"F,0,0,01", b"F,refused,line,15,6", "01 as weight"),
    (b"F,0,0,00", b"F,refused,line,15,6", "15 before 12: 00 as weight"),
    (b"F,0,0,065535", b"F,refused,line,15,6", "leading zero before the largest number"),
    (b"F,000000,0,1", b"F,refused,line,15,2", "six zeros"),
    # Too large.
    (b"F,65536,0,1", b"F,refused,line,15,2", "65536 as sum"),
    (b"F,0,65536,1", b"F,refused,line,15,4", "15 before 11: 65536 as minute"),
    (b"F,0,0,65536", b"F,refused,line,15,6", "65536 as weight"),
    (b"F,0,0,65537", b"F,refused,line,15,6", "65537 is not 1"),
    (b"F,65540,0,1", b"F,refused,line,15,2", "the fourth digit rises"),
    (b"F,65600,0,1", b"F,refused,line,15,2", "the third digit rises"),
    (b"F,66000,0,1", b"F,refused,line,15,2", "the second digit rises"),
    (b"F,70000,0,1", b"F,refused,line,15,2", "the first digit rises"),
    (b"F,0,0,99999", b"F,refused,line,15,6", "largest of five digits"),
    (b"F,100000,0,1", b"F,refused,line,15,2", "six digits"),
    (b"F,655350,0,1", b"F,refused,line,15,2", "65535 and one digit more"),
    (b"F,0,4294967297,1", b"F,refused,line,15,4", "2^32 + 1"),
    (b"F,0,0,18446744073709551617", b"F,refused,line,15,6", "2^64 + 1"),
    # Signs, blanks, tabs.
    (b"F,+1,0,1", b"F,refused,line,15,2", "plus before the sum"),
    (b"F,-1,0,1", b"F,refused,line,15,2", "minus before the sum"),
    (b"F,0,-0,1", b"F,refused,line,15,4", "minus before a minute"),
    (b"F,0,0,+1", b"F,refused,line,15,6", "plus before a weight"),
    (b"F,-,0,1", b"F,refused,line,15,2", "a sign alone"),
    (b"F, 1,0,1", b"F,refused,line,15,2", "blank before the sum"),
    (b"F,1 ,0,1", b"F,refused,line,15,2", "blank after the sum"),
    (b"F,1, 0,1", b"F,refused,line,15,4", "blank before a minute"),
    (b"F,1,0,1 ", b"F,refused,line,15,6", "blank at the end"),
    (b"F,1, ,1", b"F,refused,line,15,4", "a blank alone"),
    (b"F,1 2,0,1", b"F,refused,line,15,2", "blank inside a number"),
    (b"F,\t1,0,1", b"F,refused,line,15,2", "tab before the sum"),
    (b"F,1,0\t,1", b"F,refused,line,15,4", "tab after a minute"),
    (b"F,1,0,1\t", b"F,refused,line,15,6", "tab at the end"),
    # Carriage return, NUL, bytes over 127.
    (b"F,0,0,1\r", b"F,refused,line,15,6", "carriage return at the end"),
    (b"F,5\r", b"F,refused,line,15,2", "15 before 10: carriage return after the sum"),
    (b"F,0,0,1,1,\r", b"F,refused,line,15,10", "carriage return as the last field"),
    (b"F,0,0,1\x00", b"F,refused,line,15,6", "NUL at the end"),
    (b"F,\x00,0,1", b"F,refused,line,15,2", "NUL as sum"),
    (b"F,0,\x00" b"0,1", b"F,refused,line,15,4", "NUL before a minute"),
    (b"F,\xb1,0,1", b"F,refused,line,15,2", "1 with the top bit set"),
    (b"F,0\xac0,0,1", b"F,refused,line,15,2", "comma with the top bit set inside the sum"),
    (b"F,0,0,1\x8a", b"F,refused,line,15,6", "byte 10 with the top bit set"),
    (b"F,0,0,1\x85", b"F,refused,line,15,6", "byte 133 ends no line"),
    (b"F,0,0,\xff", b"F,refused,line,15,6", "byte 255 as weight"),
    (b"F,0,\xd9\xa1,1", b"F,refused,line,15,4", "a digit of another script"),
    (b"F,\xc3\xa9,0,\xc3\xa9", b"F,refused,line,15,2", "words over 127"),
    (b"F,0,1,1,\xc2\xb2,\xc2\xb3", b"F,refused,line,15,8", "raised digits"),
    # The first bad field, and 15 before what follows it.
    (b"F,0,a,b", b"F,refused,line,15,4", "two bad fields"),
    (b"F,a,b,c", b"F,refused,line,15,2", "all fields bad"),
    (b"F,0,0,1,x,,y,1", b"F,refused,line,15,8", "three bad fields"),
    (b"F,0,64,x", b"F,refused,line,15,7", "15 before 11: the minute is earlier"),
    (b"F,0,9,1,5,x", b"F,refused,line,15,10", "15 before 11: falling minute"),
    (b"F,0,1,0,2,x", b"F,refused,line,15,10", "15 before 12: the weight 0 is earlier"),
    (b"F,0" + b",1,1" * 16 + b",1,x", b"F,refused,line,15,70", "15 before 10: 17 terms"),

    # 10: the number of terms.
    (b"F,0", b"F,refused,frame,10,0", "no terms"),
    (b"F,7", b"F,refused,frame,10,0", "no terms, one digit"),
    (b"F,65535", b"F,refused,frame,10,0", "no terms, largest sum"),
    (b"F,5" + b"".join(b",%d,1" % m for m in range(17)), b"F,refused,frame,10,0", "17 good terms"),
    (b"F,5" + b"".join(b",%d,1" % m for m in range(18)), b"F,refused,frame,10,0", "18 good terms"),
    (b"F,5" + b"".join(b",%d,1" % m for m in range(32)), b"F,refused,frame,10,0", "32 good terms"),
    (b"F,65535" + b"".join(b",%d,65535" % m for m in range(47, 64)), b"F,refused,frame,10,0", "17 wide terms"),
    (b"F,1" + b",64,1" * 17, b"F,refused,frame,10,0", "10 before 11: minutes over 63"),
    (b"F,1" + b",5,1" * 17, b"F,refused,frame,10,0", "10 before 11: equal minutes"),
    (b"F,1" + b"".join(b",%d,0" % m for m in range(17)), b"F,refused,frame,10,0", "10 before 12"),
    (b"F,1" + b",0,0" * 40, b"F,refused,frame,10,0", "10 before 11 and 12"),

    # 11: minutes over 63, equal, or falling.
    (b"F,0,64,1", b"F,refused,frame,11,0", "64 as the first minute"),
    (b"F,0,65535,1", b"F,refused,frame,11,0", "65535 as the first minute"),
    (b"F,0,100,1", b"F,refused,frame,11,0", "three digits"),
    (b"F,0,256,1", b"F,refused,frame,11,0", "256 is not 0"),
    (b"F,0,0,1,257,1", b"F,refused,frame,11,1", "257 is not 1"),
    (b"F,0,63,1,64,1", b"F,refused,frame,11,1", "64 as the second minute"),
    (b"F,0,1,1,2,1,65535,1", b"F,refused,frame,11,2", "65535 as the third minute"),
    (b"F,0,0,1,0,1", b"F,refused,frame,11,1", "minute 0 twice"),
    (b"F,0,63,1,63,1", b"F,refused,frame,11,1", "minute 63 twice"),
    (b"F,5,10,1,20,2,20,3,30,4", b"F,refused,frame,11,2", "equal minutes inside"),
    (b"F,0,1,1,0,1", b"F,refused,frame,11,1", "falling to 0"),
    (b"F,0,63,1,0,1", b"F,refused,frame,11,1", "falling from the last minute to the first"),
    (b"F,0,10,1,9,1", b"F,refused,frame,11,1", "falling as numbers, not as text"),
    (b"F,5,1,1,2,2,3,3,2,4", b"F,refused,frame,11,3", "falling at the fourth term"),
    (b"F,5,10,1,5,1,6,1", b"F,refused,frame,11,1", "rises again after the bad one, below the first"),
    (b"F,5,10,1,5,1,11,1", b"F,refused,frame,11,1", "rises again after the bad one, above the first"),
    (b"F,0,64,1,65,1", b"F,refused,frame,11,0", "two minutes over 63"),
    (b"F,0,64,1,3,1", b"F,refused,frame,11,0", "falls after a minute over 63"),
    (b"F,0,5,1,4,1,64,1", b"F,refused,frame,11,1", "falling, then over 63"),
    (b"F,0,5,1,64,1,4,1", b"F,refused,frame,11,1", "over 63, then falling"),
    (b"F,0,3,1,2,1,1,1,0,1", b"F,refused,frame,11,1", "falling all the way"),
    (b"F,0" + b"".join(b",%d,1" % m for m in range(15, -1, -1)), b"F,refused,frame,11,1", "16 terms falling"),
    (b"F,0" + b"".join(b",%d,1" % m for m in range(15)) + b",14,1", b"F,refused,frame,11,15", "last of 16 terms equal"),
    (b"F,0" + b"".join(b",%d,1" % m for m in range(49, 65)), b"F,refused,frame,11,15", "last of 16 terms over 63"),
    (b"F,0,64,0", b"F,refused,frame,11,0", "11 before 12: same term"),
    (b"F,0,1,0,1,1", b"F,refused,frame,11,1", "11 before 12: the weight 0 is earlier, equal minute"),
    (b"F,0,0,0,64,1", b"F,refused,frame,11,1", "11 before 12: the weight 0 is earlier, minute over 63"),
    (b"F,0,1,0,2,0,3,0,2,9", b"F,refused,frame,11,3", "11 before 12: three weights 0 are earlier"),
    (b"F,0,64,1,65,0", b"F,refused,frame,11,0", "11 before 12: the weight 0 is later"),

    # 12: a weight of 0.
    (b"F,0,0,0", b"F,refused,frame,12,0", "weight 0, all zeros"),
    (b"F,65535,63,0", b"F,refused,frame,12,0", "weight 0 at the last minute"),
    (b"F,9,1,1,2,0", b"F,refused,frame,12,1", "second weight"),
    (b"F,9,1,0,2,1", b"F,refused,frame,12,0", "first weight of two"),
    (b"F,9,1,0,2,0", b"F,refused,frame,12,0", "two weights 0"),
    (b"F,9,1,1,2,0,3,0", b"F,refused,frame,12,1", "second and third weight"),
    (b"F,9,1,5,2,5,3,0,4,5", b"F,refused,frame,12,2", "third of four weights"),
    (b"F,0" + b"".join(b",%d,0" % m for m in range(16)), b"F,refused,frame,12,0", "16 weights 0"),
    (b"F,0" + b"".join(b",%d,10" % m for m in range(15)) + b",63,0", b"F,refused,frame,12,15", "last of 16 weights"),
    (b"F,0" + b"".join(b",%d,7" % m for m in range(10)) + b",40,0,41,7", b"F,refused,frame,12,10", "eleventh of 12 weights"),

    # Length of the line: 255 and 256 bytes are read, 257 are not.
    (b"F,0" + b",1,1" * 63, b"F,refused,frame,10,0", "255 bytes, 63 terms"),
    (b"F,10" + b",1,1" * 63, b"F,refused,frame,10,0", "256 bytes, 63 terms"),
    (b"F,100" + b",1,1" * 63, b"?,refused,line,13,0", "257 bytes, 63 terms"),
    (b"F,2,0,1", b"F,2,0,1", "a good frame after a line too long"),
    (b"F,100" + b",1" * 125, b"F,refused,line,14,0", "255 bytes, no pairs"),
    (b"F,1000" + b",1" * 125, b"F,refused,line,14,0", "256 bytes, no pairs"),
    (b"F,10000" + b",1" * 125, b"?,refused,line,13,0", "257 bytes, no pairs"),
    (b"F," + b"1" * 253, b"F,refused,line,15,2", "255 bytes, one long row of digits"),
    (b"F," + b"1" * 254, b"F,refused,line,15,2", "256 bytes, one long row of digits"),
    (b"F," + b"1" * 255, b"?,refused,line,13,0", "257 bytes, one long row of digits"),
    (b"F" + b"," * 254, b"F,refused,line,14,0", "255 bytes, only commas"),
    (b"F" + b"," * 255, b"F,refused,line,15,2", "256 bytes, only commas"),
    (b"F" + b"," * 256, b"?,refused,line,13,0", "257 bytes, only commas"),
    (b"F,10" + b",1,1" * 62 + b",1,x", b"F,refused,line,15,255", "256 bytes, the last is bad"),
    (b"F,0" + b",1,1" * 62 + b",123,", b"F,refused,line,15,256", "256 bytes, empty field at the end"),
    (b"F,10" + b",1,1" * 62 + b",123,", b"?,refused,line,13,0", "257 bytes, empty field at the end"),
    (b"F,10" + b",1,1" * 63 + b"\r", b"?,refused,line,13,0", "a carriage return is the 257th byte"),
    (b"F" * 256, b"?,refused,line,13,0", "256 bytes, not F"),
    (b"X" * 257, b"?,refused,line,13,0", "257 bytes, not F"),
    (b"F,0,0,1" + b",2,2" * 64, b"?,refused,line,13,0", "263 bytes: 256 more than a good frame"),
    (b"F,3,0,1", b"F,3,0,1", "a good frame after it"),
    (b"F,0" + b",1,1" * 127 + b",", b"?,refused,line,13,0", "512 bytes"),
    (b"F," + b"0" * 2998, b"?,refused,line,13,0", "3000 bytes, digits"),
    (b"F,1" + b",1,1" * 749 + b",", b"?,refused,line,13,0", "3000 bytes, fields"),
    (b"\x00" * 3000, b"?,refused,line,13,0", "3000 bytes of NUL"),
    (b"F,4,0,1,1,1", b"F,4,0,1,1,1", "a good frame after very long lines"),

    # The last line lacks its byte 10.
    (b"F,40000,7,3,8,512,60,1", b"F,40000,7,3,8,512,60,1", "last line without byte 10"),
]

# Whole inputs, byte 10 written out; used by --check only.
INPUTS = [
    (b"", b"", "empty input"),
    (b"\n", b"?,refused,line,13,0\n", "one empty line"),
    (b"\n\n", b"?,refused,line,13,0\n?,refused,line,13,0\n", "two empty lines"),
    (b"F,0,0,1", b"F,0,0,1\n", "one line without byte 10"),
    (b"F,0,0,1\n", b"F,0,0,1\n", "one line"),
    (b"F,0,0,1\n\n", b"F,0,0,1\n?,refused,line,13,0\n", "a line and an empty line"),
    (b"\nF,0,0,1", b"?,refused,line,13,0\nF,0,0,1\n", "an empty line first"),
    (b"F,0,0,1\r\nF", b"F,refused,line,15,6\nF,refused,line,14,0\n", "byte 13 before byte 10"),
    (b"F,10" + b",1,1" * 63, b"F,refused,frame,10,0\n", "256 bytes without byte 10"),
    (b"F,100" + b",1,1" * 63, b"?,refused,line,13,0\n", "257 bytes without byte 10"),
    (b"F,0,0,1" + b",2,2" * 16384 + b"\nF,0,0,1\n", b"?,refused,line,13,0\nF,0,0,1\n",
     "65536 bytes more than a good frame"),
]


def run_second(data):
    program = os.path.join(os.path.dirname(os.path.abspath(__file__)), "framecheck.py")
    done = subprocess.run([sys.executable, program], input=data, stdout=subprocess.PIPE)
    if done.returncode != 0:
        sys.exit("framecheck.py ended with status %d" % done.returncode)
    return done.stdout


def check(data):
    bad = 0
    # split leaves one empty piece after the last byte 10.
    answers = run_second(data).split(b"\n")
    if len(answers) != len(CASES) + 1 or answers[-1] != b"":
        print("%d cases, but %d answers" % (len(CASES), len(answers) - 1))
        bad += 1
    for (line, expected, reason), answer in zip(CASES, answers):
        if answer != expected:
            print("%s: %r: expected %r, got %r" % (reason, line[:80], expected, answer))
            bad += 1
    for data, expected, reason in INPUTS:
        answer = run_second(data)
        if answer != expected:
            print("%s: expected %r, got %r" % (reason, expected, answer))
            bad += 1
    print("%d cases and %d whole inputs, %d differences" % (len(CASES), len(INPUTS), bad))
    return bad == 0


def main():
    names = [word for word in sys.argv[1:] if word != "--check"]
    if len(names) != 1:
        sys.exit(__doc__)
    lines = [line for line, _, _ in CASES]
    if any(b"\n" in line for line in lines) or lines[-1] == b"":
        sys.exit("a case holds a byte 10, or the last case is empty")
    if len(set(lines)) != len(lines):
        sys.exit("a line stands twice")
    data = b"\n".join(lines)
    with open(os.path.join(names[0], "stdin"), "wb") as file:
        file.write(data)
    with open(os.path.join(names[0], "stdout"), "wb") as file:
        for _, expected, _ in CASES:
            file.write(expected + b"\n")
    if "--check" in sys.argv[1:] and not check(data):
        sys.exit(1)


if __name__ == "__main__":
    main()
