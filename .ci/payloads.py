"""Tables of messages and payloads that `.ci/wire` reads.

What stands as bytes was written by the real execnet 1.9, by `Message(code, channel, payload).to_io(..)` and
`dumps_internal(value)` of execnet.gateway_base, but for what it does not write: the spellings of older versions, low
integers, keys that are the same in Python, and bytes that are no payload. The texts are those of docs/USING.md.
"""

# Payloads, and their values as they are printed.
VALUES = [
    (b"LQ", "None"),
    (b"RQ", "True"),
    (b"CQ", "False"),
    (b"F\0\0\0\0Q", "0"),
    (b"F\xff\xff\xff\xffQ", "-1"),
    (b"F\x7f\xff\xff\xffQ", "2147483647"),
    (b"H\0\0\0\n2147483648Q", "2147483648"),
    (b"F\x80\0\0\0Q", "-2147483648"),
    (b"H\0\0\0'170141183460469231731687303715884105727Q", "170141183460469231731687303715884105727"),
    (b"A\0\0\0\0Q", "bytes()"),
    (b"A\0\0\0\x02\0\xffQ", "bytes(00ff)"),
    (b"N\0\0\0\0Q", "\"\""),
    (b"N\0\0\0\x08runtestsQ", "\"runtests\""),
    (b"N\0\0\0\x06a\"b\\c\x01Q", "\"a\\\"b\\\\c\\x01\""),
    (b"N\0\0\0\x09\xe6\x97\xa5\xe6\x9c\xac\xe8\xaa\x9eQ", "\"日本語\""),
    (b"K\0\0\0\0Q", "[]"),
    (b"K\0\0\0\x01F\0\0\0\0F\0\0\0\x01PQ", "[1]"),
    (b"K\0\0\0\x02F\0\0\0\0K\0\0\0\0PF\0\0\0\x01K\0\0\0\x01F\0\0\0\0LPPQ", "[[], [None]]"),
    (b"@\0\0\0\0Q", "()"),
    (b"F\0\0\0\x01@\0\0\0\x01Q", "(1,)"),
    (b"F\0\0\0\x01F\0\0\0\x02@\0\0\0\x02N\0\0\0\x01x@\0\0\0\x02Q", "((1, 2), \"x\")"),
    (b"O\0\0\0\0Q", "set()"),
    (b"F\0\0\0\x05O\0\0\0\x01Q", "{5}"),
    (b"E\0\0\0\0Q", "frozenset()"),
    (b"F\0\0\0\x01N\0\0\0\x01a@\0\0\0\x02E\0\0\0\x01Q", "frozenset({(1, \"a\")})"),
    (b"JQ", "{}"),
    (b"JN\0\0\0\x05suiteN\0\0\0\x06s.tomlPN\0\0\0\x04distN\0\0\0\x04loadPQ", "{\"suite\": \"s.toml\", \"dist\": \"load\"}"),
    (b"JF\0\0\0\x01JF\0\0\0\x02K\0\0\0\x01F\0\0\0\0F\0\0\0\x03PPPQ", "{1: {2: [3]}}"),
    (b"JF\0\0\0\x01N\0\0\0\x01k@\0\0\0\x02A\0\0\0\x01vPQ", "{(1, \"k\"): bytes(76)}"),
    (b"B\0\0\0\x01Q", "channel(1)"),
    (b"K\0\0\0\x02F\0\0\0\0B\0\0\0\x04PF\0\0\0\x01B\0\0\0\x02@\0\0\0\x01PQ", "[channel(4), (channel(2),)]"),
    (b"N\0\0\0\x08runtestsJN\0\0\0\x07indicesK\0\0\0\x02F\0\0\0\0F\0\0\0\0PF\0\0\0\x01F\0\0\0\x01PP@\0\0\0\x02Q", "(\"runtests\", {\"indices\": [0, 1]})"),
    (b"N\0\0\0\x10collectionfinishJN\0\0\0\x03idsK\0\0\0\x02F\0\0\0\0N\0\0\0\x07a.py::tPF\0\0\0\x01N\0\0\0\x07b.py::tPP@\0\0\0\x02Q", "(\"collectionfinish\", {\"ids\": [\"a.py::t\", \"b.py::t\"]})"),
    (b"N\0\0\0\x08logstartJN\0\0\0\nitem_indexF\0\0\0\0PN\0\0\0\x03logB\0\0\0\x02P@\0\0\0\x02Q", "(\"logstart\", {\"item_index\": 0, \"log\": channel(2)})"),
    (b"N\0\0\0\x19runtest_protocol_completeJN\0\0\0\nitem_indexF\0\0\0\0PN\0\0\0\x07outcomeN\0\0\0\x06failedPN\0\0\0\x04codeF\0\0\0\x03PN\0\0\0\x08durationF\0\0\0\x0cP@\0\0\0\x02Q", "(\"runtest_protocol_complete\", {\"item_index\": 0, \"outcome\": \"failed\", \"code\": 3, \"duration\": 12})"),
    (b"N\0\0\0\0LN\0\0\0\x09run_testsJN\0\0\0\x05suiteN\0\0\0\x06s.tomlPN\0\0\0\x04distN\0\0\0\x09workstealP@\0\0\0\x04Q", "(\"\", None, \"run_tests\", {\"suite\": \"s.toml\", \"dist\": \"worksteal\"})"),
    (b"JF\x7f\xff\xff\xffFqf\xe7yN\0\0\0\x08runtests@\0\0\0\x01H\0\0\0\x0d2022545314085O\0\0\0\x03PN\0\0\0\x09\xe6\x97\xa5\xe6\x9c\xac\xe8\xaa\x9eA\0\0\0\x09\xe58\xe6\xd8%\x9b\x82&\xbcPQ", "{2147483647: {1902569337, (\"runtests\",), 2022545314085}, \"日本語\": bytes(e538e6d8259b8226bc)}"),
    (b"JN\0\0\0\0K\0\0\0\x01F\0\0\0\0N\0\0\0\x0c\xf0\xbf\x9c\x9b\xf3\xb4\xa4\xb6\xf1\xa7\xa7\xa5PPQ", "{\"\": [\"𿜛󴤶񧧥\"]}"),
    (b"H\0\0\0\x0b11954128147Q", "11954128147"),
    (b"N\0\0\0\x05r\xf1\xa4\xaa\x89Q", "\"r񤪉\""),
    (b"A\0\0\0\n\xcc6\xfb\"'j\x0e\xb9{(Q", "bytes(cc36fb22276a0eb97b28)"),
    (b"N\0\0\0\x06\xd4\xa0\xf1\xb2\x8b\x9dN\0\0\0\x0bc\xcb\xae\xc8\xbf\xf3\xb3\x8d\x8cwgN\0\0\0\x01aB\x7f\xff\xff\xffO\0\0\0\x04Q", "{\"Ԡ񲋝\", \"cˮȿ󳍌wg\", \"a\", channel(2147483647)}"),
    (b"K\0\0\0\x02F\0\0\0\0LPF\0\0\0\x01H\0\0\0\x1418446744073709551616PQ", "[None, 18446744073709551616]"),
    (b"N\0\0\0\x16\xf1\x9e\xa1\xa1\xf1\xa3\x9e\xad\x10\xf2\x99\xb0\xb7\xf1\xb2\xa1\x95\xf1\xa3\xbc\xb7UQ", "\"񞡡񣞭\\x10򙰷񲡕񣼷U\""),
    (b"LB\0\0\0\x04F\xff\xff\xff\xc8@\0\0\0\x03RN\0\0\0\x04\xf3\x8f\x80\x8dE\0\0\0\x02@\0\0\0\0B\0\0\x10\x8c@\0\0\0\x01E\0\0\0\x04N\0\0\0\x01\\F\0\0\0\x09E\0\0\0\x03Q", "frozenset({frozenset({(None, channel(4), -56), frozenset({True, \"󏀍\"}), (), (channel(4236),)}), \"\\\\\", 9})"),
    (b"K\0\0\0\x01F\0\0\0\0N\0\0\0\x04\xf0\x9f\x98\x80PQ", "[\"😀\"]"),
    (b"L@\0\0\0\x01Q", "(None,)"),
    (b"K\0\0\0\x02F\0\0\0\0E\0\0\0\0PF\0\0\0\x01JPL@\0\0\0\x02Q", "([frozenset(), {}], None)"),
    (b"B\0\0\n{Q", "channel(2683)"),
    (b"JB\0\0\0\x01F\x7f\xff\xff\xffE\0\0\0\x01PN\0\0\0\x06a\"b\\c\x01CF\0\0\0\xddN\0\0\0\x01\x7fN\0\0\0\x0e\xf4\x84\xbd\x8c\xf2\xb2\x99\x9e[\xf2\xaf\xbb\x94\nL@\0\0\0\x04LF\0\0\0\xfcO\0\0\0\x02JN\0\0\0\x14\xf0\xb1\xb8\xb5\xd2\x8f\xf3\xb0\x90\x8f\xf2\xb4\xbd\x9b\xd5\x84\xf3\x92\xb7\xaa@\0\0\0\x05PQ", "{channel(1): frozenset({2147483647}), \"a\\\"b\\\\c\\x01\": (False, (221, \"\\x7f\", \"􄽌򲙞[򯻔\\x0a\", None), {None, 252}, {}, \"𱸵ҏ󰐏򴽛Մ󒷪\")}"),
    (b"N\0\0\0\x11\xcf\xb1\xf0\x91\x85\xb8\n<\xc6\xb4\xf2\x82\x88\xac\xc4\x8c F\0\0\0\x1fA\0\0\0\x0c\xe1\xc8\x9aYSI\x85m]k\x81\x8cE\0\0\0\x01F\0\0\0\x8bL@\0\0\0\x02@\0\0\0\x04O\0\0\0\x01Q", "{(\"ϱ𑅸\\x0a<ƴ򂈬Č \", 31, frozenset({bytes(e1c89a595349856d5d6b818c)}), (139, None))}"),
    (b"K\0\0\0\x03F\0\0\0\0LPF\0\0\0\x01F\x80\0\0\0PF\0\0\0\x02N\0\0\0\0PQ", "[None, -2147483648, \"\"]"),
]

# Integers that execnet cannot write; they are spelled as the large ones are.
LOW_INTEGERS = [
    (b"H\0\0\0\x0b-2147483649Q", "-2147483649"),
    (b"H\0\0\0(-170141183460469231731687303715884105728Q", "-170141183460469231731687303715884105728"),
]

# Keys that execnet holds for the same, so that it writes one of them, and that are two here.
SAME_IN_PYTHON = [
    (b"RF\0\0\0\x01O\0\0\0\x02Q", "{True, 1}"),
    (b"F\0\0\0\x01F\0\0\0\x02E\0\0\0\x02F\0\0\0\x02F\0\0\0\x01E\0\0\0\x02O\0\0\0\x02Q", "{frozenset({1, 2}), frozenset({2, 1})}"),
]

# Payloads that are read and never written, and what is written in their place.
OTHER_SPELLINGS = [
    (b"M\0\0\0\x02a\xe9Q", b"N\0\0\0\x03a\xc3\xa9Q"),
    (b"S\0\0\0\x02\xc3\xa9Q", b"N\0\0\0\x02\xc3\xa9Q"),
    (b"G\0\0\0\x07Q", b"F\0\0\0\x07Q"),
    (b"H\0\0\0\x017Q", b"F\0\0\0\x07Q"),
    (b"I\0\0\0\n2147483648Q", b"H\0\0\0\n2147483648Q"),
    (b"H\0\0\0\x0c002147483648Q", b"H\0\0\0\n2147483648Q"),
    (b"K\0\0\0\x01H\0\0\0\x010LPQ", b"K\0\0\0\x01F\0\0\0\0LPQ"),
]

# Bytes that are no payload, the place of the first fault, and its name.
FAULTS = [
    (b"D\0\0\0\0\0\0\0\0Q", 0, "FloatOpcode"),
    (b"LT\0Q", 1, "FloatOpcode"),
    (b"K\0\0\0\x01F\0\0\0\x01LPQ", 11, "ListOrder"),
    (b"K\0\0\0\x01Q", 5, "ListOrder"),
    (b"K\0\0\0\0F\0\0\0\0LPQ", 11, "ListOrder"),
    (b"K\0\0\0\x01@\0\0\0\x01Q", 5, "ListOrder"),
    (b"LQL", 2, "Leftover"),
    (b"LLQ", 2, "Leftover"),
    (b"L", 1, "NoStop"),
    (b"", 0, "NoStop"),
    (b"?Q", 0, "UnknownOpcode"),
    (b"F\0\0", 0, "Short"),
    (b"A\0\0\0\x02a", 0, "Short"),
    (b"A\x80\0\0\0Q", 0, "BadLength"),
    (b"K\xff\xff\xff\xffQ", 0, "BadLength"),
    (b"N\0\0\0\x01\xffQ", 0, "BadText"),
    (b"S\0\0\0\x01\xffQ", 0, "BadText"),
    (b"B\0\0\0\0Q", 0, "BadNumber"),
    (b"B\x80\0\0\0Q", 0, "BadNumber"),
    (b"H\0\0\0\x01-Q", 0, "BadNumber"),
    (b"H\0\0\0\x02+7Q", 0, "BadNumber"),
    (b"H\0\0\0\0Q", 0, "BadNumber"),
    (b"H\0\0\0(-170141183460469231731687303715884105729Q", 0, "BadNumber"),
    (b"H\0\0\0'170141183460469231731687303715884105728Q", 0, "BadNumber"),
    (b"Q", 0, "Misplaced"),
    (b"LLLPQ", 3, "Misplaced"),
    (b"K\0\0\0\0E\0\0\0\x01Q", 5, "Unhashable"),
    (b"JO\0\0\0\0LPQ", 7, "Unhashable"),
    (b"LLO\0\0\0\x02Q", 2, "Repeated"),
    (b"JLLPLLPQ", 6, "Repeated"),
    (b"JN\0\0\0\x01aLPN\0\0\0\x01aLPQ", 16, "Repeated"),
]
