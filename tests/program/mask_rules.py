"""Checks which files of rules are refused, and what rules make of contents and of recordings, by the command `mask`."""
import itertools
import sys

from tests.program.asked import asks_of_files, judged
from tests.program.worked_runs import record, refusal

# Files of rules, and the line and the cause that each is refused for.
REFUSED = [
    (b"drop event output\nhide event output\n", "line 2: BadRule"),
    (b"drop response threads", "line 1: BadRule"),
    (b"blank event process", "line 1: BadRule"),
    (b"blank event process body. id", "line 1: BadRule"),
    (b'blank event process body."id', "line 1: BadRule"),
    (b"\n# \xff\n", "line 2: NotUtf8"),
    (b"blank event * seq", "line 1: BadPlace"),
    (b"digits request * command", "line 1: BadPlace"),
    (b"blank response threads success", "line 1: BadPlace"),
    (b"blank response * request_seq", "line 1: BadPlace"),
    (b"blank response * body.variables[].variablesReference", "line 1: BadPlace"),
    (b'blank event process body.id\n\nblank event process "body" . id\n', "line 3: BadRule"),
    (b'blank event process body.id\n\nblank event "process" body."i\\u0064" # again\n', "line 3: Repeated"),
    (b"drop event *\r\ndrop event *\r\n", "line 2: Repeated"),
    # Two actions that exclude each other, in either order.
    (b"digits event output body.output\nuuid event output body.output\n", "line 2: Clash"),
    (b"uuid event output body.output\ndigits event output body.output\n", "line 2: Clash"),
    (b"uuid event a x\nhex event a x\ndigits event a x\n", "line 3: Clash"),
    (b"hex event a x\nuuid event b x\ndigits event * x\n", "line 3: Clash"),
    (b"drop event output category", "line 1: BadRule"),
    (b"drop event output category=", "line 1: BadRule"),
    (b"drop event output category= telemetry", "line 1: BadRule"),
    (b"drop event output category =telemetry", "line 1: BadRule"),
    (b"drop event outputcategory=telemetry x", "line 1: BadRule"),
    (b"drop event output group=telemetry", "line 1: BadRule"),
    (b"drop event output categoryx=telemetry", "line 1: BadRule"),
    (b"drop event output category=a.b", "line 1: BadRule"),
    (b'drop event output category="a', "line 1: BadRule"),
    (b"drop event output category=*", "line 1: BadRule"),
    (b"drop event output category=telemetry category=stdout", "line 1: BadRule"),
    (b"drop request output category=telemetry", "line 1: BadRule"),
    (b'drop event output category=a\ndrop event output category="\\u0061" # again\n', "line 2: Repeated"),
    (b"drop event * category=a\ndrop event a category=a\ndrop event * category=a\n", "line 3: Repeated"),
    (b"drop event output category=a\nblank event * body.category\n", "line 2: Clash"),
    (b"digits event output body.category\ndrop event output category=a\n", "line 2: Clash"),
    (b"hex event output body.category\n\ndrop event * category=a\n", "line 3: Clash"),
    # An action for the events of one category.
    (b"digits request output category=a arguments.x", "line 1: BadRule"),
    (b"digits response output category=a body.x", "line 1: BadRule"),
    (b"digits event output category=a", "line 1: BadRule"),
    (b"digits event output category= body.x", "line 1: BadRule"),
    (b"digits event output category=abody.x", "line 1: BadRule"),
    (b"digits event output category=a category=b body.x", "line 1: BadRule"),
    (b"digits event output body.x category=a", "line 1: BadRule"),
    (b"blank event output category=a body", "line 1: BadPlace"),
    (b"blank event * category=a body.category", "line 1: BadPlace"),
    (b"blank event output category=a body.x\nblank event * body\n", "line 2: Clash"),
    (b"digits event * body.category\nhex event output category=a body.x\n", "line 2: Clash"),
    (b"digits event output category=a body.x\nuuid event output body.x\n", "line 2: Clash"),
    (b'blank event output category=a body.x\nblank event output category="\\u0061" body.x\n', "line 2: Repeated"),
    # A place that no rule may have, and a rule twice, are reported first.
    (b"digits event output body.category\ndrop event a category=a\ndigits event output body.category\n", "line 3: Repeated"),
    (b"blank event a v[x].y", "line 1: BadRule"),
    (b"blank event a v[0].y", "line 1: BadRule"),
    (b"blank event a v['x'].y", "line 1: BadRule"),
    (b'blank event a v["x].y', "line 1: BadRule"),
    (b'blank event a v["x".y', "line 1: BadRule"),
    (b'blank event a v["x" ].y', "line 1: BadRule"),
    (b'blank event a v[ "x"].y', "line 1: BadRule"),
    (b'blank event a v["x""y"].y', "line 1: BadRule"),
    (b'blank event a v["\\x"].y', "line 1: BadRule"),
    (b'blank event a v["x"]y', "line 1: BadRule"),
    (b'blank event a ["x"].y', "line 1: BadRule"),
    (b'blank event a v["x"].y\nblank event a v["\\u0078"].y # again\n', "line 2: Repeated"),
    (b'blank response threads body.threads["main"].id', "line 1: BadPlace"),
    (b'blank event a v["x"].name', "line 1: BadPlace"),
    (b'blank event a v["x"].w[].y\nhex event a v["x"].w["y"]."name"\n', "line 2: BadPlace"),
    # A change of one name may make it another one.
    (b'blank event a v["x"].y\nblank event a v["z"].name\n', "line 2: BadPlace"),
    (b'digits event a v["x"].y\nuuid event a v["x"].y\n', "line 2: Clash"),
    (b'digits event a v["x"].y\nuuid event a v[].y\n', "line 2: Clash"),
    (b"per-stop\n# again\n\tper-stop # the same\n", "line 3: Repeated"),
    (b"swap event a event b\nper-stop\nper-stop\n", "line 3: Repeated"),
    # Members that are filled in.
    (b"fill", "line 1: BadRule"),
    (b"fill event a", "line 1: BadRule"),
    (b"fill event a x", "line 1: BadRule"),
    (b"fill event a x null", "line 1: BadRule"),
    (b"fill event a x []", "line 1: BadRule"),
    (b"fill event a x {}", "line 1: BadRule"),
    (b"fill event a x 1.5", "line 1: BadRule"),
    (b"fill event a x 1e3", "line 1: BadRule"),
    (b"fill event a x 01", "line 1: BadRule"),
    (b"fill event a x +1", "line 1: BadRule"),
    (b"fill event a x 18446744073709551616", "line 1: BadRule"),
    (b"fill event a x -9223372036854775809", "line 1: BadRule"),
    (b"fill event a x text", "line 1: BadRule"),
    (b"fill event a x True", "line 1: BadRule"),
    (b'fill event a x "text', "line 1: BadRule"),
    (b"fill event a x 1 2", "line 1: BadRule"),
    (b"fill event a category=b x 1", "line 1: BadRule"),
    (b"fills event a x 1", "line 1: BadRule"),
    (b"fill event * type 1", "line 1: BadPlace"),
    (b"fill request * command 1", "line 1: BadPlace"),
    (b"fill event * event 1", "line 1: BadPlace"),
    (b'fill response * "success" true', "line 1: BadPlace"),
    (b"fill event a x[] 1", "line 1: BadPlace"),
    (b'fill event a v["x"].y 1', "line 1: BadPlace"),
    (b"fill event a x 1\nfill event a x 2\n", "line 2: Repeated"),
    (b'fill event * seq 0\n\nfill event * "s\\u0065q" 0 # again\n', "line 3: Repeated"),
    (b"fill event * x 1\nfill event a x 2\n", "line 2: Clash"),
    (b"fill event a v[].x 1\nfill event * v[].x 1\n", "line 2: Clash"),
    (b"fill event a body.x 1\nblank event a body\n", "line 2: Clash"),
    (b"blank event * body\nfill event a body.x.y 1\n", "line 2: Clash"),
    (b'blank event a v["x"]\nfill event a v[].y 1\n', "line 2: Clash"),
    # Elements that are omitted.
    (b"omit", "line 1: BadRule"),
    (b"omit event", "line 1: BadRule"),
    (b"omit event a", "line 1: BadRule"),
    (b"omit event a # x", "line 1: BadRule"),
    (b'omit event ["x"]', "line 1: BadRule"),
    (b'omit event a ["x"]', "line 1: BadRule"),
    (b'omit event a v ["x"]', "line 1: BadRule"),
    (b'omit event a v["x"', "line 1: BadRule"),
    (b"omit event a v[x]", "line 1: BadRule"),
    (b"omit event a v[0]", "line 1: BadRule"),
    (b'omit event a v["x"]["y"', "line 1: BadRule"),
    (b'omit event a v["x"] 1', "line 1: BadRule"),
    (b'omit event a v["x"] w["y"]', "line 1: BadRule"),
    (b'omit event a v["x"] as thread-name', "line 1: BadRule"),
    (b'omit event a category=b v["x"]', "line 1: BadRule"),
    (b'omit message a v["x"]', "line 1: BadRule"),
    (b'omits event a v["x"]', "line 1: BadRule"),
    (b'omit a v["x"]', "line 1: BadRule"),
    (b"omit event a v", "line 1: BadPlace"),
    (b"omit event a v[]", "line 1: BadPlace"),
    (b'omit event a v["x"].y', "line 1: BadPlace"),
    (b'omit event a v["x"].name', "line 1: BadPlace"),
    (b'omit event a v["x"].w[]', "line 1: BadPlace"),
    (b'omit event a v["x"][]', "line 1: BadPlace"),
    (b"omit event * type", "line 1: BadPlace"),
    (b"omit event * seq", "line 1: BadPlace"),
    (b'omit event a v["x"]\nomit event a v["x"]\n', "line 2: Repeated"),
    (b'omit event a v["x"]\n\n omit  event "a" "v"["\\u0078"] # again\n', "line 3: Repeated"),
    (b'omit event * v[].w["x"]\nomit event a v[].w["x"]\nomit event * v[].w["x"]\n', "line 3: Repeated"),
    (b'omit response a v["x"]\nomit event b v["x"]\nomit event a v["y"]\nomit event a w["x"]\nomit event a v["x"]\nomit event b v["x"]\n', "line 6: Repeated"),
    # Output that is joined.
    (b"join", "line 1: BadRule"),
    (b"join event", "line 1: BadRule"),
    (b"join event stopped", "line 1: BadRule"),
    (b"join event *", "line 1: BadRule"),
    (b"join request output", "line 1: BadRule"),
    (b"join event output body.output", "line 1: BadRule"),
    (b"join event output per-stop per-stop", "line 1: BadRule"),
    (b"join event outputs", "line 1: BadRule"),
    (b"joins event output", "line 1: BadRule"),
    (b'join event "output', "line 1: BadRule"),
    (b"join event output per-stops", "line 1: BadRule"),
    (b"join event output\njoin event output\n", "line 2: Repeated"),
    (b'join event output per-stop # once\n\n\tjoin  event "outpu\\u0074"\n', "line 3: Repeated"),
    (b"join event output\nblank event output body.category\n", "line 2: Clash"),
    (b"digits event * body.category\njoin event output per-stop\n", "line 2: Clash"),
    (b'hex event "output" body."category"\n\njoin event output\n', "line 3: Clash"),
    # Rules that declare ids.
    (b"hex event a x as", "line 1: BadRule"),
    (b"hex event a x as address again", "line 1: BadRule"),
    (b"drop event a as address", "line 1: BadRule"),
    (b"hex event a x as Address", "line 1: BadLabel"),
    (b"hex event a x as address\nhex event b x as frame\n", "line 2: BadLabel"),
    (b"hex event a v[].name as address", "line 1: BadPlace"),
    (b"blank event a body as address", "line 1: BadPlace"),
    (b"blank event * seq as number", "line 1: BadPlace"),
    (b'hex event a x as address\n\nhex event a x as "address"', "line 3: Repeated"),
    (b"hex event a x as address\nhex event * x as pointer\n", "line 2: Clash"),
    (b"hex event a x as address\ndigits event a x\n", "line 2: Clash"),
    (b"long event a x\nhex event a x as address\n", "line 2: Clash"),
    (b"per-stop event stopped", "line 1: BadRule"),
    (b"per-stops", "line 1: BadRule"),
    (b"per stop", "line 1: BadRule"),
    (b"per-stop=1", "line 1: BadRule"),
    (b"long event stopped", "line 1: BadRule"),
    (b"uuid event * command", "line 1: BadPlace"),
    (b"long response * request_seq", "line 1: BadPlace"),
    (b"uuids event output body.output", "line 1: BadRule"),
    # One line feed too many.
    (b"\n" * 65_537, "line 65537: TooLong"),
    (b"blank event process body.id x", "line 1: BadRule"),
    (b"swap", "line 1: BadRule"),
    (b"swap # response * request *", "line 1: BadRule"),
    (b"swaps response * request *", "line 1: BadRule"),
    (b"swap response", "line 1: BadRule"),
    (b"swap response *", "line 1: BadRule"),
    (b"swap response * # request *", "line 1: BadRule"),
    (b"swap response * request", "line 1: BadRule"),
    (b"drop event output\nswap response * request * event\n", "line 2: BadRule"),
    (b"swap response * request * body.id", "line 1: BadRule"),
    (b"swap reply * request *", "line 1: BadRule"),
    (b"swap response * command *", "line 1: BadRule"),
    (b"swap response *request *", "line 1: BadRule"),
    (b'swap event "a"event b', "line 1: BadRule"),
    (b'swap event a event "b', "line 1: BadRule"),
    (b"swap event ** event b", "line 1: BadRule"),
    (b"swap response * request *\nswap response * request *\n", "line 2: Repeated"),
    (b"swap response * request *\n\nswap request * response *\n", "line 3: Repeated"),
    (b'swap event exited event a\nswap event "\\u0061" event exited # again\n', "line 2: Repeated"),
    (b"swap event a event b\nswap event a event c\nswap event a event a\nswap event a event a\n", "line 4: Repeated"),
    (b"word", "line 1: BadRule"),
    (b"word a", "line 1: BadRule"),
    (b"word a # b", "line 1: BadRule"),
    (b"word a b c", "line 1: BadRule"),
    (b"words a b", "line 1: BadRule"),
    (b"word /a b", "line 1: BadRule"),
    (b"word a <b>", "line 1: BadRule"),
    (b"word * b", "line 1: BadRule"),
    (b'word"a" b', "line 1: BadRule"),
    (b'word "a"b', "line 1: BadRule"),
    (b'word "a b', "line 1: BadRule"),
    (b"word event a b", "line 1: BadRule"),
    (b'word "" b', "line 1: BadWord"),
    (b'word a ""', "line 1: BadWord"),
    (b"word a a", "line 1: BadWord"),
    # The word has the text, the text has the word, and the end of one is the start of the other.
    (b"word a bac", "line 1: BadWord"),
    (b"word bac a", "line 1: BadWord"),
    (b"word abc cde", "line 1: BadWord"),
    (b"word cde abc", "line 1: BadWord"),
    (b"word a 1\nword b 2a\n", "line 2: BadWord"),
    (b"word a 1\nword b1 2\n", "line 2: BadWord"),
    (b"word ab 12\nword 2c 3\n", "line 2: BadWord"),
    (b'word a 1\nword "\\u0061" 2 # again\n', "line 2: Repeated"),
    (b"word a 1\ndrop event x\nword a a\n", "line 3: Repeated"),
]

# Words, and what they and two rules make of contents.
WORDS = b"""word "/home/me" "<home>" # shorter
\tword  "/home/me/p7"\t"<project>"\r
digits event output body.output
drop event gone category="<home>"
word aa $
"""
WORDED = [
    (
        '{"type":"event","event":"output","body":{"output":"/home/me/p7/a17, /home/me/b2 /home/m3"}}',
        '{"body":{"output":"<project>/a0, <home>/b0 /home/m0"},"event":"output","type":"event"}',
    ),
    # From left to right, and only in texts outside `type`, `command` and `event` of the message.
    ('{"aaa":["aaa",{"type":"aaaa"}],"b":17}', '{"aaa":["$a",{"type":"$$"}],"b":17}'),
    (
        '{"type":"/home/me","command":"aa","event":"/home/me/p7","message":"/home/me/home/me"}',
        '{"command":"aa","event":"/home/me/p7","message":"<home><home>","type":"/home/me"}',
    ),
    ('{"type":"request","command":"launch","arguments":{"cwd":"/home/me/p7","aa":null,"seq":1.5e0}}', None),
    (
        '{"type":"request","seq":3,"command":"launch","arguments":{"cwd":"/home/me/p7","args":["aa",true,null,-1]}}',
        '{"arguments":{"args":["$",true,null,-1],"cwd":"<project>"},"command":"launch","seq":3,"type":"request"}',
    ),
    # Words come before rules.
    ('{"type":"event","event":"gone","body":{"category":"/home/me"}}', ""),
    ('{"type":"event","event":"gone","body":{"category":"home"}}', '{"body":{"category":"home"},"event":"gone","type":"event"}'),
]

# Rules that declare ids, beside the rules below. `mask` ignores them.
LABELS = b"""blank  event process body.name as process
hex    response variables body.variables[].value as address
uuid   response evaluate body.type as object
\tdigits  event "process" body."pid" as  "number" # a comment
hex event a as as as
"""

# Lines of rules for the order, all of one file, which is accepted.
SWAPS = [
    b"swap response * request *",
    b"  swap\tresponse  continue   event stopped \r",
    b'swap event "a b" response "\\u0063ontinue"# a comment',
    b"swap event exited event terminated # a comment",
    b"swap event * event *",
    # A name in quotes is never any name.
    b'swap response "*" request *',
    b'swap response * request "*"',
    # Each of these differs from an earlier line in one kind or one name.
    b"swap event exited event exited",
    b"swap event exited response terminated",
    b"swap request exited event terminated",
    b"swap event exited event *",
    b"swap event terminated event terminated",
    b"swap event " + b"n" * 30_000 + b" event " + b"m" * 30_000,
]

# Actions at one place, a text, and what they make of it in whatever order their lines are.
TOGETHER = [
    (b"hex digits", "0x1f 17", "0x0 0"),
    (b"hex long", "0x7ffd5e8a 7ffd5e8a", "0x0 0"),
    (b"hex uuid", "0x1f 6e8bc430-9c3a-11d9-9669-0800200c9a66", "0x0 00000000-0000-0000-0000-000000000000"),
    (b"long digits", "123456ab 17ab", "0 0ab"),
    (b"long uuid", "6e8bc430-9c3a-11d9-9669-0800200c9a66", "0-0000-0000-0000-0"),
    (b"long digits hex", "0x1f 123456ab 17", "0x0 0 0"),
    (b"long uuid hex", "0x1f 6e8bc430-9c3a-11d9-9669-0800200c9a66", "0x0 0-0000-0000-0000-0"),
    (b"blank digits", "17", ""),
    (b"blank hex", "0x1f", ""),
    (b"blank long", "123456ab", ""),
    (b"blank uuid", "6e8bc430-9c3a-11d9-9669-0800200c9a66", ""),
]

# Rules for the names of elements beside rules for elements by their name, a content, and what they
# make of it in whatever order their lines are.
NAMES_FIRST = [
    (
        [b"long event a v[].name", b'blank event a v["0"].y'],
        '{"v":[{"name":"7f3a1c2","y":"1"},{"name":"b","y":"2"},{"name":"0","y":"3"}]}',
        '{"v":[{"name":"0","y":""},{"name":"b","y":"2"},{"name":"0","y":""}]}',
    ),
    # No element has the old name.
    (
        [b"digits event a v[].name", b'blank event a v["a1"].y'],
        '{"v":[{"name":"a1","y":"1"}]}',
        '{"v":[{"name":"a0","y":"1"}]}',
    ),
    # Names of outer elements come before those of inner ones.
    (
        [b"digits event a v[].name", b'long event a v["f0"].w[].name', b'hex event a v["f0"].w["0"].y'],
        '{"v":[{"name":"f17","w":[{"name":"123456a","y":"0x1f"},{"name":"b","y":"0x1f"}]},{"name":"g","w":[{"name":"123456a","y":"0x1f"}]}]}',
        '{"v":[{"name":"f0","w":[{"name":"0","y":"0x0"},{"name":"b","y":"0x1f"}]},{"name":"g","w":[{"name":"123456a","y":"0x1f"}]}]}',
    ),
    # A list that is blanked loses its elements.
    (
        [b"digits event a v[].name", b"blank event a v", b'blank event a v["a0"].y'],
        '{"v":[{"name":"a1","y":"1"}]}',
        '{"v":[]}',
    ),
]

# Rules that are accepted beside rules that drop events by their category.
BESIDE_CATEGORIES = [
    b"drop event output\ndrop event output category=a\ndrop event output category=b\ndrop event * category=a\ndrop event other category=a\n",
    b"drop event other category=a\nblank event output body.category\nblank response * body.category\n",
    b"blank event output body\nblank event output body.categories\nblank event output body.category.x\ndrop event output category=b\n",
    b'drop event output category="a b" # \n\tdrop  event\t"output"  category="*"\r\ndrop event output category=$-_1#x\n',
]

# Rules that drop events by their category, and contents that they keep or drop.
CATEGORIES = b"""drop event output category=telemetry
drop event * category="a b"
drop event gone category=""
digits event output body.output
"""
CATEGORISED = [
    ('{"type":"event","event":"output","body":{"category":"telemetry","output":"a1.5"}}', None),
    ('{"type":"event","event":"output","body":{"category":"stdout","output":"a15"}}', '{"body":{"category":"stdout","output":"a0"},"event":"output","type":"event"}'),
    ('{"type":"event","event":"output","body":{"category":"telemetry2"}}', '{"body":{"category":"telemetry2"},"event":"output","type":"event"}'),
    ('{"type":"event","event":"output","body":{"category":"Telemetry"}}', '{"body":{"category":"Telemetry"},"event":"output","type":"event"}'),
    ('{"type":"event","event":"output","body":{"category":["telemetry"]}}', '{"body":{"category":["telemetry"]},"event":"output","type":"event"}'),
    ('{"type":"event","event":"output","body":{"output":"telemetry"}}', '{"body":{"output":"telemetry"},"event":"output","type":"event"}'),
    ('{"type":"event","event":"output","body":"telemetry"}', '{"body":"telemetry","event":"output","type":"event"}'),
    ('{"type":"event","event":"output","category":"telemetry"}', '{"category":"telemetry","event":"output","type":"event"}'),
    ('{"type":"event","event":"others","body":{"category":"telemetry"}}', '{"body":{"category":"telemetry"},"event":"others","type":"event"}'),
    ('{"type":"event","event":"others","body":{"category":"a b"}}', None),
    ('{"type":"event","event":"others","body":{"category":"a b","time":1.5}}', None),
    ('{"type":"event","body":{"category":"a b"}}', None),
    ('{"type":"response","command":"output","body":{"category":"a b"}}', '{"body":{"category":"a b"},"command":"output","type":"response"}'),
    ('{"type":"event","event":"gone","body":{"category":""}}', None),
    ('{"type":"event","event":"gone","body":{"category":null}}', '{"body":{"category":null},"event":"gone","type":"event"}'),
]

# Actions for the events of one category, which may have any order of lines, and what they leave.
LIMITED = [
    b"digits event output category=stderr body.output",
    b'uuid event output category="a b" body.output',
    b"hex event output category=stderr body.data.x",
    b"digits event output category=stdout body.output",
    b"blank event other body",
    b"blank event output body.n",
    b"blank event output body.output.category",
    b"drop event output category=telemetry",
]
OF_A_CATEGORY = [
    ('{"category":"stderr","output":"a17"}', '{"category":"stderr","output":"a0"}'),
    ('{"category":"stdout","output":"a17"}', '{"category":"stdout","output":"a0"}'),
    ('{"category":"console","output":"a17"}', '{"category":"console","output":"a17"}'),
    ('{"category":["stderr"],"output":"a17"}', '{"category":["stderr"],"output":"a17"}'),
    ('{"output":"a17"}', '{"output":"a17"}'),
    ('{"category":"stderr","data":{"x":"at 0x1f"},"output":"b 0x1f"}', '{"category":"stderr","data":{"x":"at 0x0"},"output":"b 0x0f"}'),
    ('{"category":"stdout","data":{"x":"at 0x1f"}}', '{"category":"stdout","data":{"x":"at 0x1f"}}'),
    ('{"category":"a b","output":"%s 17"}' % ("0" * 7 + "1-0000-0000-0000-" + "0" * 12), '{"category":"a b","output":"%s 17"}' % ("0" * 8 + "-0000-0000-0000-" + "0" * 12)),
    ('{"category":"telemetry","output":"a17"}', None),
    # A content with a fraction is read as a tree.
    ('{"category":"stderr","n":1.5,"output":"a17"}', '{"category":"stderr","n":0,"output":"a0"}'),
    ('{"category":"stdin","n":1.5,"output":"a17"}', '{"category":"stdin","n":0,"output":"a17"}'),
]

# Rules for elements by their name that are accepted beside one another.
BESIDE_ELEMENTS = [
    # Two actions that exclude each other, at elements of two names.
    b'digits event a v["z"].y\nuuid event a v["w"].y\n',
    # Names by which other rules find elements.
    b'blank event a v["x"].y\nblank event a v[].name\n',
    b'hex event * v[].name\n\nblank event a v["x"].y\n',
    b'blank event a v["x"].w["z"].y\nblank event * v[].w[].name\n',
    b'digits event a v["x"].w[].name\nblank event a v["x"].w["z"].y\n',
    b'digits event a v["x"].w[].name\n\nblank event a v[].w["z"].y\n',
    b'blank event a v["x"].y\nblank event a v[].y\nblank event a v["x"]\nblank event a v[]\nblank event a v\n',
    # Names of other messages, of other lists, and members of other names.
    b'blank event a v["x"].y\nblank event b v[].name\nblank response a v[].name\nblank event a w[].name\nblank event a v[].names\n',
    b'blank event a v["x"].y\nblank event a v[].w[].name\nblank event a v[].name.z\nblank event a v.name\nblank event a name\n',
    # Names of elements below an element of another name.
    b'blank event a v["x"].w["z"].y\nblank event a v["q"].w[].name\nblank event a v["q"].u[].w[].name\n',
    b'blank event a v[]["x"].w["z"].y\nblank event a v[]["q"].w[].name\nblank event a v[]["x"].w[].y[].name\n',
    b'\tblank event a "v"["a \\"b\\" # [c]"]["d"]."y" # a comment\r\nblank event a v[""].y\n',
]

# Rules that omit elements, which are accepted beside other rules whatever these change.
BESIDE_OMISSIONS = [
    b'omit event a v["x"]\nomit event * v["x"]\nomit event b v["x"]\nomit request a v["x"]\nomit response a v["x"]\nomit event a v["y"]\n',
    b'omit event a v["x"]\nomit event a v["x"]["x"]\nomit event a v[]["x"]\nomit event a v["y"]["x"]\nomit event a v["x"].w["x"]\nomit event a w.v["x"]\n',
    b'omit event a v["x"]\nblank event a v["x"]\nblank event a v["x"].y\nblank event a v[].name\nblank event a v\nblank event * v[].y\n',
    b'digits event a v[].name\nomit event a v["x"].w["y"]\ndigits event a v[].w[].name\nfill event a v[].name "n"\n',
    b'drop event a category=b\nomit event a body["x"]\nomit event a body.category["x"]\nomit response variables body.variables["x"]\nomit event * type["x"]\n',
    b'hex event a v["x"].y as address\nomit event a v["x"]\nomit event a v["x"].y["z"]\nword z "<w>"\nper-stop\njoin event output\nswap event a event b\n',
]

# Rules for elements by their name, and contents that they change.
ELEMENTS = b"""blank  response variables body.variables["orig_argv"].value
digits response variables body.variables["pid \\"1\\""].value
blank  response variables body.variables["all"]
hex    response variables body.scopes["Locals"].variables["at"].value
blank  response variables body.scopes[].variables["time"].value
blank  response variables body.grid[]["x"].y
blank  response variables body.gone["x"].value
blank  response variables body.gone
digits response variables body.tree["x"].nodes["y 1"].value
digits response variables body.tree["z"].nodes[].name
"""
NAMED = [
    (
        '{"body":{"variables":[{"name":"x","value":"1"},{"name":"orig_argv","value":"2"},{"name":"orig_argv2","value":"3"}]},"command":"variables","type":"response"}',
        '{"body":{"variables":[{"name":"x","value":"1"},{"name":"orig_argv","value":""},{"name":"orig_argv2","value":"3"}]},"command":"variables","type":"response"}',
    ),
    (
        '{"body":{"variables":[{"name":"orig_argv","value":"2"},{"name":"orig_argv","value":7},{"name":["orig_argv"],"value":"3"},{"value":"4"},"orig_argv",{"Name":"orig_argv","value":"5"}]},"command":"variables","type":"response"}',
        '{"body":{"variables":[{"name":"orig_argv","value":""},{"name":"orig_argv","value":0},{"name":["orig_argv"],"value":"3"},{"value":"4"},"orig_argv",{"Name":"orig_argv","value":"5"}]},"command":"variables","type":"response"}',
    ),
    # The last member of a name counts.
    (
        '{"body":{"variables":[{"name":"orig_argv","name":"x","value":"1"},{"name":"x","name":"orig_argv","value":"2"}]},"command":"variables","type":"response"}',
        '{"body":{"variables":[{"name":"x","value":"1"},{"name":"orig_argv","value":""}]},"command":"variables","type":"response"}',
    ),
    (
        '{"body":{"variables":[{"name":"pid \\"1\\"","value":"pid 17"},{"name":"pid 1","value":"pid 17"},{"name":"all","value":1.5}]},"command":"variables","type":"response"}',
        '{"body":{"variables":[{"name":"pid \\"1\\"","value":"pid 0"},{"name":"pid 1","value":"pid 17"},{}]},"command":"variables","type":"response"}',
    ),
    (
        '{"body":{"scopes":[{"name":"Locals","variables":[{"name":"at","value":"0x1f"},{"name":"time","value":1.5}]},{"name":"Globals","variables":[{"name":"at","value":"0x1f"},{"name":"time","value":2}]}]},"command":"variables","type":"response"}',
        '{"body":{"scopes":[{"name":"Locals","variables":[{"name":"at","value":"0x0"},{"name":"time","value":0}]},{"name":"Globals","variables":[{"name":"at","value":"0x1f"},{"name":"time","value":0}]}]},"command":"variables","type":"response"}',
    ),
    (
        '{"body":{"gone":[{"name":"x","value":"1"}],"grid":[[{"name":"x","y":1},{"name":"z","y":2}],{"name":"x","y":3}]},"command":"variables","type":"response"}',
        '{"body":{"gone":[],"grid":[[{"name":"x","y":0},{"name":"z","y":2}],{"name":"x","y":3}]},"command":"variables","type":"response"}',
    ),
    # Names change below one element, and select below another one.
    (
        '{"body":{"tree":[{"name":"x","nodes":[{"name":"y 1","value":"a12"},{"name":"y 12","value":"a12"}]},{"name":"z","nodes":[{"name":"y 1","value":"a12"},{"name":"n12"}]},{"name":"w","nodes":[{"name":"y 1","value":"a12"}]}]},"command":"variables","type":"response"}',
        '{"body":{"tree":[{"name":"x","nodes":[{"name":"y 1","value":"a0"},{"name":"y 12","value":"a12"}]},{"name":"z","nodes":[{"name":"y 0","value":"a12"},{"name":"n0"}]},{"name":"w","nodes":[{"name":"y 1","value":"a12"}]}]},"command":"variables","type":"response"}',
    ),
    # The list is an object, and the messages have another name or kind.
    (
        '{"body":{"variables":{"name":"orig_argv","value":"2"}},"command":"variables","type":"response"}',
        '{"body":{"variables":{"name":"orig_argv","value":"2"}},"command":"variables","type":"response"}',
    ),
    (
        '{"body":{"variables":[{"name":"orig_argv","value":"2"}]},"command":"scopes","type":"response"}',
        '{"body":{"variables":[{"name":"orig_argv","value":"2"}]},"command":"scopes","type":"response"}',
    ),
]

RULES = b"""# lldb-dap
blank  event process body.systemProcessId
digits response threads body.threads[].name   # OS numbers
hex    response variables body.variables[].value
blank  event terminated statistics
blank  request "launch" arguments."a b"
drop   event output
uuid   response evaluate body.result
long   response evaluate body.result
hex    response evaluate body.result
"""

# Contents, and the text that each is masked to; an event that is left out has none.
MASKED = [
    (
        '{"type":"event","event":"process","body":{"systemProcessId":4711,"name":"a1"}}',
        '{"body":{"name":"a1","systemProcessId":0},"event":"process","type":"event"}',
    ),
    (
        '{"type":"event","event":"proces","body":{"systemProcessId":4711}}',
        '{"body":{"systemProcessId":4711},"event":"proces","type":"event"}',
    ),
    (
        '{"type":"response","command":"threads","body":{"threads":[{"name":"tid 4711"},{"name":"8 of 15"},7]}}',
        '{"body":{"threads":[{"name":"tid 0"},{"name":"0 of 0"},7]},"command":"threads","type":"response"}',
    ),
    (
        '{"type":"response","command":"variables","body":{"variables":[{"value":"0xBEEF 0x, 0X1g 42"}]}}',
        '{"body":{"variables":[{"value":"0x0 0x, 0x0g 42"}]},"command":"variables","type":"response"}',
    ),
    (
        '{"type":"event","event":"terminated","statistics":{"time":1.5}}',
        '{"event":"terminated","statistics":{},"type":"event"}',
    ),
    (
        '{"type":"request","command":"launch","arguments":{"a b":true,"a":null}}',
        '{"arguments":{"a":null,"a b":false},"command":"launch","type":"request"}',
    ),
    (
        '{"type":"response","command":"evaluate","body":{"result":"5fa9 12345 abcdef a12345 ghost1a2b3c4"}}',
        '{"body":{"result":"5fa9 12345 abcdef 0 ghost0"},"command":"evaluate","type":"response"}',
    ),
    (
        '{"type":"response","command":"evaluate","body":{"result":"0x7ffd 0x7ffd5e8a 140723"}}',
        '{"body":{"result":"0x0 0x0 0"},"command":"evaluate","type":"response"}',
    ),
    (
        '{"type":"response","command":"evaluate","body":{"result":"id 6e8bc430-9c3a-11d9-9669-0800200c9a66."}}',
        '{"body":{"result":"id 0-0000-0000-0000-0."},"command":"evaluate","type":"response"}',
    ),
    ('{"type":"event","event":"output","body":1.5}', None),
]

# Contents that have no text, and the fault of each.
UNMASKED = [
    ('{"type":"event","event":"terminated","statistic":1.5}', "Fraction"),
    ('{"type":"event","event":"output"', "Json"),
]

# A recording, what is written of it, and why it is refused.
OUTPUT = b'<Content-Length: 36\r\n\r\n{ "type":"event", "event":"output" }\n'
RECORDINGS = [
    (b"", b"", None),
    (OUTPUT + b'>Content-Length: 13\r\n\r\n{ "a": "p1" }\n', b'>Content-Length: 10\r\n\r\n{"a":"p1"}\n', None),
    (
        b">Content-Length: 2\r\n\r\n{}\n" + OUTPUT + b">Content-Length: 3\r\n\r\n1.5\n",
        b">Content-Length: 2\r\n\r\n{}\n", "record 3: Fraction",
    ),
    (b"<Content-Length: 2\r\n\r\n[]\n!", b"<Content-Length: 2\r\n\r\n[]\n", "record 2: BadMarker"),
]


def masks(report, name, rules, given, written, why=None):
    """Checks what is written of a recording, and why it is refused."""
    wanted = (0, written, b"") if why is None else (2, written, refusal(why))
    asks_of_files(report, name, ["mask", "rules"], {"rules": rules}, given, wanted)


def with_swaps(rules):
    """The rules with a rule for the order after each line, and the others of these at the end."""
    lines = rules.splitlines(keepends=True)
    swaps = [swap + b"\n" for swap in SWAPS]
    assert len(lines) <= len(swaps)
    return b"".join(line + swap for line, swap in zip(lines, swaps)) + b"".join(swaps[len(lines):])


def accepted_swaps(report):
    for number, swap in enumerate(SWAPS, 1):
        masks(report, f"accepted rules for the order, row {number}", swap, OUTPUT, record('<{"event":"output","type":"event"}'))


def event_with(members):
    """An event a with a body or other members, as text in order."""
    return '{"event":"a","type":"event",' + members[1:]


def actions_together(report):
    for verbs, text, masked in TOGETHER:
        given, written = (record("<" + event_with('{"x":"%s"}' % it)) for it in (text, masked))
        for order in itertools.permutations(verbs.split()):
            rules = b"".join(verb + b" event a x\n" for verb in order)
            masks(report, f"actions at one place: {b' '.join(order).decode()}", rules, given, written)
            masks(report, f"actions at one place, masked again: {b' '.join(order).decode()}", rules, written, written)


def names_first(report):
    for number, (lines, content, masked) in enumerate(NAMES_FIRST, 1):
        given, written = (record("<" + event_with(it)) for it in (content, masked))
        for order in itertools.permutations(lines):
            rules = b"".join(line + b"\n" for line in order)
            masks(report, f"names of elements first, row {number}", rules, given, written)
            masks(report, f"names of elements first, masked again, row {number}", rules, written, written)


def categories(report):
    left = record('<{"event":"stopped","type":"event"}')
    for number, rules in enumerate(BESIDE_CATEGORIES, 1):
        masks(report, f"rules beside categories, row {number}", rules, left, left)
    for number, (content, text) in enumerate(CATEGORISED, 1):
        written = b"" if text is None else record("<" + text)
        masks(report, f"events of a category, row {number}", CATEGORIES, record("<" + content), written)
        masks(report, f"events of a category, masked again, row {number}", CATEGORIES, written, written)
    whole = b"".join(record("<" + content) for content, _ in CATEGORISED)
    written = b"".join(record("<" + text) for _, text in CATEGORISED if text is not None)
    masks(report, "events of a category, one after the other", CATEGORIES, whole, written)


def of_a_category(report):
    def event(body):
        return '{"body":%s,"event":"output","type":"event"}' % body

    orders = [LIMITED, LIMITED[::-1], LIMITED[3:] + LIMITED[:3]]
    for number, (given, left) in enumerate(OF_A_CATEGORY, 1):
        written = b"" if left is None else record("<" + event(left))
        for lines in orders:
            rules = b"".join(line + b"\n" for line in lines)
            masks(report, f"actions by category, row {number}", rules, record("<" + event(given)), written)
            masks(report, f"actions by category, masked again, row {number}", rules, written, written)


def elements(report):
    left = record('<{"event":"stopped","type":"event"}')
    for number, rules in enumerate(BESIDE_ELEMENTS, 1):
        masks(report, f"rules for elements, row {number}", rules, left, left)
    for number, rules in enumerate(BESIDE_OMISSIONS, 1):
        masks(report, f"rules that omit elements, row {number}", rules, left, left)
    for number, (content, text) in enumerate(NAMED, 1):
        masks(report, f"elements by their name, row {number}", ELEMENTS, record("<" + content), record("<" + text))
        masks(report, f"elements by their name, masked again, row {number}", ELEMENTS, record("<" + text), record("<" + text))


def refused_rules(report):
    for number, (rules, why) in enumerate(REFUSED, 1):
        masks(report, f"refused rules, row {number}", rules, b"nothing is read of this", b"", f"rules: {why}")


def a_thousand_rules(report):
    rules = [b"drop event e%d\n" % number for number in range(1001)]
    masks(report, "a thousand rules", b"".join(rules[:1000]), b"", b"")
    masks(report, "one rule more", b"".join(rules), b"", b"", "rules: line 1001: TooMany")
    swaps = [b"swap event e%d event f%d\n" % (number, number) for number in range(1001)]
    masks(report, "a thousand rules for the order", b"".join(swaps[:1000]), b"", b"")
    masks(report, "one rule for the order more", b"".join(swaps), b"", b"", "rules: line 1001: TooMany")
    both = b"".join(rules[:500] + swaps[:500])
    masks(report, "a thousand rules of two sorts", both, b"", b"")
    masks(report, "one rule to drop more", both + rules[500], b"", b"", "rules: line 1001: TooMany")
    masks(report, "one repeated rule for the order more", both + swaps[0], b"", b"", "rules: line 1001: TooMany")
    dropped = [b"drop event e%d category=c\n" % number for number in range(1001)]
    masks(report, "a thousand rules for categories", b"".join(dropped[:1000]), b"", b"")
    masks(report, "one rule for a category more", b"".join(rules[:500] + dropped[:501]), b"", b"", "rules: line 1001: TooMany")
    omitted = [b'omit event a v["x%d"]\n' % number for number in range(1001)]
    masks(report, "a thousand rules that omit elements", b"".join(omitted[:1000]), b"", b"")
    masks(report, "one rule that omits an element more", b"".join(rules[:500] + omitted[:501]), b"", b"", "rules: line 1001: TooMany")
    masks(report, "per-stop is one of a thousand rules", b"per-stop\n" + b"".join(rules[:999]), b"", b"")
    masks(report, "one rule more than with per-stop", b"per-stop\n" + b"".join(rules[:1000]), b"", b"", "rules: line 1001: TooMany")
    masks(report, "per-stop after a thousand rules", b"".join(rules[:1000]) + b"per-stop", b"", b"", "rules: line 1001: TooMany")


def words(report):
    for number, (content, text) in enumerate(WORDED, 1):
        if text is None:
            masks(report, f"words in contents, row {number}", WORDS, record("<" + content), b"", "record 1: Fraction")
            continue
        written = record("<" + text) if text else b""
        masks(report, f"words in contents, row {number}", WORDS, record("<" + content), written)
        masks(report, f"words in contents, masked again, row {number}", WORDS, written, written)
    many = [b'word a%04d "<%04d>"\n' % (number, number) for number in range(1001)]
    masks(report, "a thousand words", b"".join(many[:1000]), record('<"a0999a1000"'), record('<"<0999>a1000"'))
    masks(report, "one word more", b"".join(many), b"", b"", "rules: line 1001: TooMany")
    dropped = [b"drop event e%d\n" % number for number in range(500)]
    masks(report, "one rule more than with words", b"".join(many[:500] + dropped) + b"per-stop\n", b"", b"", "rules: line 1001: TooMany")


def masked_contents(report):
    for number, (content, text) in enumerate(MASKED, 1):
        written = b"" if text is None else record("<" + text)
        masks(report, f"masked contents, row {number}", RULES, record("<" + content), written)
    for number, (content, fault) in enumerate(UNMASKED, 1):
        masks(report, f"contents that cannot be masked, row {number}", RULES, record("<" + content), b"", f"record 1: {fault}")
    whole = b"".join(record("<" + content) for content, _ in MASKED)
    written = b"".join(record("<" + text) for _, text in MASKED if text is not None)
    masks(report, "all masked contents, one after the other", RULES, whole, written)
    masks(report, "the same with rules for the order", with_swaps(RULES), whole, written)
    masks(report, "the same with per-stop", b"  per-stop # of debugpy\r\n" + RULES, whole, written)
    masks(report, "the same with declared ids", RULES + LABELS, whole, written)
    masks(report, "the same with declared ids first", LABELS + RULES, whole, written)


def masked_recordings(report):
    for number, (given, written, why) in enumerate(RECORDINGS, 1):
        masks(report, f"masked recordings, row {number}", RULES, given, written, why)
        masks(report, f"masked recordings with rules for the order, row {number}", with_swaps(RULES), given, written, why)


if __name__ == "__main__":
    sys.exit(judged(refused_rules, accepted_swaps, actions_together, names_first, categories, of_a_category, elements, a_thousand_rules, words, masked_contents, masked_recordings))
