"""The campaigns that checks/browser/run opens in addition to the examples, and files with faults that it must see."""


def campaign(generals, bound, commander, order, traitors, before="", more=""):
    """A scenario whose traitors, by their numbers, have these programs."""
    text = f"{before}generals = {generals}\nbound = {bound}\ncommander = {commander}\norder = {order}\n{more}"
    for general, program in sorted(traitors.items()):
        text += f"\n[[traitor]]\ngeneral = {general}\nasm = '''\n{program}'''\n"
    return text


SILENT = "mov r0, 0\nexit\n"
LIAR = "mov r1, 1\nmov r2, 0\ncall sway\nmov r1, 6\nmov r2, 7\ncall sway\nexit\n"
COUNTS = "mov r1, 0\nmov r2, 1\ncall board_add\nmov r6, r0\nmov r1, 1\nmov r2, r6\ncall sway\nexit\n"
# A commander who signs two orders, and lieutenants who pass on to one what they hold.
TWO_FACED = "mov r1, 1\nmov r2, 126\ncall sign_order\nmov r1, 0\nmov r2, 3968\ncall sign_order\nexit\n"
PASSES_TWO = "mov r1, 0\nmov r2, 2\ncall pass_on\nmov r1, 1\nmov r2, 512\ncall pass_on\nexit\n"
SIGNED = 'messages = "signed"\n'
# The largest numbers that the board and an order have, and all of the board at once.
LARGEST = """lddw r7, 9223372036854775807
mov r1, 63
mov r2, r7
call board_swap
mov r1, 63
mov r2, r7
mov r3, r7
call board_cas
mov r1, 0
mov r2, r10
add r2, -512
mov r3, 64
call board_copy
mov r1, 1
mov.w r2, -1
call sway
exit
"""
# Orders that differ in one unit, signed for half of the generals each; and all that is held, passed on to all.
SIGNS = """mov.w r1, -1
mov r2, 2730
call sign_order
mov.w r1, -2
mov r2, 5460
call sign_order
exit
"""
PASSES = "".join(f"mov r1, {place}\nmov r2, 8191\ncall pass_on\n" for place in range(8)) + "exit\n"
MARKUP = f"""# </pre></p></details></main><script>document.title = "taken"</script>
# <img src="https://example.org/a.png" onerror="alert(1)"/><svg onload="alert(2)">
# <!-- a comment without an end, ]]> <![CDATA[ &lt; &amp; &#0; &nosuch; '"` </style></title>
# a word without an end: {400 * "x"}
"""
MARKED = '; </pre><script src="https://example.org/b.js"></script> & "more"\n'
BIDI = f"""# from right to left: \u202egnp.exe\u202c, \u2067\u05e9\u05dc\u05d5\u05dd\u2069, and without an end \u202e\u2067 fdp.tpircs
# tall: Z{12 * chr(0x351)}, joined: \U0001f469\u200d\U0001f469\u200d\U0001f467, wide: \u5c06\u519b\u5c06\u519b
# no width: [\u200b\u2060\ufeff], no character: [\uffff]
"""
# Files of assembly that a scenario names.
PROGRAMS = {'<img src="x" onerror="alert(3)">&amp;.asm': LIAR}
NAMED = "".join(f"\n[[traitor]]\ngenerals = [2, 3]\nasm_file = '{name}'\n" for name in PROGRAMS)
SCENARIOS = {
    "markup.toml": campaign(4, 1, 0, 1, {3: MARKED + LIAR}, MARKUP),
    "names.toml": campaign(4, 1, 0, 1, {}) + NAMED,
    "bidi.toml": campaign(4, 1, 0, 1, {0: SILENT}, BIDI),
    "silence.toml": campaign(7, 2, 0, 1, {general: SILENT for general in range(7)}),
    "large.toml": campaign(5, 1, 4, 2**32 - 1, {0: LARGEST, 4: LARGEST}),
    "two.toml": campaign(2, 0, 1, 0, {1: SILENT}),
    "thirteen.toml": campaign(13, 4, 0, 2**32 - 1, {general: LIAR for general in (2, 4, 8, 12)}, "# Thirteen generals.\n"),
    "signed_thirteen.toml": campaign(13, 4, 0, 1, {0: TWO_FACED} | {general: PASSES_TWO for general in (4, 8, 12)}, SIGNED),
    "signed.toml": campaign(13, 4, 0, 2**32 - 1, {0: SIGNS, 3: PASSES, 11: PASSES, 12: SILENT}, more='messages = "signed"\n'),
    "thirteen_traitors.toml": campaign(13, 4, 12, 2**32 - 1, {general: COUNTS for general in range(13)}),
}

# ---- faults

PAGE = """<!DOCTYPE html><html><head><title> </title><style>summary{outline:none}@page large{size:420mm 594mm}</style></head><body>
<h2>a heading</h2><h4></h4><p style="color:#999">faint</p>
<div style="position:absolute;top:20px;left:10px;width:1400px">across</div>
<div style="overflow:hidden;width:40px;height:10px">too much for so small a box</div>
<div style="visibility:hidden">not on paper</div><p style="overflow-wrap:anywhere;width:1em">broken</p>
<figure style="overflow-x:auto;width:50px"><svg width="60" height="50"><text x="40" y="20">outside</text></svg></figure>
<img src="https://example.org/a.png"><img src="none.png"><script>console.log("hello"); nope()</script>
<a href="#nope" id="a" onclick="1"></a><b id="a">b</b>
<p style="font-size:4px">tiny</p><p style="break-before:page;page:large">large</p>
<details><summary tabindex="-1">one</summary><p>1</p></details><details><summary>two</summary>2</details></body></html>
"""
SEEN_IN_PAGE = """no language
no title
no policy
no width of a phone
script stands in it
a script in onclick
leads to #nope
two elements are called a
a picture has no title
a picture has no desc
figure scrolls, and no key
"a heading" and "across" stand in each other
is cut by div
is cut by svg
the word broken is
in a window of 400, by div
contrast 2.85
"not on paper" is not shown
"1" is not shown
are too small on paper, as on sheet 1
is larger than A3
is not marked where the keys
1 folds are not reached
a image has no name
a link has no name
has no description
there are 0 main landmarks
the page has no name
level 2 is behind one of level 0
level 4 is behind one of level 2
level 4 has no name
outside the main landmark
console: hello
console: Uncaught
network: https://example.org/a.png
none.png is asked for"""
BROKEN = '<svg xmlns="http://www.w3.org/2000/svg" width="300" height="50"><text x="5" y="20">one &nosuch;</text></svg>\n'
FAINT = """<svg xmlns="http://www.w3.org/2000/svg" width="300" height="300"><path d="M0 0h99v99h-99z" fill="#111"/>
<text x="5" y="20">one</text><text x="9" y="24" opacity="0">two</text><text x="9" y="22" fill="#fff">three</text>
<text x="9" y="200">struck</text><path class="line" d="M0 220L60 180" stroke="#111"/><text x="205" y="200">too wide font</text></svg>
"""
SEEN_IN_FAINT = """has no title
has no desc
a SvgRoot has no name
contrast 1.11
"one" and "three" stand in each other
a line goes through "struck"
in a wider font: "too wide font" is cut"""
EMPTY = '<svg xmlns="http://www.w3.org/2000/svg" width="300" height="300"><title>t</title></svg>\n'
# Each by its name, with what must be told of it.
FAULTY = {
    "page.html": (PAGE, SEEN_IN_PAGE.splitlines()),
    "broken.svg": (BROKEN, ["xmllint: ", "rsvg-convert: "]),
    "faint.svg": (FAINT, SEEN_IN_FAINT.splitlines()),
    "empty.svg": (EMPTY, ["the picture is empty", "no text stands in it"]),
}
