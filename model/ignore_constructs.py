"""Ignore files that have each construct by itself, mostly one line each, and paths to ask each of them about."""

# A text is encoded as UTF-8.
CLASSES = (
    "[z-a] [!z-a] [^z-a] [a--] [a-\\]] [!/] [^/] [/] [.-0] [!.-0] a[/]b a[!b]b a[.-0]b x/[!/] [a/] [a/ [a-] [-a] [!a-] [!-a] [a-z-] [--a] [--/]"
    " [] [!] [^] []] [!]] [^]] []-a] [!]-a] []a [!]a] [\\]] [!\\]] [\\]a] [a\\] [a [a-b-z] [a-m-z] [\\a-z] [a-\\z] [\\a-\\z] [\\--a] [a\\-z] [\\\\] [\\\\-a]"
    " [\\ [!\\ [a- [a-\\ [^!] [!^] [!!] [^^] [a!] [a^] [[] [[a] [[a]] [a]] [[-a] [a-[] a[b-]c [x]]"
    " [a] [!a] [^a] []a] [a-c] [ [!-] [\\!] [\\^-] [\\a-c] [--0] [a-\\c] [z-é] [¾-¿] [ü-©]"
    " [é] [!é] [é][é] [é]* [a-é] [é-z] [é-ü] [!a-é] [¿-¿] [a¿-¿] [ÿ-¿] [¿-À] [ü-é] [é-a] [a-é-z] [é-ü-z] [\\é-ü] [a-\\é] [日-本] [-é] ? ?? ??? é \\é é? ?é* 日本"
).split(" ")
NAMES = "alnum alpha blank cntrl digit graph lower print punct space upper xdigit word ascii ALPHA al al\\pha".split() + ["", " alpha", "alpha "]
NAMED = [f"{before}[{no}[:{name}:]]" for name in NAMES for before, no in (("", ""), ("", "!"), ("x", ""))]
NAMED += (
    "[[:foo:]] [[:alpha:][:digit:]] [[:alpha:]-z] [[:digit:]-z] [a-[:alpha:]] [0[:alpha:]] [[:foo:]a] [a[:foo:]] [a[:foo:] [[:alpha:] [[:alpha:]a [[:alpha] [[:alpha]]"
    " [[:alpha:!] [[:] [[:]] [[::]] [[::] [[:a]:] [[:-z] [:alpha:] [\\[:alpha:]] [[\\:alpha:]] [[:alpha\\:]] [[.a.]] [[=a=]] [[:é:]] [[:alpha:é] [[:!:]] [![:foo:]]"
).split(" ")
STARS = (
    "**/a ***/a **// **/.. .. \\.. ..a * ** *** */ **/ ***/ /* /** /*/ /**/ //** *a a* **a a** *a* a*b a**b /a*b /a**b */b **/b ***/b /**/b **/a/b **/a/**/b a/**/b a/***/b a/**/**/b **/**/b"
    " a/** a/**/ a/**/* a/**b a/b** x/** x/**/y a/*/b a/*b a*/b a**/b a***/b /a**/b ab**/b a**/y/b a**/**/b a**/* a**/** a/a**/b x/a** x/a**/b é**/b"
    " ?**/b a?**/b [a]**/b \\a**/b a\\b**/c *a**/b **a/b a*/** a*/**/b **b/c a**b/c a**/ /a** /a**/ ab/** **/a** **/** **/* **\\/b **\\/x a/**\\/b a**\\/b /a**\\/b"
    " ***\\/b a\\/**/b a\\/**\\/b a\\/** \\/a a/*\\/b a/?/b a?b a/?b **/?/b */*/b */* *.c **/*.c a*.c **.c {a,b} {a,b}/** a,b *{a,b}* !** a**[b]/c a**?/c a**\\b/c"
).split(" ")
LINES = [
    "a", "/a", "a/", "/a/", "a/b", "/a/b", "a/b/", "//a", "///", "//", "/", "a//b", "a//", "./a", "../a", "a/.", "a/..", "a/./b", "!a", "!a/", "!/a", "!!a", "!", "!/",
    "\\!a", "!\\!a", "\\#a", "!#a", "#a", "#", "##a", " #a", "a#b", "\\ ", "\\  ", " ", "  ", "a ", "a  ", " a", " a ", "a b", "a\\ ", "a\\  ", "a\\ \\ ", "a \\ ", "a\\\\ ",
    "a\\\\\\ ", "a/ ", "a/\\ ", "a\\/ ", "\t", "a\t", "a \t", "a\t ", "\ta", "\\\t", "a\t\t", "a\r", "a\r\n", "a\r\r\n", "a\r\r", "\r", "\r\n", "\r\ra", "a\rb", "a \r", "a \r\n", "a\r \n", "a\\\r", "a\\\r\n",
    "a\\ \r\n", "a/\r\n", "a\\", "\\", "\\\\", "a\\\\", "a\\\\\\", "foo\\/", "foo\\//", "x/foo\\/", "foo/\\", "a\\b", "a\\/b", "\\a/b", "\\a\\/\\b", "\\*", "\\?", "a\\*", "\\[a]", "\\{", "]", "a]", "a]b", "{a}", "-", "^",
    "a\0b", "\0a", "a \0b", "a\0\\", "#\0a", "a\\\0b", "!\0a", "a/\0b", "[a\0]", "a\0\r\nb", "\ufeffa", "\ufeff#a", "\ufeff\ufeffa", "x\n\ufeffa", "\ufeff", "\ufeff\na", "\ufeff!a", "!\ufeffa",
    "", "\n", "\n\n\na", "a\n", "a\nb", "a\n\nb\n", "a\n!a", "!a\na", "a\n!a\na", "*\n!*", "*\n!a", "*\n!a\n!a/b", "/*\n!/a", "/*\n!/a/\n/a/*\n!/a/b", "a\n!a/b", "a/\n!a/b", "a/*\n!a/b", "a/**\n!a/b",
    "*\n!*/\n!b", "/*\n!/a**", "*\n!a**/b", "!*\n[\nb", "[a\na", "a\n\\\n[", "!b\na/b\n!/a/b/", "x/\n!x/y/", "x/*\n!x/y/\nx/y/*\n!x/y/b", "é\n!é", "a\x0b", "a\x0c", "\x0ba", "\x7f",
]
BYTES = [b"\xff", b"\\\xff", b"a\xff", b"[\xff]", b"[a\xff]", b"[a-\xff]", b"!\xff\na", b"#\xff\na", b"a\0\xff", b"a\n\xff\n!b", b"\xc3", b"a\xc3", b"*\xc3", b"?\xff", b"\xed\xa0\x80", b"\xf4\x90\x80\x80", b"\xc0\xaf", b"\xef\xbba", b"\xef\xbb\xbf\xff"]
BYTES += [b"[\xbf-\xc2]", b"[!\xbf-\xc2]", b"[\xc0-\xc1]", b"[\x80-\xff]", b"[!\x80-\xff]", b"[\xff-\x80]", b"[\\\xff]", b"[a-\\\xff]", b"[\xff", b"\xff/**", b"**/\xff", b"\xff**/b"]

# With letters in upper case and in lower case.
CASES = (
    "A \\A \\a B/ A/B /A/b a/B A* *A *.C *.c \\*.C a.C A.c ?.C A**/B **/A A/** [A] [!A] [A]* [A-C] [a-C] [A-c] [Z-a] [Y-b] [!A-C] [\\A] [\\A-C] [A-\\C] [a-\\C] [[:upper:]] [![:upper:]]"
    " [[:lower:]] [![:lower:]] [[:alpha:]] [[:xdigit:]] [[:UPPER:]] FOO Foo fO? [@-[] [`-{] É é [É] [Á-É] *É !A a\\B A\\b X/Y x/\\Y"
).split(" ")

FILES = [text.encode() for text in CLASSES + NAMED + STARS + LINES + CASES] + BYTES

PATHS = (
    "a b c x y z m - ] [ ! ^ \\ : ... 0 5 A Z é ü 日 日本 éa aé a] [] ]] :] a:] [:] ab xb xa axb abc a.c xé x[ x0 xA x5 {a,b} a,b {a} { aa foo foo\\ a\\ a\\b a# #a !a ##a \\#a \\!a \\a"
    " x/y x/y/z a/b a/a a/c x/b x/a x/y/b x/a/b a/x/b a/x/y/b ax/b ax/y/b ab/b ab/c abb/c acb/c axb/c ab/x/c xa/b xa/y/b é/b é/x/b b/b b/a b/foo a/b/c a/y/b a/.c b/a.c"
    " x/foo x/foo\\ a/a/b x/ax/b x/ax/y/b a/[ c/a c/b c/b/a c/é c/日本 c/a. #a/b a#b B C A/B A/b a/B A.C A.c a.C AB aB FOO Foo fOO X/Y x/Y X/y É Á Z/A @ `"
).split(" ")
PATHS = [path.encode() for path in PATHS if path not in (".", "..")]
PATHS += [text.encode() for text in (" ", "  ", "a ", "a  ", " a", " a ", "a b", "\t", "a\t", "a \t", "a\t\t", "\ta", "a\r", "a\r\r", "\r\ra", "a\rb", "a\n", "\n", "\ufeffa", "\ufeff", "a\x0b", "a\x0c", "\x0ba", "\x7f", "a\\ ", "a\\  ", "#a ", " #a", "!", "x\t", "x\r", "x ", "x\x0b", "x\x7f", "x_")]
PATHS += [b"\xff", b"a\xff", b"\xc3", b"\xa9", b"\xac", b"\xbc", b"x\xc3", b"\xbf", b"\xc0", b"\xc1", b"\xc2", b"\xed\xa0\x80", b"\xf4\x90\x80\x80", b"\xc0\xaf", b"a\x80", b"c/\xff", b"c/\xc0", b"\xe6"]
