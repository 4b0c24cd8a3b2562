"""What the page of report.py says of each word of a log, and its style."""

MEANINGS = {
    "done": "The object was carried.",
    "present": "Something stood at its place already; it was left as it is, and not looked into.",
    "same": "At its place stands just what a run makes of it.",
    "alike": "At its place stand files of the same names and lengths, with an inventory of theirs; their bytes weren't compared.",
    "absent": "Nothing stands at its place.",
    "differs": "Something else stands at its place.",
    "skip": "The folder was passed over.",
    "extra": "The store has no such object.",
    "stray": "It is no part of the root or of an object at its place.",
}
# Causes of a run; each is a heading of the guide too.
ADVICE = {
    "root": "<code>pairtree_root</code> itself holds a file, a link, or a folder with a name of three bytes or more. A README can stay. An object there has "
    "to go to the folders that <code>pairtree2ocfl names ID</code> prints.",
    "empty": "The folder of an identifier holds nothing: there is nothing to carry.",
    "split": "The folder of an identifier holds something else than one folder. Remove what is waste, and put what belongs together into one folder. Or "
    "use <code>--gather</code>, but read the guide before.",
    "past": "It stands below a folder of one byte, where an identifier must end, and was not read. Where it is an object's own folder, give it a name of "
    "three bytes or more.",
    "name": "The names of the folders aren't a cleaned identifier. Rename them as the first line of <code>pairtree2ocfl names ID</code> has them.",
    "utf8": "The names of the folders give bytes that aren't UTF-8. Find out in which encoding the identifier was, and rename them.",
    "other": "The object holds a link or a special file. Put what a link leads to in its place, or remove it.",
    "limit": "The object has too many files, too long a path or too large a file, or lies too deep. Divide it, or carry it by other means.",
    "reserved": "Without tuples this identifier has no place. Use tuples.",
}
# What a check tells, in the order in which it matters: what stops a run, what a run passes over, what surprises.
TROUBLES = {
    "missing": "A store must have it. Without it a run ends with fault 5: name the folder that holds <code>pairtree_root</code>, or put it there.",
    "unreadable": "It can't be listed, opened or read, for the reason told. A run that comes to it ends with fault 1: mend the disk or the permissions, and "
    "rename what isn't UTF-8.",
    "prefix": "<code>pairtree_prefix</code> is no file, has more than 1,024 bytes or isn't UTF-8. A run ends with fault 6: mend it, or remove it where the "
    "identifiers have no prefix.",
    "place": "The path of this file would be too long in DEST. A run ends with fault 2: shorten DEST or the path, or leave the object out.",
    **{cause: text for cause, text in ADVICE.items() if cause != "limit"},
    "deep": "The folder lies more than 600 names deep. A run passes it over (<code>limit</code>): move it up, or carry it by other means.",
    "long": "The path of this file in its object has more than 4,000 bytes. A run passes the object over (<code>limit</code>): shorten the path.",
    "many": "It is the first file over the 1,000,000 of its object. A run passes the object over (<code>limit</code>): divide it.",
    "large": "The file has more than 8 TiB. A run passes its object over (<code>limit</code>): divide the file, or carry it by other means.",
    "doubtful": "The prefix holds what can't be seen: a control character, a byte order mark, or a blank at an end. It would go into every identifier: look "
    "at it with <code>od -c</code>, and mend it if it isn't meant.",
    "spelling": "The names of these folders aren't the identifier's own. Where the folders with those stand too, both are one identifier, of which one is "
    "carried: compare the two by hand. Alone it is carried as it is.",
    "width": "The name of this folder has more than two bytes, and in it stand folders of one or two, as if the store were cut into longer pieces. A run takes "
    "it for an object's own folder with files in it, or for none: cut the names anew. Where it is meant so, leave it.",
    "desktop": "A desktop left it. Beside an object's folder it makes the object <code>split</code>, within an object it is carried: remove it, or name it by "
    "<code>--ignore</code>.",
}
# Those that stop a run, by which a check has status 3.
STOPPING = ("missing", "unreadable", "prefix", "place")
# Where the guide says more of a trouble that is no cause.
OF_LIMIT = ("deep", "long", "many", "large")
WHYS = {
    "missing": "Nothing stands at the path.",
    "kind": "A file stands for a folder, a folder for a file, or something else.",
    "bytes": "The file has other bytes.",
    "extra": "The object of the store has nothing there.",
    "twin": "The folders of the store have other names than the identifier's own, which stand too: compare the two by hand.",
}

HEAD = """<!DOCTYPE html>
<html lang="en">
<head>
<meta charset="utf-8">
<meta name="viewport" content="width=device-width, initial-scale=1">
<meta http-equiv="Content-Security-Policy" content="default-src 'none'; style-src 'unsafe-inline'">
<title>Report of pairtree2ocfl</title>
<style>
:root { color-scheme: light dark; --ink: #1d2530; --soft: #596472; --rule: #d8dde4; --ground: #fff; --card: #f4f6f9; --link: #0b5cad;
  --done: #2f8f5b; --present: #4f83bd; --skip: #d38b1c; --absent: #8e5bb5; --differs: #c4453a; --bar: #5f7fa3; }
@media (prefers-color-scheme: dark) { :root { --ink: #e3e8ee; --soft: #9da8b6; --rule: #36404c; --ground: #13171c; --card: #1c222a;
  --link: #7fb9f6; --done: #4fb47d; --present: #6fa3dc; --skip: #e0a23c; --absent: #b287d6; --differs: #e57468; --bar: #7d9cc0; } }
body { margin: 0 auto; padding: 2rem 1.25rem 4rem; max-width: 72rem; font: 1rem/1.5 system-ui, sans-serif; color: var(--ink); background: var(--ground); }
h1 { font-size: 1.7rem; line-height: 1.2; margin: 0 0 .3rem; }
h2 { font-size: 1.2rem; margin: 2.4rem 0 .4rem; padding-top: .6rem; border-top: 1px solid var(--rule); }
p { margin: .4rem 0; max-width: 52rem; }
a { color: var(--link); }
.soft, th, footer { color: var(--soft); }
.tiles { display: flex; flex-wrap: wrap; gap: .75rem; padding: 0; margin: 1.2rem 0; list-style: none; }
.tiles li { flex: 1 1 8.5rem; padding: .7rem .9rem; background: var(--card); border: 1px solid var(--rule); border-radius: .5rem; font-size: .92rem; }
.tiles b { display: block; font-size: 1.4rem; line-height: 1.3; }
#verdict { font-size: 1.15rem; padding: .7rem .9rem; border-left: .3rem solid var(--skip); background: var(--card); }
#verdict.good { border-color: var(--done); }
.notes { margin: 1rem 0; padding: .6rem 1rem .6rem 2rem; border-left: .3rem solid var(--skip); background: var(--card); }
.wide { overflow-x: auto; margin: .6rem 0 1rem; }
table { border-collapse: collapse; width: 100%; font-size: .92rem; }
th, td { padding: .32rem .9rem .32rem 0; text-align: left; vertical-align: top; border-bottom: 1px solid var(--rule); }
th { font-weight: 600; vertical-align: bottom; }
tfoot { font-weight: 600; }
.n { text-align: right; white-space: nowrap; font-variant-numeric: tabular-nums; }
#numbers td:first-child { min-width: 8rem; }
#numbers .n, #kinds .n, #causes .n, #whys .n, #sizes .n, #troubles .n { width: 1%; }
#kinds td:first-child, #causes td:first-child, #troubles td:first-child, #whys td:first-child, #sizes td:first-child { width: 1%; white-space: nowrap; }
@media screen { #events td { min-width: 6rem; } #events td:nth-child(5) { min-width: 22rem; } }
.bar { width: 30%; min-width: 7rem; }
#sizes .bar { width: 70%; }
.bar i { display: block; height: .85rem; margin-top: .27rem; min-width: 1px; background: var(--bar);
  -webkit-print-color-adjust: exact; print-color-adjust: exact; }
.done, .same { --bar: var(--done); } .present, .alike { --bar: var(--present); } .absent { --bar: var(--absent); }
.skip, .extra, .stray, #causes, #troubles { --bar: var(--skip); } .differs, #whys { --bar: var(--differs); }
code, bdi { font-family: ui-monospace, monospace; font-size: .95em; white-space: pre-wrap; overflow-wrap: anywhere; }
footer { margin-top: 3rem; font-size: .9rem; }
@media print { body { max-width: none; padding: 0; font-size: 10pt; } table { font-size: 8.5pt; } .wide { overflow: visible; }
  h2 { break-after: avoid; } tr, .tiles li { break-inside: avoid; } }
</style>
</head>
<body>
<h1>Report of pairtree2ocfl</h1>
"""
TAIL = r"""<footer>
<p>Folders of objects are named from below <code>pairtree_root</code>. What can't be seen or turns the direction of a text is shown everywhere
as <code>\u{..}</code> with its number in hex, and <code>\</code> is doubled.</p>
</footer>
</body>
</html>
"""
