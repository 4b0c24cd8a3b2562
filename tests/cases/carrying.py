"""Cases of `migrate`: what is carried, where it lies, and what the log says of it."""

import random

from running import Case, Run, ends, fault
from stores import ABC, DIR, FIFO, ONE, ONE_DONE, ONE_ROOT, SOCKET, Link
from stores import done, present, root, skip, staged, store, stored, with_inventory

END_ALONE = b'{"as":"end","done":0,"present":0,"skip":0}\n'
DIGEST_OF_ABC = (
    b"ddaf35a193617abacc417349ae20413112e6fa4e89a97ea20a9eeee64b55d39a"
    b"2192992a274fc1a836ba3c23a3feebbd454d4423643ce80e2a9ac94fa54ca49f"
)
DIGEST_OF_NOTHING = (
    b"cf83e1357eefb8bdf1542850d66d8007d620e4050b5715dc83f4a921d36ce9ce"
    b"47d0d13c5d85f2b0ff8318d2877eec2f63b931bd47417a81a538327af927da3e"
)


def inventory(identifier, manifest, state, algorithm=b"sha512"):
    """An inventory's text, from the texts of its manifest and state."""
    return (
        b'{"digestAlgorithm":"%s","head":"v1","id":"%s","manifest":{%s},'
        b'"type":"https://ocfl.io/1.1/spec/#inventory","versions":{"v1":{"created":"2024-05-01T12:00:00Z",'
        b'"message":"Migrated from Pairtree","state":{%s},"user":{"name":"Ada"}}}}'
    ) % (algorithm, identifier, manifest, state)


def literal(place, content, text, algorithm="sha512"):
    """An object of these files and of this inventory, at a place that is written out."""
    files = {"0=ocfl_object_1.1": b"ocfl_object_1.1\n", **with_inventory(text, algorithm)}
    files.update({f"v1/content/{path}": held for path, held in content.items()})
    return {f"ocfl/{place}/{path}": held for path, held in files.items()}


def one_object():
    """The store of one object, with every text of its destination and its log written out."""
    text = inventory(
        b"abc", b'"%s":["v1/content/a.txt"]' % DIGEST_OF_ABC, b'"%s":["a.txt"]' % DIGEST_OF_ABC
    )
    config = b'{"digestAlgorithm":"sha256","extensionName":"0003-hash-and-id-n-tuple-storage-layout",'
    dest = {
        "ocfl/0=ocfl_1.1": b"ocfl_1.1\n",
        "ocfl/ocfl_layout.json": b'{"description":"SHA-256 of the identifier in tuples, then the encoded identifier",'
        b'"extension":"0003-hash-and-id-n-tuple-storage-layout"}',
        "ocfl/extensions/0003-hash-and-id-n-tuple-storage-layout/config.json": config
        + b'"numberOfTuples":3,"tupleSize":3}',
        **literal("ba7/816/bf8/abc", ABC, text),
    }
    log = (
        b'{"as":"done","at":"ab/c/obj","bytes":3,"empty":0,"files":1,"id":"abc","to":"ba7/816/bf8/abc"}\n'
        b'{"as":"end","done":1,"present":0,"skip":0}\n'
    )
    again = (
        b'{"as":"present","at":"ab/c/obj","id":"abc","to":"ba7/816/bf8/abc"}\n'
        b'{"as":"end","done":0,"present":1,"skip":0}\n'
    )
    late = {"pairtree_root/ab/c/obj/m": Link("a.txt")}
    yield Case("one object, and a second run over it", ONE, Run(log, dest, 0), Run(again, dest, 1))
    yield Case("an object that is present isn't looked into", ONE, Run(log, dest, 0), Run(again, dest, 1, grow=late))
    yield Case("gathering changes nothing of a plain store", ONE, Run(log, dest, 0, words=["--gather"]))
    yield Case("folders by relative paths", ONE, Run(log, dest, 0, relative=True))
    yield Case("folders that end in a slash", ONE, Run(log, dest, 0, source="s/", dest_name="d/"))


def logs_written_out():
    """Logs, written out."""
    spelled = store({"^6/1b/c/one/a.txt": b"abc", "ab/c/two/b.txt": b""})
    log = (
        b'{"as":"done","at":"^6/1b/c/one","bytes":3,"empty":0,"files":1,"id":"abc","to":"ba7/816/bf8/abc"}\n'
        b'{"as":"present","at":"ab/c/two","id":"abc","to":"ba7/816/bf8/abc"}\n'
        b'{"as":"end","done":1,"present":1,"skip":0}\n'
    )
    yield Case("one identifier in two places", spelled, Run(log, ONE_ROOT, 1))
    yield Case("an empty store", store({}), Run(END_ALONE, root(), 0), Run(END_ALONE, root(), 0))
    causes = store({"a/bc/obj": DIR, "de": DIR, "readme": b"read me"})
    log = (
        b'{"as":"skip","at":"","cause":"root"}\n'
        b'{"as":"skip","at":"a/bc","cause":"past"}\n'
        b'{"as":"skip","at":"de","cause":"empty"}\n'
        b'{"as":"end","done":0,"present":0,"skip":3}\n'
    )
    yield Case("the causes root, past and empty", causes, Run(log, root(), 1))
    log = (
        b'{"as":"skip","at":"^f/f","cause":"utf8"}\n'
        b'{"as":"skip","at":"a^/2","cause":"name"}\n'
        b'{"as":"end","done":0,"present":0,"skip":2}\n'
    )
    yield Case("the causes utf8 and name", store({"^f/f/obj/x": b"", "a^/2/obj/x": b""}), Run(log, root(), 1))


def later_logs_written_out():
    """The logs of options, written out."""
    log = (
        b'{"as":"done","at":"ab/c","bytes":3,"empty":0,"files":2,"id":"abc","to":"ba7/816/bf8/abc"}\n'
        b'{"as":"end","done":1,"present":0,"skip":0}\n'
    )
    split = b'{"as":"skip","at":"ab/c","cause":"split"}\n{"as":"end","done":0,"present":0,"skip":1}\n'
    both = root(stored("abc", {"notes.txt": b"abc", "obj/f": b""}))
    beside = store({"ab/c/notes.txt": b"abc", "ab/c/obj/f": b""})
    gathered = Run(log, both, 0, words=["--gather"])
    yield Case("a file beside the object is gathered where it is asked for", beside, gathered)
    yield Case("the cause split, and gathering in a later run", beside, Run(split, root(), 1), gathered)
    log = b'{"as":"skip","at":"ex/te/ns/io/ns","cause":"reserved"}\n{"as":"end","done":0,"present":0,"skip":1}\n'
    run = Run(log, root(layout=(0, 0)), 1, words=["--tuple-size", "0", "--tuples", "0"])
    yield Case("the cause reserved", store({"ex/te/ns/io/ns/obj/f": b""}), run)


def inventories_written_out():
    """Inventories, written out."""
    text = inventory(
        b"abcd",
        b'"%s":["v1/content/c"],"%s":["v1/content/a/x"]' % (DIGEST_OF_NOTHING, DIGEST_OF_ABC),
        b'"%s":["c"],"%s":["a/x","a.txt"]' % (DIGEST_OF_NOTHING, DIGEST_OF_ABC),
    )
    files = {"a/x": b"abc", "a.txt": b"abc", "c": b""}
    dest = root(literal("88d/426/6fd/abcd", {"a/x": b"abc", "c": b""}, text))
    line = {"as": "done", "at": "ab/cd/obj", "bytes": 6, "empty": 0, "files": 3, "id": "abcd", "to": "88d/426/6fd/abcd"}
    source = store({f"ab/cd/obj/{path}": content for path, content in files.items()})
    yield Case("equal contents are stored once", source, ends([line], dest))
    bare = root(literal("ba7/816/bf8/abc", {}, inventory(b"abc", b"", b"")))
    line = {"as": "done", "at": "ab/c/obj", "bytes": 0, "empty": 1, "files": 0, "id": "abc", "to": "ba7/816/bf8/abc"}
    yield Case("an object of one empty directory", store({"ab/c/obj/e": DIR}), ends([line], bare))
    yield Case("an object that is an empty directory", store({"ab/c/obj": DIR}), ends([line], bare))


def escapes_written_out():
    """The texts of sha256 and of names that JSON escapes, written out."""
    digest = b"ba7816bf8f01cfea414140de5dae2223b00361a396177a9cb410ff61f20015ad"
    text = inventory(b"abc", b'"%s":["v1/content/a.txt"]' % digest, b'"%s":["a.txt"]' % digest, b"sha256")
    dest = root(literal("ba7/816/bf8/abc", ABC, text, "sha256"))
    yield Case("sha256", ONE, ends([ONE_DONE], dest, words=["--digest", "sha256"]))
    quoted = b'"%s":["v1/content/q\\"x"]' % DIGEST_OF_ABC
    text = inventory(b"abc", quoted, quoted.replace(b"v1/content/", b""))
    dest = root(literal("ba7/816/bf8/abc", {'q"x': b"abc"}, text))
    yield Case("a quote in a name", store({'ab/c/obj/q"x': b"abc"}), ends([ONE_DONE], dest))
    low = b'"%s":["v1/content/a\\u0001b"]' % DIGEST_OF_NOTHING
    text = inventory(b"\\n", low, low.replace(b"v1/content/", b""))
    place = "01b/a47/19c/%0a"
    log = (
        b'{"as":"done","at":"^0/a/obj","bytes":0,"empty":0,"files":1,"id":"\\n","to":"%s"}\n' % place.encode()
        + b'{"as":"end","done":1,"present":0,"skip":0}\n'
    )
    source = store({"^0/a/obj/a\x01b": b""})
    yield Case("the identifier of one line feed", source, Run(log, root(literal(place, {"a\x01b": b""}, text)), 0))
    every = "".join(map(chr, range(1, 32))) + '"\\\x7f\u00e9\U0001f4d6'
    escaped = (
        b"\\u0001\\u0002\\u0003\\u0004\\u0005\\u0006\\u0007\\b\\t\\n\\u000b\\f\\r\\u000e\\u000f\\u0010\\u0011\\u0012"
        b"\\u0013\\u0014\\u0015\\u0016\\u0017\\u0018\\u0019\\u001a\\u001b\\u001c\\u001d\\u001e\\u001f"
        b'\\"\\\\\x7f\xc3\xa9\xf0\x9f\x93\x96'
    )
    manifest, state = (b'"%s":["%s%s"]' % (DIGEST_OF_ABC, front, escaped) for front in (b"v1/content/", b""))
    dest = root(literal("ba7/816/bf8/abc", {every: b"abc"}, inventory(b"abc", manifest, state)))
    yield Case("every escape of a name", store({f"ab/c/obj/{every}": b"abc"}), ends([ONE_DONE], dest))


def object_of(name, files, empty=0, **more):
    """The case of one object with these files, at one identifier."""
    source = store({f"ab/c/obj/{path}": content for path, content in {**files, **more}.items()})
    return Case(name, source, ends([done("ab/c/obj", "abc", files, empty)], root(stored("abc", files))))


def contents():
    """What an object may hold."""
    letters = {"f0": 0, "f1": 8191, "f2": 8192, "f3": 8193}
    yield object_of("files at the edges of a block", {name: b"a" * size for name, size in letters.items()})
    noise = random.Random(1).randbytes(300_000)
    yield object_of("a file of many blocks", {"noise": noise, "most": noise[:-1], "again": noise})
    yield object_of("files of 16384 and 16385 bytes", {"a": b"z" * 16384, "b": b"z" * 16385})
    deep = {"a/b/c/d": b"1", "a/b/c.txt": b"2", "a/b.txt": b"3", "a.txt": b"4", "a b/x": b"5", "a/B": b"1"}
    yield object_of("nested directories in walk order", deep)
    bare = {"d/e": DIR, "e/f/g": DIR, "z": DIR}
    yield object_of("empty directories are counted", {"x": b"1", "d/y": b"2"}, 3, **bare)
    pairs = {"ab/cd": b"1", "pairtree_root/ef/gh/obj/x": b"2", "pairtree_version0_1": b"3", "ocfl": b"4"}
    yield object_of("a Pairtree in an object is its files", pairs)
    names = [".hidden", "..x", "-x", "a b", " ", "%41", "^41", "~", "a:b*"]
    names += ["x" * 255, "\u00e9", "e\u0301", "\u65e5\u672c"]
    yield object_of("names of many kinds", {name: name.encode() for name in names})
    tops = {"inventory.json": b"{}", "0=ocfl_object_1.1": b"", "v1/content/x": b"1", "staging": b"2"}
    yield object_of("names that OCFL uses itself", tops)
    yield from longest_paths()
    yield object_of("513 contents", {f"f{i:03}": b"%d" % i for i in range(513)})
    yield object_of("900 files, many of them equal", {f"f{i:03}": b"%d" % (i * i % 701) for i in range(900)})
    inner = "/".join(["d"] * 597)
    yield object_of("a directory of an object at the greatest depth", {f"{inner}/f": b"deep"})
    run = ends([skip("ab/c", "limit")], root())
    yield Case("a directory of an object that is too deep", store({f"ab/c/obj/{inner}/d": DIR}), run)
    dest = root(stored("abc", ABC), stored("abd", ABC))
    run = ends([ONE_DONE, done("ab/d/obj", "abd", ABC)], dest)
    yield Case("equal contents in two objects are stored twice", {**ONE, "pairtree_root/ab/d/obj/a.txt": b"abc"}, run)


def longest_paths():
    """Paths at the greatest length that can be reached at the longest place, and at the greatest that is looked at."""
    folders = "/".join(["d" * 249] * 15)
    # `d/staging/v1/content/` has 21 bytes, the longest place 175 more than `staging`, of which 12 are tuples.
    files = {f"{folders}/{'f' * (4095 - 175 - 21 - 3750)}": b"long"}
    source = store({f"ab/c/obj/{path}": content for path, content in files.items()})
    run = ends([done("ab/c/obj", "abc", files)], root(stored("abc", files)), relative=True)
    yield Case("the longest path that can be reached at its place", source, run)
    left = root(staged({"0=ocfl_object_1.1": b"ocfl_object_1.1\n", f"v1/content/{folders}": DIR}))
    for name, length in {"one byte more": 150, "4000 bytes": 250}.items():
        long = store({f"ab/c/obj/{folders}/{'f' * length}": b"long"})
        yield Case(f"a path of {name}, which can't be reached at its place", long, fault(2, left, relative=True))
    run = ends([skip("ab/c", "limit")], root())
    yield Case("a path of 4001 bytes", store({f"ab/c/obj/{folders}/{'f' * 251}": b"long"}), run)
    none = {"tuples": ["--tuples", "0", "--tuple-size", "0"], "files": {f"{folders}/{'f' * (149 + 12)}": b"long"}}
    source = store({f"ab/c/obj/{path}": content for path, content in none["files"].items()})
    bare = root(stored("abc", none["files"], layout=(0, 0)), layout=(0, 0))
    line = done("ab/c/obj", "abc", none["files"], layout=(0, 0))
    run = ends([line], bare, relative=True, words=none["tuples"])
    yield Case("the longest path where there are no tuples", source, run)


def named(name, shorties, identifier, place=None, prefix=None):
    """The case of one object at these shorties, whose identifier is this one."""
    files = {"f": identifier.encode()}
    line = done(f"{shorties}/obj", identifier, files)
    if place:
        assert line["to"] == place, line
    source = store({f"{shorties}/obj/f": files["f"]}, prefix)
    return Case(name, source, ends([line], root(stored(identifier, files))))


def identifiers():
    """Identifiers, read back from the names of directories, and their places."""
    ark = "4b8/4fe/385/ark%3a%2f13030%2fxt12t3"
    yield named("an ARK", "ar/k+/=1/30/30/=x/t1/2t/3", "ark:/13030/xt12t3", ark)
    horrible = "487/326/d8c/%2e%2ehor%2frib%3ale-%24id"
    yield named("dots and colons", ",,/ho/r=/ri/b+/le/-$/id", "..hor/rib:le-$id", horrible)
    yield named("a hyphen and digits", "ob/je/ct/-0/1", "object-01", "3c0/ff4/240/object-01")
    what = "fd1/d8a/b04/what-the-%2a%40%3f%23%21%5e%21%3f"
    yield named("escapes cut in two", "wh/at/-t/he/-^/2a/@^/3f/#!/^5/e!/^3/f", "what-the-*@?#!^!?", what)
    yield named("a character of two bytes", "^c/3^/a9", "\u00e9")
    yield named("hex digits of either case", "^2/A^/2a", "**")
    yield named("characters that stand for themselves", 'a"/*</>?/\\|/:.', 'a"*<>?\\|:.')
    yield named("quote and backslash in an identifier", "^2/2^/5c", '"\\')
    hundred = "/".join(["aa"] * 50)
    yield named("an identifier of 100 letters", hundred, "a" * 100)
    yield named("an identifier of 101 letters", f"{hundred}/a", "a" * 101)
    yield named("34 slashes", "/".join(["=="] * 17), "/" * 34)
    yield named("a prefix", "bc", "abc", "ba7/816/bf8/abc", b"a\n")
    yield named("a prefix with line ends of both kinds", "x", "uc1.x", prefix=b"uc1.\r\n\n")
    yield named("a prefix that is a line feed alone", "ab/c", "abc", prefix=b"\n")
    yield named("an empty prefix file", "ab/c", "abc", prefix=b"")
    yield named("line ends inside a prefix stay", "x", "a\r\nbx", prefix=b"a\r\nb\r")
    yield named("a prefix of 1024 bytes", "ab/c", "p" * 1024 + "abc", prefix=b"p" * 1024)
    yield named("a prefix that isn't ASCII", "ab/c", "\u00fc^=abc", prefix="\u00fc^=".encode())


def sites():
    """Which directories are sites, which are objects, and the order of the lines."""
    inner, outer = {"f": b"abc"}, {"f": b""}
    both = [done("ab/cd/abcd", "abcd", inner), done("ab/cd/e/abcde", "abcde", outer)]
    dest = root(stored("abcd", inner), stored("abcde", outer))
    source = store({"ab/cd/abcd/f": b"abc", "ab/cd/e/abcde/f": b""})
    yield Case("an identifier that begins another", source, ends(both, dest))
    run = ends([skip("ab/c", "split")], root())
    yield Case("two directories in a site", store({"ab/c/one/f": b"1", "ab/c/two/f": b"2"}), run)
    yield Case("a file of a short name in a site", store({"ab/c/f": b"1"}), run)
    for kind, other in {"link": Link("/"), "pipe": FIFO, "socket": SOCKET}.items():
        yield Case(f"a {kind} alone in a site", store({"ab/c/other": other}), run)
        yield Case(f"a {kind} of a short name beside an object", store({"ab/c/obj/f": b"1", "ab/c/o": other}), run)
    run = ends([skip("ab/c/ob", "past")], root())
    yield Case("a directory of a short name below one byte", store({"ab/c/ob/f": b"1"}), run)
    run = ends([skip("", "root"), ONE_DONE], ONE_ROOT)
    yield Case("a file in the root beside clean sites", {**ONE, "pairtree_root/readme": b"1"}, run)
    yield Case("a long name in the root beside clean sites", {**ONE, "pairtree_root/pairtree_x/f": b"1"}, run)
    yield Case("a link in the root beside clean sites", {**ONE, "pairtree_root/l": Link("ab")}, run)
    found = {"B": "B", "_": "_", "a": "a", "aa": "aa", "b": "b"}
    source = store({f"{shorty}/obj/a.txt": b"abc" for shorty in reversed(found)})
    run = ends([done(f"{shorty}/obj", found[shorty], ABC) for shorty in found], root(*(stored(i, ABC) for i in found)))
    yield Case("sites come in the order of the bytes of their names", source, run)
    for name in ("^", "^2", "^g", "a^", "a\n", "a\x7f", "a ", "\u00e9"):
        run = ends([skip(name, "name")], root())
        yield Case(f"the shorty {name!r} reads nothing", store({f"{name}/obj/f": b"1"}), run)
    beside = {"notes": b"1", "link": Link("pairtree_root"), "pairtree_other/f": b"2", "pipe": FIFO}
    yield Case("other names at the top of the store", {**ONE, **beside}, ends([ONE_DONE], ONE_ROOT))
    many = {f"x{number:04d}": {f"f{k}": b"%d" % (number * k % 7) for k in range(number % 4)} for number in range(300)}
    below = {f"{i[:2]}/{i[2:4]}/{i[4:]}/{i}": files for i, files in many.items()}
    tree = {f"{at}/{path}": held for at, files in below.items() for path, held in files.items()}
    tree.update({at: DIR for at, files in below.items() if not files})
    entries = [done(at, at[-5:], files, int(not files)) for at, files in below.items()]
    run = ends(entries, root(*(stored(i, files) for i, files in many.items())))
    yield Case("300 objects", store(tree), run)


def others():
    """Entries that are neither file nor directory: the object isn't carried, and nothing is followed."""
    run = ends([skip("ab/c", "other")], root())
    kinds = {
        "a link to a file": Link("a.txt"),
        "a link to a directory": Link("../obj"),
        "a link to nothing": Link("nothing"),
        "a pipe": FIFO,
        "a socket": SOCKET,
    }
    for name, other in kinds.items():
        yield Case(f"{name} in an object", {**ONE, "pairtree_root/ab/c/obj/m": other}, run)
    yield Case("a link deep in an object", {**ONE, "pairtree_root/ab/c/obj/d/e/m": Link("/etc")}, run)
    after = {**ONE, "pairtree_root/ab/c/obj/m": FIFO, "pairtree_root/ab/d/obj/a.txt": b"abc"}
    run = ends([skip("ab/c", "other"), done("ab/d/obj", "abd", ABC)], root(stored("abd", ABC)))
    yield Case("the object after one with a pipe", after, run)
    twice = store({"^6/1b/c/obj/m": FIFO, "ab/c/obj/a.txt": b"abc"})
    run = ends([skip("^6/1b/c", "other"), ONE_DONE], ONE_ROOT)
    yield Case("an object that isn't carried takes no place", twice, run)


def gathering():
    """Sites that are carried as one object each, without their shorties."""
    words = ["--gather"]
    upper, lower = {"x": b"abc"}, {"f.txt": b""}
    source = store({"ab/cd/x": b"abc", "ab/cd/ef/f.txt": b""})
    log = (
        b'{"as":"done","at":"ab/cd","bytes":3,"empty":0,"files":1,"id":"abcd","to":"88d/426/6fd/abcd"}\n'
    )
    dest = root(stored("abcd", upper), stored("abcdef", lower))
    run = ends([done("ab/cd", "abcd", upper), done("ab/cd/ef", "abcdef", lower)], dest, words=words)
    assert run.out.startswith(log)
    yield Case("a gathered site above another", source, run)
    run = ends([skip("ab/c", "other")], root(), words=words)
    yield Case("gathering a site of one pipe", store({"ab/c/m": FIFO}), run)
    yield Case("gathering a link beside an object", store({"ab/c/m": Link("obj"), "ab/c/obj/f": b"1"}), run)
    run = ends([skip("", "root"), ONE_DONE], ONE_ROOT, words=words)
    yield Case("gathering leaves the root's files", {**ONE, "pairtree_root/readme": b"1"}, run)
    run = ends([skip("de", "empty")], root(), words=words)
    yield Case("gathering leaves an empty site", store({"de": DIR}), run)
    files = {"one/f": b"1", "two/f": b"2", "one.txt": b"2"}
    line = done("ab/c", "abc", files, 1)
    source = store({**{f"ab/c/{path}": held for path, held in files.items()}, "ab/c/three": DIR})
    yield Case("gathering two directories and a file", source, ends([line], root(stored("abc", files)), words=words))
    source = store({"a/x.txt": b"1", "a/bc/obj/f": b"2", "a/d/f": b"3"})
    entries = [done("a", "a", {"x.txt": b"1"}), skip("a/bc", "past"), skip("a/d", "past")]
    run = ends(entries, root(stored("a", {"x.txt": b"1"})), words=words)
    yield Case("gathering a site of one byte with shorties", source, run)
    run = ends([skip("^f/f", "utf8"), skip("a^/2", "name")], root(), words=words)
    yield Case("gathering reads identifiers alike", store({"^f/f/x.txt": b"", "a^/2/x.txt": b""}), run)


def chains():
    """Sites at the greatest depth and beyond it."""
    chain = {count: "/".join(["ab"] * count) for count in (599, 600, 601)}
    yield named("599 directories above an object", chain[599], "ab" * 599)
    for count in (600, 601):
        run = ends([skip(chain[count], "limit")], root())
        yield Case(f"{count} directories above an object", store({f"{chain[count]}/obj/f": b""}), run)
    files = {"f": b"abc"}
    run = ends([done(chain[600], "ab" * 600, files)], root(stored("ab" * 600, files)), words=["--gather"])
    yield Case("gathering at the greatest depth", store({f"{chain[600]}/f": b"abc"}), run)
    run = ends([skip(chain[600], "limit")], root(), words=["--gather"])
    source = store({f"{chain[600]}/f": b"", f"{chain[600]}/obj/f": b""})
    yield Case("gathering a directory that is too deep", source, run)


def layouts():
    """Tuples of other sizes and numbers."""
    layout_of = lambda size, count: ["--tuple-size", str(size), "--tuples", str(count)]
    for size, count, place in ((2, 4, "ba/78/16/bf/abc"), (0, 0, "abc"), (3, 3, "ba7/816/bf8/abc")):
        layout = (size, count)
        line = done("ab/c/obj", "abc", ABC, layout=layout)
        assert line["to"] == place
        dest = root(stored("abc", ABC, layout), layout=layout)
        first = ends([line], dest, words=layout_of(size, count))
        other = fault(8, dest, words=layout_of(3, 2))
        again = ends([present("ab/c/obj", "abc", layout)], dest, words=layout_of(size, count))
        yield Case(f"{count} tuples of {size}", ONE, first, other, again)
    for layout in ((32, 2), (1, 32), (2, 32), (32, 1), (1, 1)):
        dest = root(stored("abc", ABC, layout), layout=layout)
        run = ends([done("ab/c/obj", "abc", ABC, layout=layout)], dest, words=layout_of(*layout))
        yield Case(f"{layout[1]} tuples of {layout[0]}", ONE, run)
    letters = [chr(ord("a") + number) + "x" for number in range(26)]
    entries = [done(f"{letter}/obj", letter, ABC, layout=(1, 1)) for letter in letters]
    dest = root(*(stored(letter, ABC, (1, 1)) for letter in letters), layout=(1, 1))
    run = ends(entries, dest, words=layout_of(1, 1))
    yield Case("objects that share their tuples", store({f"{letter}/obj/a.txt": b"abc" for letter in letters}), run)
    for layout in ((2, 4), (0, 0)):
        run = fault(8, root(), words=layout_of(*layout))
        yield Case(f"a root of other tuples than {layout[1]} of {layout[0]}", ONE, run, dest=root())
    source = store({"si/on/s/obj/f": b"", "si/on/s+/obj/f": b""}, prefix=b"exten")
    layout, files = (0, 0), {"f": b""}
    entries = [skip("si/on/s", "reserved"), done("si/on/s+/obj", "extensions:", files, layout=layout)]
    dest = root(stored("extensions:", files, layout), layout=layout)
    yield Case("the cause reserved by a prefix", source, ends(entries, dest, words=layout_of(0, 0)))


PARTS = (
    *(one_object, logs_written_out, later_logs_written_out, inventories_written_out, escapes_written_out),
    *(contents, identifiers, sites, others, gathering, chains, layouts),
)
CASES = [case for part in PARTS for case in part()]
