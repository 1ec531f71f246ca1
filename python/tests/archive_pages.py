"""The part of the self-test of tools/archive-check about its pages: at which relations refutations fail, and, where Jinja2 and matplotlib
are there, the pages of three runs. It goes on in the folder of the other part."""
import importlib.util

from debplan.archive import failing
from tests.trials import differs, fails

NEEDED = {"jinja2": "python3-jinja2", "matplotlib": "python3-matplotlib"}
# What check-refutation says of a refutation, in its premises and sentences; at what it fails; and by which names that is grouped.
A, B, C = ({"name": name, "version": "1"} for name in "abc")
ENDS = [
    ([{"premise": "goal", "text": "install a (= 1)"}, {"premise": "depends", "pair": A, "text": "b"},
      {"premise": "predepends", "pair": B, "text": "lib (>= 2) | x"}, {"hints": [1], "literals": []}],
     ["You ask for a (= 1) (that is a 1).", "a 1 depends on b (that is b 1).",
      "b 1 pre-depends on lib (>= 2) | x, but only lib 1 can be had, and there is no package x in any index."],
     ["b 1 pre-depends on lib (>= 2) | x"], ["lib | x"]),
    ([{"premise": "conflicts", "pair": C, "other": B, "text": "b"}, {"premise": "depends", "pair": A, "text": "b"}],
     ["a 1 depends on b (that is b 1).", "c 1 conflicts with b 1."], ["c 1 conflicts with b 1"], ["b and c"]),
    ([{"premise": "same", "pair": A, "other": {"name": "a", "version": "2"}}], ["a 1 and a 2 are two versions of one package."],
     ["and a 2"], ["a"]),
    ([{"premise": "goal", "text": "install dash"}], ["You ask for dash, but there is no package dash in any index."],
     ["install dash"], ["dash"]),
    ([{"premise": "essential", "name": "dash"}], ["dash is essential and may not be removed."], [], []),
]
INDICES = f"{'0' * 64}\ttesting\tforky\tindex\n"
STANZA = "package: {name}\nVersion: {version}\nMaintainer: A <b>bold</b> & \"quoted\" <{name}@example.org>\n"
# The packages that are broken in three runs: what they fail at, by the day of the run.
RUNS = {
    "2026-01-01": {"bar 1": "libfoo", "foo 1:1~rc1": "libfoo (>= 2)", "old 1": "libold", "zap 1": "libfoo"},
    "2026-01-02": {"foo 1:1~rc1": "libfoo (>= 2)", "zap 1": "libfoo"},
    "2026-01-03": {"bar 2": "libfoo", "foo 1:1~rc2": "libfoo (>= 3)", "new 1": "libnew", "zap 1": "libfoo"},
}
# As in archive_tests.
CALLS = [
    ("pages run-2026-01-03 run-2026-01-01 run-2026-01-02 --output pages/of/runs --title <Debian>", 0, "", ""),
    ("pages run-2026-01-03 run-2026-01-01 run-2026-01-02 --output pages/of/runs --title <Debian>", 0, "", ""),
    ("pages report --output of-report", 0, "", ""),
    ("pages none --output of-none", 0, "", ""),
    ("pages report --output report", 1, "", "report: has indices, which is none of the pages\n"),
    ("pages kept --output of-kept", 1, "", "kept: has no file survey, so it's no whole report of a run\n"),
    ("pages --output nowhere", 64, "", ".."),
]
ESCAPED = "A &lt;b&gt;bold&lt;/b&gt; &amp; &#34;quoted&#34; &lt;{}@example.org&gt;"
PACKAGE = "pages/of/runs/packages/foo_1:1~rc2"
WRITTEN = {
    "pages/of/runs/index.html": f"..<h1>&lt;Debian&gt;</h1>..4 of 9 packages..<h3>libfoo (3 packages)</h3>..bar 2..{ESCAPED.format('bar')}"
                                "..since 2026-01-03</..<a href=\"packages/foo_1%3A1~rc2/index.html\">foo 1:1~rc2</a>..depends on libfoo "
                                "(&gt;= 3)..since 2026-01-01, or longer..zap 1..<h3>libnew</h3>..new 1..testing forky index..",
    "pages/of/runs/counts.svg": "<?xml..2026-01-01..2026-01-03..</svg>\n",
    f"{PACKAGE}/index.html": f"..<li>foo 1:1~rc2 depends on libfoo (&gt;= 3), but it isn&#39;t there.</li>..{ESCAPED.format('foo')}"
                             "..foo 1:1~rc2..2026-01-01, or longer..<a href=\"request\">..",
    f"{PACKAGE}/stanza.txt": STANZA.format(name="foo", version="1:1~rc2"),
    f"{PACKAGE}/request": "install foo (= 1:1~rc2)\n",
    "of-report/packages/other_1/index.html": "..depends on nowhere..",
    "of-none/index.html": "..0 of 1 packages..",
}


def left_out():
    """What isn't tried."""
    missing = [package for name, package in NEEDED.items() if importlib.util.find_spec(name) is None]
    return [f"pages, for {' and '.join(missing)} {'are' if missing[1:] else 'is'} missing"] if missing else []


def tried_in(room):
    """Yields of each refutation, of each call, and of each file that the calls leave, why it isn't as it is wanted, or None."""
    yield from map(fails_to_end, ENDS)
    if left_out():
        return
    for day, broken in RUNS.items():
        write_run(room / f"run-{day}", day, broken)
    yield from (fails(room, call, options=()) for call in CALLS)
    yield from (differs(room, *it) for it in WRITTEN.items())
    yield next((f"{path} has a name as markup" for path in (room / "pages").glob("**/*.html") if "<b>" in path.read_text("utf-8")), None)


def fails_to_end(row):
    lines, sentences, wanted, names = row
    found = failing.relations_in({"lines": lines, "reasons": sentences})
    told = [failing.written(it, "a 1") for it in found], list(map(failing.names_in, found))
    return None if told == (wanted, names) else f"{sentences} fails at {told}, and not at {(wanted, names)}"


def write_run(folder, day, broken):
    """Writes the report of a run."""
    count = f"checked 9, broken {len(broken)}\n"
    texts = {"survey": "".join(f"broken {package}\n" for package in broken) + count, "when": f"{day}T06:00:00Z\n", "indices": INDICES}
    for package, relation in broken.items():
        name, version = package.split()
        more = {"request": f"install {name} (= {version})\n", "refutation": "refutation 1\n", "indices": INDICES,
                "sentences": f"{package} depends on {relation}, but it isn't there.\n", "relations": f"depends\t{relation}\t{package}\n",
                "stanza.txt": STANZA.format(name=name, version=version)}
        texts |= {f"{name}_{version}/{kind}": text for kind, text in more.items()}
    for name, text in texts.items():
        (folder / name).parent.mkdir(parents=True, exist_ok=True)
        (folder / name).write_text(text, encoding="utf-8")
