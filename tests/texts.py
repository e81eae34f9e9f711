#!/usr/bin/env python3
"""Tests what tools make of text from outside: UTF-8 comes out as it came in, and characters that aren't to be seen come
out replaced, in pictures, pages, plots and lines.

Usage: tests/texts.py

Nothing has to be built: in the place of `why` stands a program that says what is known of the trace. Plots are left out
where no Python here has matplotlib, and a line says so. Exits with 1 where a check failed.
"""

import json
import os
import sys
import tempfile
import unicodedata
import xml.etree.ElementTree as xml
from collections.abc import Iterator
from functools import partial
from pathlib import Path

from common import ROOT, Check, Script, called_bytes, left_out

Results = Iterator[Check]
WHY = ("hurt 4 true epoch 1 try 1 core 1 lost 3 entered 2 since 2 by 0 core 0 cause 5 commit load 3 00000004 store 2 "
       "00000014 at 00000040 4\n"
       "attempt 0 epoch 0 try 1 core 0 done 4 committed 5 by 0 core 0\n"
       "attempt 1 epoch 1 try 1 core 1 done 3 violated 4 by 0 core 0\n"
       "attempt 6 epoch 1 try 2 core 1 done 4 committed 8 by 1 core 1\n"
       "epoch 1 rollbacks 1 lost 3\npair store 00000014 load 00000004 rollbacks 1 lost 3 true 1 silent 0 false 0 "
       "buffer "
       "0 stale 1 vain 0 later 0 distance 1 1 at 00000040 4\n"
       "line 00000040 rollbacks 1 lost 3 true 1 silent 0 false 0 buffer 0\npc 00000004 victim 1 3 causer 0 0\npc "
       "00000014 victim 0 0 causer 1 3\nkind true rollbacks 1 lost 3\n"
       "total epochs 2 committed 2 useful 8 rollbacks 1 lost 3 cancelled 0 dropped 0 open 0 unsettled 0\n")
# ESC, BEL and DEL drive a terminal; U+202E turns what follows it; FF ends a line for some; a byte that isn't UTF-8;
# what XML has no way to say.
UNSEEN = b"\x1b]0;x\x07\x7f\xe2\x80\xae\x0c\x85\xff\xef\xbf\xbe\x00"
NAME, ABOUT = "Zähler".encode(), "Ein Zähler, 計数 <&>".encode()
GAIN = "store caches cores 1 steps 9 gain 1.00 useful 9 " + " ".join(f"{name} 0" for name in (
    "lost dropped waiting idle restarts true silent false buffer nothomefree noway orbfull orbbusy").split()) + "\n"


def traced(about: bytes, name: bytes) -> bytes:
    """The worked trace, with remarks."""
    remarks = b"# " + about + b".\n# " + name + b" 00000040 4\n# code 00000004 " + name + b".c:7\n"
    return remarks + (ROOT / "examples" / "traces" / "waits.trace").read_bytes()


def tool(words: list[str], text: bytes, **environment: str) -> tuple[bytes, bytes, int]:
    done = called_bytes([str(ROOT / "tools" / words[0]), *words[1:]], text, env={**os.environ, **environment})
    return done.stdout, done.stderr, done.returncode


def unseen_in(text: str) -> list[str]:
    """The characters of a text that nobody is to see: by Unicode's categories and directions, line ends aside."""
    return [one for one in text if one != "\n"
            and (unicodedata.category(one) in ("Cc", "Cs", "Zl", "Zp") or one == "\ufffe"
                 or unicodedata.bidirectional(one) in (
        "LRE", "RLE", "LRO", "RLO", "PDF", "LRI", "RLI", "FSI", "PDI") or one in "\u200e\u200f\u061c")]


def tools(folder: Path) -> Results:
    """(what it shows, what is wrong or None) of the tools that read a trace."""
    why = folder / "why"
    why.write_text(f"#!/bin/sh\ncat > /dev/null\ncat <<'END'\n{WHY}END\n")
    why.chmod(0o755)
    for words in (["picture"], ["picture", "--overview"], ["picture", "--perfetto"], ["named", "--say"]):
        for locale in ("C.UTF-8", "C", "POSIX"):
            out, errors, status = tool([*words, "--why", str(why)], traced(ABOUT, NAME), LC_ALL=locale, PYTHONUTF8="0",
                                       PYTHONCOERCECLOCALE="0")
            told = json.dumps(json.loads(out), ensure_ascii=False) if "--perfetto" in words else out.decode("utf-8")
            yield (f"{' '.join(words)} in {locale}: UTF-8",
                   None if (errors, status) == (b"", 0) and "Zähler" in told
                   else f"{errors!r}, {status}, {told[:200]!r}")
        out, errors, status = tool([*words, "--why", str(why)], traced(ABOUT + UNSEEN, NAME + UNSEEN + b"<"))
        told = json.dumps(json.loads(out), ensure_ascii=False) if "--perfetto" in words else out.decode("utf-8")
        yield (f"{' '.join(words)}: what isn't to be seen",
               None if (errors, status, unseen_in(told)) == (b"", 0, [])
               else f"{errors!r}, {status}, {unseen_in(told)}")
        if out.startswith(b"<svg"):
            texts = [text.text or "" for text in xml.fromstring(out).iter("{http://www.w3.org/2000/svg}text")]
            yield (f"{' '.join(words)}: it is XML",
                   None if any(text.startswith("Ein Zähler, 計数 <&>\ufffd") for text in texts) else f"{texts}")


def forms(folder: Path) -> Results:
    """A text goes through JSON and back as it was, byte for byte."""
    for name, text in (("UTF-8", traced(ABOUT, NAME)), ("bytes", traced(UNSEEN, b"\xff\xfe" + UNSEEN))):
        out, errors, status = tool(["json"], text)
        back = tool(["json", "--back"], out)
        yield f"json and back: {name}", None if (errors, status, back) == (b"", 0,
                                                                           (text, b"", 0)) else f"{errors!r}, {back!r}"
    told = json.loads(tool(["json"], traced(ABOUT, NAME))[0])
    yield ("what JSON has",
           None if told["content"]["image"]["remarks"][0] == " " + ABOUT.decode() + "."
           else f"{told['content']['image']['remarks']}")
    stub = folder / "trace_cli"
    stub.write_text("#!/bin/sh\ncat > \"$0.read\"\nprintf 'end done 0\\ncounts 0 0 0 0\\ntrace 1\\n'\n")
    stub.chmod(0o755)
    image = traced(ABOUT + UNSEEN, NAME).partition(b"trace ")[0]
    (folder / "loop.image").write_bytes(image)
    out, errors, status = tool(["trace", str(folder / "loop.image"), "1"], b"", LOOPS_PROGRAMS=str(folder))
    right = (out, errors, status) == (image + b"trace 1\n", b"",
                                      0) and (folder / "trace_cli.read").read_bytes() == image
    yield "trace hands an image on as it is", None if right else f"{out!r}, {errors!r}, {status}"


def plots(folder: Path) -> Results:
    """Names of loops in plots: no mark-up of Matplotlib's, and nothing that isn't to be seen."""
    for name in (r"$\frac{$", r"$x^2$", "Zähler", "a\x1b\u202e\x0cb"):
        path = folder / f"{len(name)}.txt"
        path.write_text(GAIN)
        out, errors, status = tool(["plot", f"{name}={path}"], b"")
        if b"is not installed" in errors:
            left_out("names in plots", "python3-matplotlib isn't installed")
            return
        texts = ["".join(text.itertext())
                 for text in xml.fromstring(out).iter("{http://www.w3.org/2000/svg}text")] if status == 0 else []
        wanted = name.translate({0x1b: "\ufffd", 0x202e: "\ufffd", 0x0c: "\ufffd"})
        yield (f"a loop called {name!r}",
               None if (errors, status) == (b"", 0) and wanted in texts
               else f"{errors[-200:]!r}, {status}, {texts[:3]}")


def main() -> int:
    script = Script()
    with tempfile.TemporaryDirectory() as folder:
        script.run(*[partial(part, Path(folder)) for part in (tools, forms, plots)])
    return script.ended()


if __name__ == "__main__":
    sys.exit(main())
