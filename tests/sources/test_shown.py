"""The README and pages of docs/ show what stands in the repository."""

import re

from common import read

# An excerpt: the path in the sentence before it, and its lines, where `// ..` or `# ..` stands for lines that are left out.
EXCERPT = re.compile(r"`((?:crates|bindings)/[^`]+)`[^`]*:\n\n?```(?:rust|c|python)\n(.*?)```\n", re.S)


def check_excerpts(page):
    excerpts = EXCERPT.findall(page)
    assert len(excerpts) == len(re.findall(r"^```(?:rust|c|python)$", page, re.M))
    assert excerpts
    for file, code in excerpts:
        program = "\n" + read(file)
        for part in re.split(r"^ *(?://|#) \.\.\n", code, flags=re.M):
            assert part.strip()
            assert "\n" + part in program


def test_excerpts_in_the_readme():
    check_excerpts(read("README.md"))


def test_excerpts_in_the_guide():
    check_excerpts(read("docs", "using.md"))


def test_script_in_the_page_of_scripts():
    script, report = (read("examples", f"first.{kind}").splitlines() for kind in ("csv", "out"))
    lines = [f"{row:22}{line}" for row, line in zip([*script, ""], report)]
    assert "\n".join(["```text", *lines, "```"]) in read("docs", "scripts.md")
