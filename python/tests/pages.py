"""Runs the sessions of a page, and compares what they print: pages.py PAGE.md. Those of a heading run by themselves."""
import doctest
import re
import sys

if __name__ == "__main__":
    with open(sys.argv[1], encoding="utf-8") as page:
        # The fences aren't a part of what is printed.
        text = re.sub(r"^```.*$", "", page.read(), flags=re.M)
    failed = tried = 0
    for part in re.split(r"^#+ ", text, flags=re.M):
        test = doctest.DocTestParser().get_doctest(part, {}, part.partition("\n")[0], sys.argv[1], 0)
        wrong, done = doctest.DocTestRunner(optionflags=doctest.NORMALIZE_WHITESPACE).run(test)
        failed, tried = failed + wrong, tried + done
    print("%s: %d examples, %d other answers" % (sys.argv[1], tried, failed))
    sys.exit(bool(failed or not tried))
