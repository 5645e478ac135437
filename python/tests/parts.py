"""The parts of python/test; each answers whether nothing is wrong."""
import contextlib
import doctest
import importlib
import io
import os
import pathlib
import shutil
import subprocess
import sys
import tempfile
import unittest

sys.path.append(str(pathlib.Path(__file__).resolve().parents[2] / "tools"))
from repository import EXAMPLES, TOP  # noqa: E402

sys.path[:0] = [str(TOP / "check"), str(TOP / "capi" / "tests")]
MODULES = ("seatlaw", "seatlaw._library", "seatlaw.calls", "seatlaw.errors", "seatlaw.inputs", "seatlaw.many", "seatlaw.reports", "seatlaw.simulation", "seatlaw.tables")


def package(args):
    suite = unittest.TestSuite(unittest.defaultTestLoader.loadTestsFromName(name) for name in ("test_package", "test_explanations", "test_many"))
    result = unittest.TextTestRunner(stream=sys.stdout, verbosity=0).run(suite)
    found = [doctest.testmod(importlib.import_module(name)) for name in MODULES]
    failed, tried = sum(it.failed for it in found), sum(it.attempted for it in found)
    print("package: %d tests, %d examples of its texts, %d are wrong" % (result.testsRun, tried, failed + len(result.failures) + len(result.errors)))
    return not failed and result.wasSuccessful()


@contextlib.contextmanager
def copy_of_top():
    """A folder with what the pages' scripts read, and room for what they write."""
    before = os.getcwd()
    with tempfile.TemporaryDirectory() as name:
        os.symlink(EXAMPLES, os.path.join(name, "examples"))
        os.makedirs(os.path.join(name, "docs", "simulations"))
        os.chdir(name)
        try:
            yield pathlib.Path(name)
        finally:
            os.chdir(before)


def told(snippet, names):
    """What a script writes."""
    out = io.StringIO()
    with contextlib.redirect_stdout(out):
        exec(compile(snippet.code, "line %d" % snippet.line, "exec"), names)
    return out.getvalue()


def wrong_scripts(page):
    """The scripts of a page that write something else than is shown, run one after the other."""
    from snippets import snippets

    names = {"__name__": "page"}
    for snippet in snippets(page, "python"):
        if ">>>" in snippet.code:
            test = doctest.DocTestParser().get_doctest(snippet.code, names, page.name, str(page), snippet.line)
            runner = doctest.DocTestRunner(optionflags=doctest.NORMALIZE_WHITESPACE | doctest.ELLIPSIS)
            runner.run(test, clear_globs=False)
            names = test.globs
            yield 1, runner.failures
            continue
        came = told(snippet, names)
        is_wrong = came.rstrip() != (snippet.wanted or "").rstrip()
        if is_wrong:
            print("%s:%d writes\n%s" % (page.name, snippet.line, came))
        yield 1, int(is_wrong)


def pages(args):
    with copy_of_top() as folder:
        found = [it for name in ("python", "simulations") for it in wrong_scripts(TOP / "docs" / (name + ".md"))]
        pictures = sorted((folder / "docs" / "simulations").glob("*.png"))
        for picture in pictures if args.pictures else []:
            shutil.copy(picture, TOP / "docs" / "simulations")
    wrong = sum(failed for _, failed in found)
    print("pages: %d snippets, %d pictures, %d are wrong" % (len(found), len(pictures), wrong))
    return not wrong


def random(args):
    import doors
    import random_requests

    cases = list(random_requests.random_cases(args.random, args.seed, doors.by_python))
    wrong = doors.tried("Python", args.program)
    return not wrong + doors.compared("Python", "random", cases, doors.by_python(cases), doors.by_program(args.program, cases))


def wheel(args):
    """The wheel, and one built of the source distribution, each alone in a new environment, with what the package's first example says."""
    code = "import seatlaw; r = seatlaw.Returns.from_file('examples/elections/2025.csv'); print(seatlaw.__file__, seatlaw.count('@2023', r).seats['CDU'])"
    environment = {key: value for key, value in os.environ.items() if key not in ("SEATLAW_LIBRARY", "PYTHONPATH")}
    with tempfile.TemporaryDirectory() as name:
        subprocess.run([str(TOP / "python" / "build"), "--venv", name], check=True, stdout=subprocess.DEVNULL)
        python = os.path.join(name, "bin", "python")
        first = subprocess.run([python, "-c", code], env=environment, capture_output=True, text=True)
        source = next((TOP / "python" / "out").glob("*.tar.gz"))
        words = ["-m", "pip", "install", "--quiet", "--no-index", "--no-deps", "--no-build-isolation", "--force-reinstall", str(source)]
        again = subprocess.run([python, *words], env=environment, capture_output=True, text=True)
        second = subprocess.run([python, "-c", code], env=environment, capture_output=True, text=True)
    good = all(it.returncode == 0 and it.stdout.startswith(name) and it.stdout.endswith("164\n") for it in (first, second)) and again.returncode == 0
    print("wheel: %s" % ("installed from the wheel and from the source distribution" if good else [first, again, second]))
    return good


def types(args):
    done = subprocess.run([sys.executable, "-m", "mypy", "--ignore-missing-imports", "--cache-dir=/dev/null", str(TOP / "python" / "seatlaw")], capture_output=True, text=True)
    print("types: %s" % (done.stdout.strip() or done.stderr.strip()))
    return done.returncode == 0


def cluster(args):
    import chunked

    return chunked.tested()


def times(args):
    import timed

    timed.measured(args.rows)
    return True
