"""The kit's own `rt`, for what it has no command for: a check of a crate with an edit, over the libraries that `rt ci` or
`rt check` left in crates/NAME/out, and the archive of a static library over these. `rt check` and `rt lib` would build
anew every library that `rt ci` left, since it leaves them without a stamp.

kit.py archive NAME     proves a static library and writes crates/NAME/out/libNAME.a (tools/programs.sh calls this)
"""
import functools
import glob
import importlib.machinery
import importlib.util
import os
import shutil
import sys

sys.dont_write_bytecode = True
sys.path.insert(0, os.path.dirname(os.path.realpath(__file__)))
import command  # noqa: E402

ROOT = command.ROOT


@functools.lru_cache(maxsize=None)
def module():
    """The kit's `rt` as a module."""
    found = shutil.which('rt')
    if not found:
        raise command.Unable('rt is missing: install the Rattle kit and put its bin folder on the PATH')
    loader = importlib.machinery.SourceFileLoader('rt_of_kit', os.path.realpath(found))
    rt = importlib.util.module_from_spec(importlib.util.spec_from_loader('rt_of_kit', loader))
    loader.exec_module(rt)
    rt.rtlib.guarded()
    rt.share_work(False)
    return rt


def crates():
    """The crates of the repository, by name, as the kit has them."""
    return {crate.name: crate for crate in module().rtlib.crates_below(ROOT)}


def made(crate):
    """When the library of a crate was put into its out/, or None. Its files may be older: `rt ci` links what it keeps."""
    there = os.path.isfile(os.path.join(crate.rlib, 'format'))
    return os.stat(crate.rlib).st_mtime_ns if there else None


def is_built(crate):
    """Whether the library of a crate stands in its out/, later than its own files and than the libraries below it."""
    if crate.is_built():
        return True
    when = made(crate)
    parts = [os.path.join(crate.folder, part) for part in ('src', 'specs', 'proofs')]
    files = [path for part in parts for path in [part, *glob.glob(os.path.join(part, '**'), recursive=True)]]
    return when is not None and all((made(dep) or when + 1) <= when for dep in crate.below()) and \
        all(os.stat(path).st_mtime_ns <= when for path in files if os.path.exists(path))


def libraries(chosen):
    """Builds the libraries below these crates that do not stand there as they should."""
    done = set()
    for crate in chosen:
        for dep in crate.below():
            if dep.name not in done:
                done.add(dep.name)
                dep.out = sys.stderr
                if not is_built(dep) and dep.build_rlib(['--jobs', '2'], anew=False):
                    raise command.Unable('the library %s cannot be built' % dep.name)


def archive(name):
    crate = crates()[name]
    held = module().rtlib.lock([crate])
    libraries([crate])
    crate.out = sys.stderr
    os.makedirs(os.path.join(crate.folder, 'out'), exist_ok=True)
    status = crate.build_static(['--jobs', '2'])
    for each in held:
        os.close(each)
    return 2 if status else 0


def words(parser):
    parser.add_argument('what', choices=('archive',))
    parser.add_argument('name', choices=list(command.listed()), metavar='NAME')


if __name__ == '__main__':
    command.run(lambda asked: archive(asked.name), __doc__, words)
