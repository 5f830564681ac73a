"""Takes the program along that the repository carries, with the script that starts it. All else stands in setup.cfg."""
import os

from setuptools import setup
from setuptools.command.build_py import build_py

try:
    from setuptools.command.bdist_wheel import bdist_wheel
except ImportError:
    from wheel.bdist_wheel import bdist_wheel

CARRIED = ('release/dask', 'tools/start.sh')


def clone():
    """The repository. pip before 21.3 builds in a copy of this folder, so that it is looked for where pip was called, too."""
    called = os.environ.get('PWD', os.curdir)
    for folder in (os.path.dirname(os.path.dirname(os.path.abspath(__file__))), called, os.path.dirname(called)):
        if all(os.path.isfile(os.path.join(folder, file)) for file in CARRIED):
            return folder
    raise FileNotFoundError(f'{", ".join(CARRIED)}: call pip in the clone of the repository')


class Build(build_py):
    def run(self):
        super().run()
        if getattr(self, 'editable_mode', False):
            return  # the package finds the clone itself
        target = os.path.join(self.build_lib, 'yitrovana', 'program')
        self.mkpath(target)
        for source in CARRIED:
            self.copy_file(os.path.join(clone(), source), os.path.join(target, os.path.basename(source)))


class Wheel(bdist_wheel):
    """One for every Python on machines that the program runs on."""

    def finalize_options(self):
        super().finalize_options()
        self.root_is_pure = False

    def get_tag(self):
        return 'py3', 'none', super().get_tag()[2]


setup(cmdclass={'build_py': Build, 'bdist_wheel': Wheel})
