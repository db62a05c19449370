"""Makes the wheel of bindings/python with libcapt.so in it: packaging/make.sh copies this beside pyproject.toml.

The library is called by ctypes. So the wheel is of no version of Python, but of a platform, which CAPT_PLATFORM names.
"""

import os

from setuptools import setup
from wheel.bdist_wheel import bdist_wheel


class PlatformWheel(bdist_wheel):
    def finalize_options(self):
        super().finalize_options()
        self.root_is_pure = False

    def get_tag(self):
        return "py3", "none", os.environ["CAPT_PLATFORM"]


setup(cmdclass={"bdist_wheel": PlatformWheel})
