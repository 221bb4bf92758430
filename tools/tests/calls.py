"""Calls a tool in this process, and plays streams by x7 where it is built."""
from __future__ import annotations

import importlib.machinery
import importlib.util
import io
import os
import shlex
import subprocess
import sys
from types import ModuleType
from typing import Any, Sequence

from casefiles import TOOLS
import x7formats as x7
from x7run import program as program  # (for the tests)

_LOADED: dict[str, ModuleType] = {}


def tool(name: str) -> ModuleType:
    """A tool's script as a module."""
    if name not in _LOADED:
        loader = importlib.machinery.SourceFileLoader(name, os.path.join(TOOLS, name))
        spec = importlib.util.spec_from_loader(name, loader)
        assert spec is not None, name
        module = importlib.util.module_from_spec(spec)
        loader.exec_module(module)
        _LOADED[name] = module
    return _LOADED[name]


def called(name: str, *words: str) -> tuple[int, bytes, str]:
    """The status, the output as bytes, and the lines on standard error of a tool that is called with these words."""
    written, err, kept = io.BytesIO(), io.StringIO(), (sys.stdout, sys.stderr, sys.argv)
    sys.stdout, sys.stderr, sys.argv = io.TextIOWrapper(written), err, [os.path.join(TOOLS, name), *words]
    try:
        status = tool(name).main(list(words)) or 0
    except x7.Refused as refused:
        status = 2
        x7.say(f"{name}: {refused}")
    except OSError as error:
        status = 2
        x7.say(f"{name}: {error.filename}: {error.strerror}")
    finally:
        sys.stdout.flush()
        data = written.getvalue()
        sys.stdout, sys.stderr, sys.argv = kept
    return status, data, err.getvalue()


def ran(name: str, *words: str, **how: Any) -> tuple[int, bytes, str]:
    """The status, output and error of a tool that is run as a program."""
    command = [sys.executable, os.path.join(TOOLS, name), *words]
    done = subprocess.run(command, capture_output=True, check=False, **how)
    return done.returncode, done.stdout, done.stderr.decode("ascii", "replace")


def shell_status(name: str, words: Sequence[str], redirections: str) -> int:
    """The status of a tool that the shell runs, with these redirections after its words."""
    command = " ".join(shlex.quote(it) for it in [sys.executable, os.path.join(TOOLS, name), *words])
    return subprocess.run(["sh", "-c", f"{command} {redirections}"], check=False).returncode
