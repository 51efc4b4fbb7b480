"""The kit's command rt, as a module: for what its words do not ask for."""

import importlib.machinery
import importlib.util
import os
import subprocess


def load():
    page = subprocess.run(["rt", "doc"], check=True, stdout=subprocess.PIPE, universal_newlines=True).stdout.strip()
    loader = importlib.machinery.SourceFileLoader("rt", os.path.join(os.path.dirname(page), "bin", "rt"))
    made = importlib.util.module_from_spec(importlib.util.spec_from_loader("rt", loader))
    loader.exec_module(made)
    return made


# The status of a check in which the prover came to a limit.
AT_LIMIT = 3


def must_fail(rt, crate, edit, flags, kept=None):
    """Whether the prover refuses the crate with this edit, and a line that says so.

    Kits answer the first by a Boolean, or by one of several words. To those that know a Boolean alone an edit with which the prover comes to a limit has not
    reached it: but the crate is not proved with it, so it is refused."""
    answer, said = rt.must_fail(crate, edit, flags, kept)
    if not isinstance(answer, bool):
        return answer in (rt.REFUSED, rt.AT_LIMIT), said
    if not answer and "it did not reach the prover" in said:
        texts, _ = rt.read_edit(edit, crate.folder)
        if rt.checked(crate, texts, flags, kept).returncode == AT_LIMIT:
            return True, f"must-fail {crate.name}/{os.path.basename(edit)}: refused, as it must be: the prover comes to a limit"
    return answer, said
