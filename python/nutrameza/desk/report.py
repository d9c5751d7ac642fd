"""The report: the policy view as one file that needs nothing beside it, for the record."""

import datetime
import os
from html import escape

from .. import __version__, library
from . import page
from .view import Loaded, accepted

FOLDER = os.path.dirname(os.path.abspath(__file__))


def static(name: str) -> bytes:
    """A file that stands beside the modules."""
    with open(os.path.join(FOLDER, name), "rb") as file:
        return file.read()


def report(loaded: Loaded) -> str:
    """The report of an accepted policy; it has no script and asks for no other file."""
    view, day = accepted(loaded), datetime.datetime.now(datetime.timezone.utc).date().isoformat()
    file = escape(loaded.file)
    style = static("desk.css").decode("utf-8")
    return f"""<!DOCTYPE html>
<html lang="en">
<head>
<meta charset="utf-8">
<meta name="viewport" content="width=device-width, initial-scale=1">
<meta http-equiv="Content-Security-Policy" content="default-src 'none'; style-src 'unsafe-inline'">
<title>{file}: policy report</title>
<style>
{style}</style>
</head>
<body class="report">
<header class="top"><div class="title"><h1>{file}</h1><span class="badge good">accepted</span></div>
<p class="made">Policy report of {day}, by nutrameza {escape(__version__)} with library {escape(library.version())}.
The policy's tidy image, which all images of the same meaning share, has the SHA-256 sum <code>{view["sum"]}</code>.</p>
</header>
<main>{page.policy_view(view)}</main>
<footer><p>Names come from the policy, numbers stand in brackets. What a role carries, who may take it and whether the
policy is accepted are answers of the proved library; the figures of exclusions are those of the proved program
nutrameza_survey. This page, which shows them, is tested and not proved.</p></footer>
</body>
</html>
"""
