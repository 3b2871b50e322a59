"""How Sphinx makes the site of tools/reference."""

import os
import re
import shutil

project = "sweep_bptree"
extensions = ["myst_parser"]
root_doc = "index"
html_theme = "furo"
html_title = "sweep_bptree"
html_static_path = ["site.css"]
html_css_files = ["site.css"]
html_copy_source = False
html_show_sphinx = False
html_show_copyright = False
html_use_index = False
default_role = "literal"
highlight_language = "none"
NORMALIZE = "/usr/share/javascript/normalize.css/normalize.css"


def complete_theme(app, failed):
    """Makes what Debian's package of the theme loads from elsewhere a part of the site.

    Its script imports another one, which no browser does in a plain script. Its style sheet imports one from the root of the server.
    """
    if failed:
        return
    static = os.path.join(app.outdir, "_static")
    scripts = os.path.join(static, "scripts")
    pieces = [read(os.path.join(scripts, name)) for name in ("gumshoe-patched.js", "furo.js")]
    if pieces[1].startswith("import "):
        write(os.path.join(scripts, "furo.js"), pieces[0] + re.sub(r"^import .*\n", "", pieces[1]))
    styles = os.path.join(static, "styles")
    css = read(os.path.join(styles, "furo.css"))
    if "url(/javascript/" in css:
        shutil.copy(NORMALIZE, styles)
        write(os.path.join(styles, "furo.css"), re.sub(r"url\(/javascript/[^)]*\)", "url(normalize.css)", css))


def read(path):
    with open(path, encoding="utf-8") as file:
        return file.read()


def write(path, text):
    with open(path, "w", encoding="utf-8") as file:
        file.write(text)


def setup(app):
    app.connect("build-finished", complete_theme)
